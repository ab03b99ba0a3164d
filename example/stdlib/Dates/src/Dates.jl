module Dates
end
