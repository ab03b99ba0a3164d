module Lib
end
