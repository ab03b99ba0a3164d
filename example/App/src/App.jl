module App
using Lib
end
