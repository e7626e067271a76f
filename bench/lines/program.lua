-- Tables, closures, strings, coroutines, errors, metatables, the parser: what a script uses of its interpreter.
local function fib(n) return n < 2 and n or fib(n - 1) + fib(n - 2) end
local Point = {}
Point.__index = Point
Point.__add = function(a, b) return setmetatable({x = a.x + b.x}, Point) end
Point.__lt = function(a, b) return a.x < b.x end
Point.__tostring = function(it) return "point " .. it.x end
local function point(x) return setmetatable({x = x}, Point) end

local list = {}
for i = 1, 50 do list[#list + 1] = (i * 37) % 41 end
table.sort(list, function(a, b) return a > b end)
print(fib(12), table.concat(list, ",", 1, 8), #list, select("#", table.unpack(list, 1, 5)))
print(tostring(point(1) + point(2)), point(1) < point(2), rawequal(list, list))

local words = {}
for word in ("the quick brown fox jumps over the lazy dog"):gmatch("%a+") do words[#words + 1] = word:upper():reverse() end
print(table.concat(words, " "), ("%5.2f|%-4d|%q|%x"):format(3.14159, 42, "a\nb", 255))
print(("key = value"):match("^(%w+)%s*=%s*(%w+)$"), ("hello"):gsub("l+", {ll = "LL"}), ("x"):rep(3, "-"), ("abc"):byte(1, -1))

local make = coroutine.wrap(function(a) for i = 1, 3 do a = coroutine.yield(a * i) end error({code = 7}) end)
print(make(2), make(3), make(4), pcall(make, 5))
print(pcall(error, "plain"), pcall(function() return nil + 1 end), xpcall(function() local t; t.x = 1 end, function(m) return #m > 0 end))
print(load("return 1 + 2 * 3 ^ 2 // 4 % 5 .. 'x', 7 & 3 | 8 ~ 1, ~5, 1 << 4, #'four', not nil")())
print(load("local = 3"), math.floor(-2.5), math.maxinteger // -1, 7 // 0.0, tostring(2^53), tonumber("0x1p4"), tonumber("z", 36))
goto done
print("never")
::done::
local sum = 0
for i = 10, 1, -3 do sum = sum + i end
while sum > 20 do sum = sum - 1 if sum == 21 then break end end
repeat sum = sum + 2 until sum % 7 == 0
local closed <close> = setmetatable({}, {__close = function() print("closed") end})
collectgarbage()
collectgarbage("generational")
for _ = 1, 200 do local _ = {{}, "a" .. _} end
collectgarbage("incremental")
print(sum, utf8.char(228, 8364), utf8.len("ä€"), next({}), type(print), string.pack("<i4", 7):byte(1, -1))
