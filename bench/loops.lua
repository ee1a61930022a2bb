-- The work of programs.c in Lua. It prints the seconds that one workload takes.
local Number = {}
Number.__index = Number

function Number:fib(n)
    if n < 2 then return n end
    return self:fib(n - 1) + self:fib(n - 2)
end

local function fib(n)
    if n < 2 then return n end
    return fib(n - 1) + fib(n - 2)
end

local Store = {}
Store.__index = Store

function Store:start()
    for i = 1, 5000 do
        for j = 1, 10 do
            self.put = i
            self.elements[j] = self.put
            self.got = self.elements[j]
        end
    end
end

local function arithmetic()
    local s = 0
    for k = 1, 10 do
        for i = 1, 10000 do
            s = ((s * 3 + i) & 1023) - 1
        end
    end
    return s
end

local work = {
    fib = function()
        local number = setmetatable({}, Number)
        for i = 1, 4 do number:fib(20) end
        return 0
    end,
    functions = function()
        for i = 1, 4 do fib(20) end
        return 0
    end,
    stores = function()
        local store = setmetatable({put = 0, got = 0, elements = {0, 0, 0, 0, 0, 0, 0, 0, 0, 0}}, Store)
        store:start()
        return 0
    end,
    arithmetic = arithmetic,
}

local before = os.clock()
work[arg[1]]()
print(string.format("%.9f", os.clock() - before))
