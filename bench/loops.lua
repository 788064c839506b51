-- loops.lua NAME STEPS TURNS: a loop of the benchmarks in Lua, so many turns of it in each step. Prints what the last step gave; `nothing` does nothing.

-- An object with a property, and with verbs.
local Room = {}
Room.__index = Room

function Room.new()
    return setmetatable({ n = 0 }, Room)
end

function Room:leaf()
end

function Room:next(n)
    return n + 1
end

function Room:fib(n)
    if n < 2 then return n end
    return self:fib(n - 1) + self:fib(n - 2)
end

-- An object that has something from an ancestor so many levels above it. Each ancestor has so many others.
local function family(levels, name, value, others)
    local below = { [name] = value }
    for level = 1, levels do
        for number = 1, others or 0 do below["other" .. level .. "_" .. number] = value end
        below = setmetatable({}, { __index = below })
    end
    return below
end

local function numbers()
    local list = {}
    for i = 1, 1000 do list[i] = 0 end
    return list
end

local loops = {}

function loops.nothing(turns)
    return 0
end

function loops.add(turns)
    local a, b, x = 1, 1, 0
    for i = 1, turns do
        x = a + b; x = a + b; x = a + b; x = a + b; x = a + b; x = a + b; x = a + b; x = a + b; x = a + b; x = a + b
        x = a + b; x = a + b; x = a + b; x = a + b; x = a + b; x = a + b; x = a + b; x = a + b; x = a + b; x = a + b
    end
    return turns
end

function loops.count(turns)
    local i = 0
    while i < turns do i = i + 1 end
    return i
end

function loops.read(turns)
    local this, x = Room.new(), 0
    for i = 1, turns do
        x = this.n; x = this.n; x = this.n; x = this.n; x = this.n; x = this.n; x = this.n; x = this.n; x = this.n; x = this.n
    end
    return this.n
end

function loops.write(turns)
    local this = Room.new()
    for i = 1, turns do
        this.n = i; this.n = i; this.n = i; this.n = i; this.n = i; this.n = i; this.n = i; this.n = i; this.n = i; this.n = i
    end
    return this.n
end

function loops.update(turns)
    local this = Room.new()
    for i = 1, turns do
        this.n = this.n + 1; this.n = this.n + 1; this.n = this.n + 1; this.n = this.n + 1; this.n = this.n + 1
        this.n = this.n + 1; this.n = this.n + 1; this.n = this.n + 1; this.n = this.n + 1; this.n = this.n + 1
    end
    return this.n
end

function loops.append(turns)
    local l = {}
    for i = 1, turns do l[#l + 1] = i end
    return #l
end

function loops.join(turns)
    local s
    for j = 1, turns // 1000 do
        s = ""
        for i = 1, 1000 do s = s .. "x" end
    end
    return #s
end

function loops.put(turns)
    local x = numbers()
    for j = 1, turns // 1000 do
        for i = 1, 1000 do x[i] = i end
    end
    return x[1000]
end

function loops.call(turns)
    local this = Room.new()
    for i = 1, turns do
        this:leaf(); this:leaf(); this:leaf(); this:leaf(); this:leaf(); this:leaf(); this:leaf(); this:leaf(); this:leaf(); this:leaf()
    end
    return turns
end

function loops.next(turns)
    local this = Room.new()
    for i = 1, turns do
        this:next(i); this:next(i); this:next(i); this:next(i); this:next(i); this:next(i); this:next(i); this:next(i); this:next(i); this:next(i)
    end
    return turns
end

function loops.fib(turns)
    return Room.new():fib(turns)
end

function loops.length(turns)
    local l, f, x = numbers(), rawlen, 0
    for i = 1, turns do
        x = f(l); x = f(l); x = f(l); x = f(l); x = f(l); x = f(l); x = f(l); x = f(l); x = f(l); x = f(l)
    end
    return #l
end

local function inherit(levels)
    return function(turns)
        local o, x = family(levels, "p", 7), 0
        for i = 1, turns do
            x = o.p; x = o.p; x = o.p; x = o.p; x = o.p; x = o.p; x = o.p; x = o.p; x = o.p; x = o.p
        end
        return o.p
    end
end

local function find(levels, others)
    return function(turns)
        local o = family(levels, "last", function() end, others)
        for i = 1, turns do
            o:last(); o:last(); o:last(); o:last(); o:last(); o:last(); o:last(); o:last(); o:last(); o:last()
        end
        return turns
    end
end

loops.inherit1, loops.inherit4, loops.inherit16 = inherit(1), inherit(4), inherit(16)
loops.find1, loops.find8, loops.classes = find(1), find(8), find(6, 40)

local given
for _ = 1, tonumber(arg[2]) do
    given = loops[arg[1]](tonumber(arg[3]))
end
print(given)
