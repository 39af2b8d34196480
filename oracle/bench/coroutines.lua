-- Lua coroutines, measured as `oracle bench` measures the original.
local samples, batch = 101, 20000

local function report(name, step)
  local found = {}
  for i = 1, samples do
    local start = os.clock()
    for _ = 1, batch do step() end
    found[i] = (os.clock() - start) * 1e9 / batch
  end
  table.sort(found)
  print(string.format("| %s | %.1f | %.1f |", name, found[(samples + 1) / 2], found[1]))
end

local function body()
  local a, b, c, d = 1, 2, 3, 4
  while true do a = coroutine.yield(b) end
end

-- The sum keeps each call from being a tail call.
local function deep(n)
  if n == 1 then body() end
  return 1 + deep(n - 1)
end

local function sent(f, n)
  local co = coroutine.create(f)
  coroutine.resume(co, n)
  return function() coroutine.resume(co, 1) end
end

local function fall(n)
  if n == 1 then error("fall", 0) end
  return 1 + fall(n - 1)
end

report("resume + yield, 1 frame", sent(body))
report("resume + yield, 4 frames", sent(deep, 4))
report("creation", function() return coroutine.create(body) end)
report("4 calls + unwinding through them", function() pcall(fall, 4) end)
