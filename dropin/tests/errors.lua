-- errors.lua ERRORS: errors that pass compiled and interpreted frames, a C function (string.gsub)
-- and coroutines; each is caught with its own value.
local errors = tonumber(arg[1]) or 20000

local function go_down(depth, value)
  if depth == 0 then error({value = value}) end
  return go_down(depth - 1, value) + 1
end

local function by_callback(value)
  return (string.gsub("x", "x", function() go_down(3, value) end))
end

local right = 0
for i = 1, errors do
  local is_done, caught
  if i % 3 == 0 then
    is_done, caught = pcall(by_callback, i)
  elseif i % 3 == 1 then
    is_done, caught = pcall(go_down, 5, i)
  else
    is_done, caught = coroutine.resume(coroutine.create(go_down), 4, i)
  end
  assert(not is_done and caught.value == i)
  right = right + 1
end
print(right .. " errors are right")
