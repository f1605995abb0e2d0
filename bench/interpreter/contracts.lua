local function clamp(x, most)
  assert(0 <= x and 0 <= most)
  local r
  if x < most then r = x else r = most end
  assert(0 <= r and r <= most)
  return r
end
local s, i = 0, 0
while i < 200000 do
  local c = clamp(i, 1000)
  s = s + c
  i = i + 1
end
io.stderr:write("result ", s, "\n")
