local x, odd, i = 12345, 0, 0
while i < 500000 do
  x = (x * 1664525 + 1013904223) & 0xffffffff
  if (x * 2147483648) & 0xffffffff == 0 then odd = odd - 1 else odd = odd + 1 end
  i = i + 1
end
local r = (x + odd) & 0xffffffff
if r >= 0x80000000 then r = r - 0x100000000 end
io.stderr:write("result ", r, "\n")
