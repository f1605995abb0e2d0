local s, i = 0, 0
while i < 100 do
  local j = 0
  while j < 100 do
    local k = 0
    while k < 100 do
      s = (s + i * j - k) & 0xffffffff
      k = k + 1
    end
    j = j + 1
  end
  i = i + 1
end
if s >= 0x80000000 then s = s - 0x100000000 end
io.stderr:write("result ", s, "\n")
