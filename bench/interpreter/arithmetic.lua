local i, s = 0, 1
while i < 1000000 do
  s = (s * 3 + i - 7) & 0xffffffff
  i = i + 1
end
if s >= 0x80000000 then s = s - 0x100000000 end
io.stderr:write("result ", s, "\n")
