local i, s = 0, 0
while true do
  assert(0 <= i and i <= 500000 and s == i * 3)
  if not (i < 500000) then break end
  s = s + 3
  i = i + 1
end
io.stderr:write("result ", s, "\n")
