import sys
i, s = 0, 1
while i < 1000000:
    s = (s * 3 + i - 7) & 0xffffffff
    i = i + 1
if s >= 0x80000000:
    s -= 0x100000000
sys.stderr.write("result %d\n" % s)
