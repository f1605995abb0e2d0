import sys
x, odd, i = 12345, 0, 0
while i < 500000:
    x = (x * 1664525 + 1013904223) & 0xffffffff
    if (x * 2147483648) & 0xffffffff == 0:
        odd = odd - 1
    else:
        odd = odd + 1
    i = i + 1
r = (x + odd) & 0xffffffff
if r >= 0x80000000:
    r -= 0x100000000
sys.stderr.write("result %d\n" % r)
