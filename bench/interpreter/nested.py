import sys
s = i = 0
while i < 100:
    j = 0
    while j < 100:
        k = 0
        while k < 100:
            s = (s + i * j - k) & 0xffffffff
            k = k + 1
        j = j + 1
    i = i + 1
if s >= 0x80000000:
    s -= 0x100000000
sys.stderr.write("result %d\n" % s)
