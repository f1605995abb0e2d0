import sys
i = s = 0
while True:
    assert 0 <= i <= 500000 and s == i * 3
    if not i < 500000:
        break
    s = s + 3
    i = i + 1
sys.stderr.write("result %d\n" % s)
