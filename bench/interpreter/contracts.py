import sys
def clamp(x, most):
    assert 0 <= x and 0 <= most
    r = x if x < most else most
    assert 0 <= r and r <= most
    return r
s = i = 0
while i < 200000:
    c = clamp(i, 1000)
    s = s + c
    i = i + 1
sys.stderr.write("result %d\n" % s)
