#!/usr/bin/env python3
"""Runs the six programs of this folder beside the same work in Lua 5.4 and Python 3, and prints the
ratio of our time to each peer's. Peers that aren't installed are skipped."""
import math
import os
import shutil
import subprocess
import sys
import time

HERE = os.path.dirname(os.path.abspath(__file__))
ROOT = os.path.dirname(os.path.dirname(HERE))
OURS = os.path.join(ROOT, "crates", "gradual_cli", "out", "gradual_cli")
NAMES = ["arithmetic", "nested", "recursion", "mixing", "contracts", "invariant"]
PEERS = [("lua5.4", ".lua"), ("python3", ".py")]
RUNS = 5


def measure(words):
    """The best time of some runs in seconds, and the last line on the error output."""
    best, said = math.inf, ""
    for _ in range(RUNS):
        start = time.perf_counter()
        done = subprocess.run(words, capture_output=True, text=True)
        best = min(best, time.perf_counter() - start)
        said = done.stderr.strip().split("\n")[-1]
    return best, said


def main():
    if not os.access(OURS, os.X_OK):
        sys.exit("the program isn't built: run ./gradual once")
    peers = [(name, end) for name, end in PEERS if shutil.which(name)]
    print("cores: %d, best of %d runs" % (os.cpu_count(), RUNS))
    print("%-12s %10s" % ("program", "ours ms") + "".join("  %8s ms %8s" % (n, "ratio") for n, _ in peers))
    products = [1.0] * len(peers)
    wrong = 0
    for name in NAMES:
        ours, answer = measure([OURS, "run", "--steps", "10000000", os.path.join(HERE, name + ".c0")])
        line = "%-12s %10.1f" % (name, ours * 1000)
        for i, (peer, end) in enumerate(peers):
            took, said = measure([peer, os.path.join(HERE, name + end)])
            if said != answer:
                wrong += 1
                line += "  (%s says %r, we %r)" % (peer, said, answer)
                continue
            products[i] *= ours / took
            line += "  %11.1f %8.2f" % (took * 1000, ours / took)
        print(line)
    print("%-12s %10s" % ("mean", "") + "".join("  %11s %8.2f" % ("", p ** (1 / len(NAMES))) for p in products))
    sys.exit(1 if wrong else 0)


if __name__ == "__main__":
    main()
