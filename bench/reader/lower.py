#!/usr/bin/env python3
"""How long it takes to lower a program, as it grows from 32 to 512 functions.

The functions are those of run.py. `core_bench` reads a text once, and gives the least processor time of
some lowerings of it. That of 512 functions is held against the sum of its parts: 16 programs of 32
functions each.

Usage: lower.py [--rounds N] [--binary FILE]   (build it first: `rt run core_bench` in crates/core_bench)
"""
import argparse
import os
import random
import subprocess
import tempfile

import run

PARTS = 16


def program(functions, seed):
    """A text of so many functions and `main`."""
    rng = random.Random(seed)
    parts = ["struct node { int value; struct node* next; };\n"]
    parts += [run.function(rng, number) for number in range(functions - 1)]
    parts.append("int main() { return step0(NULL, 3); }\n")
    return "".join(parts)


def lowered(binary, path, text, rounds):
    """The functions, the decisions and the milliseconds."""
    with open(path, "w") as file:
        file.write(text)
    ran = subprocess.run([binary, str(rounds), path], capture_output=True, check=True)
    functions, decisions, time = ran.stdout.split()
    return int(functions), int(decisions), int(time) / 1e6


def main():
    options = argparse.ArgumentParser(description=__doc__)
    options.add_argument("--rounds", type=int, default=11)
    options.add_argument("--binary", default=os.path.join(run.ROOT, "crates", "core_bench", "out", "core_bench"))
    args = options.parse_args()
    with tempfile.TemporaryDirectory() as folder:
        path = os.path.join(folder, "text.c0")
        before = None
        print("functions    bytes decisions        ms factor")
        for functions in (32, 64, 128, 256, 512):
            text = program(functions, functions)
            count, decisions, taken = lowered(args.binary, path, text, args.rounds)
            factor = f"{taken / before:6.2f}" if before else "     -"
            print(f"{count:>9} {len(text):>8} {decisions:>9} {taken:>9.3f} {factor}")
            before = taken
        parts = sum(lowered(args.binary, path, program(512 // PARTS, seed), args.rounds)[2] for seed in range(PARTS))
        print(f"{PARTS} programs of {512 // PARTS} functions: {parts:.3f} ms")


if __name__ == "__main__":
    main()
