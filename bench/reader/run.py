#!/usr/bin/env python3
"""How long reading a text takes, as it grows from 1 KB to 256 KB.

Generated programs (structs, functions with contracts, loops, heap accesses) are given to the built
program. One token at the end decides how far the reading goes, so differences show the stages:

  tokens   a byte that begins no token at the end: the lexer alone
  tree     a token that begins no item at the end: lexer and parser
  whole    no fault: also the first fault of the tree, the typing rules, the numbers and the reader
           of what can be run; the answer is `not built`, at the first `struct`

Usage: run.py [--repeats N] [--binary FILE]   (build the program first, by running ./gradual once)
Each time is the least processor time of N runs of the process, less that of the empty text.
"""
import argparse
import os
import random
import resource
import subprocess
import tempfile

HERE = os.path.dirname(os.path.abspath(__file__))
ROOT = os.path.dirname(os.path.dirname(HERE))
STAGES = [
    ("tokens", "\n$\n", "bad byte"),
    ("tree", "\n)\n", "syntax"),
    ("whole", "\n", "not built"),
]


def function(rng, number):
    """The text of one function that breaks no rule."""
    callee = f"step{rng.randrange(number)}(p, i + {rng.randrange(9)})" if number else "i"
    return f"""int step{number}(struct node* p, int n)
//@requires ? && 0 <= n;
//@ensures ? && \\result >= 0 - {rng.randrange(1, 99)};
{{
  int sum = 0;
  for (int i = 0; i < n; i++)
  //@loop_invariant ? && 0 <= i && i <= n;
  {{
    if (p != NULL && i % {rng.randrange(2, 9)} == 0) {{
      p->value = p->value * {rng.randrange(1, 99)} + (sum ^ i);
      p = p->next;
    }} else {{
      sum += {callee};
    }}
    //@assert i >= 0;
  }}
  return sum < 0 ? -sum : sum;
}}
"""


def program(size, seed):
    """A text of about this many bytes."""
    rng = random.Random(seed)
    parts = ["struct node { int value; struct node* next; };\n"]
    length = len(parts[0])
    number = 0
    while True:
        part = function(rng, number)
        if length + len(part) > size - 80 and number:
            break
        parts.append(part)
        length += len(part)
        number += 1
    parts.append("int main() { return step0(NULL, 3); }")
    return "".join(parts)


def spent():
    """The processor time of all processes that have ended: other work on the machine disturbs it less
    than the time on the clock."""
    used = resource.getrusage(resource.RUSAGE_CHILDREN)
    return used.ru_utime + used.ru_stime


def least_time(binary, path, wanted, repeats):
    best = None
    for _ in range(repeats):
        start = spent()
        ran = subprocess.run([binary, "run", path], capture_output=True)
        taken = spent() - start
        if wanted and wanted not in ran.stderr.decode():
            raise SystemExit(f"{path}: wanted {wanted}, got {ran.stderr.decode()!r}")
        best = taken if best is None else min(best, taken)
    return best * 1000


def main():
    options = argparse.ArgumentParser(description=__doc__)
    options.add_argument("--repeats", type=int, default=7)
    options.add_argument("--binary", default=os.path.join(ROOT, "crates", "gradual_cli", "out", "gradual_cli"))
    args = options.parse_args()
    with tempfile.TemporaryDirectory() as folder:
        path = os.path.join(folder, "text.c0")
        open(path, "w").close()
        base = least_time(args.binary, path, "no main", args.repeats)
        print(f"the empty text: {base:.2f} ms")
        print("bytes    " + "".join(f"{name:>10} factor" for name, _, _ in STAGES))
        before = {}
        for power in range(10, 19):
            text = program(1 << power, power)
            row = f"{len(text):>7}  "
            for name, end, wanted in STAGES:
                with open(path, "w") as file:
                    file.write(text + end)
                taken = least_time(args.binary, path, wanted, args.repeats) - base
                factor = f"{taken / before[name]:6.2f}" if before.get(name, 0) > 0.05 else "     -"
                before[name] = taken
                row += f"{taken:>10.2f} {factor}"
            print(row)


if __name__ == "__main__":
    main()
