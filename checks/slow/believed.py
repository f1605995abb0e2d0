#!/usr/bin/env python3
"""Counts what a reader must believe for the headline: the definitions that the clauses of `gradual` rest on.

From gradual_top/specs/Outcomes.antt (and gradual_top's other files that the clauses name) it follows the imports of the
specs/ files of this repository. A file counts with its lines without imports, comments and blank lines. Definitions of
the toolchain's own library, and laws (what is proved), aren't counted.

    checks/slow/believed.py            a line for each file, and last the sum, as docs/theorems.md has them
    checks/slow/believed.py CRATE/FILE.antt    from another file of specs/
"""
import os
import re
import sys

ROOT = os.path.join(os.path.dirname(os.path.abspath(__file__)), "..", "..", "crates")
USE = re.compile(r"^use Rattle\.(\w+)\.specs\.([\w.]+?)(?:\.\{(.*)\}| as \w+)?\s*$")
HEAD = re.compile(r"^\s*(?:abbrev )?(?:pub )?(?:record |data )?([^\s:(]+)(?: .*)?:")


def path_of(crate, module):
    """The file of a module of specs/, or None where it is a type of the code or of the toolchain."""
    path = f"{ROOT}/{crate}/specs/{module.replace('.', '/')}.antt"
    return path if not module.startswith("declared") and os.path.isfile(path) else None


def read(path):
    uses, lines = [], []
    for line in open(path, encoding="utf-8"):
        found = USE.match(line.rstrip())
        if found:
            uses.append(found.groups()[:2])
        elif line.strip() and not line.strip().startswith(("--", "use ")):
            lines.append(line)
    return uses, len(lines)


def main():
    begin = sys.argv[1] if len(sys.argv) > 1 else "gradual_top/Outcomes.antt"
    crate, name = begin.split("/")
    left, seen = [(crate, name.removesuffix(".antt"))], {}
    while left:
        at = left.pop()
        path = path_of(*at)
        if at in seen or not path:
            continue
        uses, lines = read(path)
        seen[at] = lines
        left += uses
    order = {line.split(":")[0]: i for i, line in enumerate(open(f"{ROOT}/../crates.txt")) if line[0] != "#"}
    for (crate, module), lines in sorted(seen.items(), key=lambda it: (order.get(it[0][0], 0), it[0])):
        print(f"{crate}/specs/{module}.antt {lines}")
    print(f"{sum(seen.values())} lines in {len(seen)} files")


main()
