#!/usr/bin/env python3
"""An independent checker of LRAT proofs: reverse unit propagation along the hints, and nothing else.

    lrat_check.py CNF PROOF

A line of PROOF is `id lits 0 hints 0`; ids grow, the clauses of CNF have 1 to C. RAT steps (hints
below 0) and deletions are not accepted. Prints `verified` with status 0 where each line follows and
one line is the empty clause, and else the first line that doesn't follow, with status 1.
"""
import sys


def read_cnf(path):
    """The number of variables and the clauses of a DIMACS file."""
    variables, count, numbers = None, None, []
    with open(path) as file:
        for line in file:
            if line.startswith("c") or not line.strip():
                continue
            words = line.split()
            if words[0] == "p":
                variables, count = int(words[2]), int(words[3])
            else:
                numbers.extend(map(int, words))
    clauses, clause = [], []
    for number in numbers:
        if number == 0:
            clauses.append(clause)
            clause = []
        else:
            clause.append(number)
    if clause or len(clauses) != count:
        raise ValueError(f"{path}: wrong count of clauses")
    return variables, clauses


def check_line(known, words):
    """The clause of a line, or a word that says what is wrong with it."""
    first_zero = words.index(0, 1)
    lits, hints = words[1:first_zero], words[first_zero + 1:]
    if not hints or hints[-1] != 0 or 0 in hints[:-1]:
        return None, "form"
    true = {-lit for lit in lits}
    if any(-lit in true for lit in true):
        return None, "tautology"
    for place, hint in enumerate(hints[:-1]):
        if hint not in known:
            return None, f"no clause {hint}"
        left = {lit for lit in known[hint] if -lit not in true}
        if not left:
            return (lits, None) if place == len(hints) - 2 else (None, "hint behind the end")
        if len(left) > 1 or next(iter(left)) in true:
            return None, f"clause {hint} is not unit"
        true |= left
    return None, "no conflict"


def check(cnf, proof):
    """None where the proof is one, and else what is wrong."""
    _, clauses = read_cnf(cnf)
    known = {number: clause for number, clause in enumerate(clauses, 1)}
    last, empty = len(clauses), False
    with open(proof) as file:
        for number, line in enumerate(file, 1):
            words = list(map(int, line.split()))
            if words[0] <= last:
                return f"line {number}: id"
            lits, wrong = check_line(known, words)
            if wrong:
                return f"line {number}: {wrong}"
            last = words[0]
            known[last] = lits
            empty = not lits
    return None if empty else "the last line is not the empty clause"


def main():
    wrong = check(sys.argv[1], sys.argv[2])
    print(wrong or "verified")
    return 1 if wrong else 0


if __name__ == "__main__":
    sys.exit(main())
