#!/usr/bin/env python3
"""Measures how terms are made and put into clauses: the clauses and variables of each kind of term
beside its weight, queries of growing weight beside the same formulas in Z3, and the facts of
programs of growing length. Ends with status 1 where a count isn't the one that was counted by hand."""
import math
import os
import re
import resource
import shutil
import subprocess
import sys
import tempfile

HERE = os.path.dirname(os.path.abspath(__file__))
ROOT = os.path.dirname(os.path.dirname(HERE))
OURS = os.path.join(ROOT, "crates", "solver_bench", "out", "solver_bench")
RUNS = 5
ROUNDS = 5
# A peer's run of more seconds than these is made once.
SLOW = 0.5

# Each kind of term with a family that has it: its weight, variables and clauses, as counted by hand
# from the definition `circuit`; and what else comes with one more of it: the variables of a symbol,
# the clauses of a root, and other kinds.
KINDS = [
    ("Add", "add", 160, 64, 448, 32, 0, []),
    ("Sub", "sub", 160, 64, 448, 32, 0, []),
    ("Less", "less", 160, 32, 192, 32, 1, []),
    ("Equal", "equal", 64, 64, 224, 32, 1, []),
    ("Neg", "neg", 160, 64, 448, 32, 1, ["Equal"]),
    ("Choose", "choose", 96, 32, 128, 32, 1, ["Less", "Equal"]),
    ("And", "and", 32, 32, 96, 32, 0, []),
    ("Or", "or", 32, 32, 96, 32, 0, []),
    ("Xor", "xor", 32, 32, 128, 32, 0, []),
    ("Both", "both", 1, 1, 3, 1, 0, []),
    ("Either", "either", 1, 1, 3, 1, 0, []),
    ("Shl", "shl", 500, 160, 640, 32, 0, []),
    ("Shr", "shr", 500, 160, 640, 32, 0, []),
    ("Mul", "mul", 6000, 1584, 8976, 32, 0, []),
    ("Div", "div", 10000, 3489, 20804, 32, 0, []),
    ("Rem", "rem", 10000, 3488, 20800, 32, 0, []),
]

# A query's name, its family, the number of its operators, and whether Z3 is to blast it too: it takes
# minutes for the greatest ones.
QUERIES = [
    ("sum of 10", "add", 9, True),
    ("sum of 100", "add", 99, True),
    ("sum of 1,000", "add", 999, False),
    ("product", "mul", 1, True),
    ("quotient", "div", 1, True),
    ("10 shifts", "shifts", 10, True),
    ("100 shifts", "shifts", 100, False),
    ("10 products", "mul", 10, True),
    ("166 products", "mul", 166, False),
    ("99 quotients", "div", 99, False),
]

FACTS = [250, 500, 1000, 2000, 4000]


def counts(family, size):
    """Terms, weight, variables and clauses of a query."""
    done = subprocess.run([OURS, family, str(size)], capture_output=True, text=True, check=True)
    return [int(word) for word in done.stdout.split()]


def measure(family, size):
    """The counts of a query, and the best times in milliseconds: of its terms, and of its clauses."""
    best = [math.inf, math.inf]
    for _ in range(RUNS):
        done = subprocess.run([OURS, family, str(size), str(ROUNDS)], capture_output=True, text=True, check=True)
        words = [int(word) for word in done.stdout.split()]
        best = [min(a, b / 1e6) for a, b in zip(best, words[4:])]
    return words[:4], best


def kinds():
    """Prints what one more of each kind adds to a query, and counts the rows that are wrong."""
    print("%-8s %7s  %9s %9s  %9s %9s  %8s" % ("kind", "weight", "variables", "measured", "clauses", "measured", "a weight"))
    known, wrong = {}, 0
    for name, family, weight, variables, clauses, symbol, root, others in KINDS:
        found = [b - a for a, b in zip(counts(family, 2)[1:], counts(family, 3)[1:])]
        found[1] -= symbol
        found[2] -= root
        for other in others:
            found = [a - b for a, b in zip(found, known[other])]
        known[name] = found
        bad = found != [weight, variables, clauses]
        wrong += bad
        row = (name, found[0], variables, found[1], clauses, found[2], found[2] / found[0])
        print("%-8s %7d  %9d %9d  %9d %9d  %8.2f" % row + ("  WRONG" if bad else ""))
    return wrong


WORD_OPERATORS = {
    "add": "(bvadd {0} {1})",
    "mul": "(bvmul {0} {1})",
    "div": "(ite (= {1} #x00000000) #x00000000 (bvsdiv {0} {1}))",
    "shl": "(bvshl {0} (bvand {1} #x0000001f))",
    "shr": "(bvashr {0} (bvand {1} #x0000001f))",
}


def formula(family, size):
    """The query of a family of words, or the facts, in SMT-LIB."""
    lines = ["(declare-const x%d (_ BitVec 32))" % i for i in range(size + 2)]
    if family == "facts":
        lines += ["(assert (= (bvadd x%d #x00000001) (bvadd x%d #x00000001)))" % (i, i + 1) for i in range(size)]
        return "\n".join(lines) + "\n"
    whole = "x0"
    for i in range(size):
        operator = ("shl", "shr")[i % 2] if family == "shifts" else family
        part = WORD_OPERATORS[operator].format(whole, "x%d" % (i + 1))
        lines.append("(define-fun t%d () (_ BitVec 32) %s)" % (i, part))
        whole = "t%d" % i
    lines.append("(assert (= %s x%d))" % (whole, size + 1))
    return "\n".join(lines) + "\n"


def run_z3(text):
    """What Z3 prints on a text, and the seconds of processor time that it takes."""
    with tempfile.NamedTemporaryFile("w", suffix=".smt2") as file:
        file.write("(set-logic QF_BV)\n" + text)
        file.flush()
        before = resource.getrusage(resource.RUSAGE_CHILDREN)
        done = subprocess.run(["z3", file.name], capture_output=True, text=True, check=True)
        after = resource.getrusage(resource.RUSAGE_CHILDREN)
        return done.stdout, after.ru_utime - before.ru_utime + after.ru_stime - before.ru_stime


def peer(family, size):
    """Variables, clauses and milliseconds of Z3's bit-blasting of the same formula. Z3 blasts
    quotients and shifts only after its simplifier; the others are left as they are."""
    text = formula(family, size)
    first = "simplify " if family in ("div", "shifts") else ""
    tactic = "(then %sbit-blast tseitin-cnf)" % first
    printed, _ = run_z3(text + "(apply %s)\n" % tactic)
    clauses = len(re.findall(r"(?m)^  [^ ):]", printed))
    variables = len(set(re.findall(r"k!\d+", printed)))
    blasting = "(apply %s :print false)\n" % tactic
    without = min(run_z3(text)[1] for _ in range(RUNS))
    once = run_z3(text + blasting)[1]
    if once > SLOW:
        return variables, clauses, (once - without) * 1000
    took = min(run_z3(text + blasting * ROUNDS)[1] for _ in range(RUNS))
    return variables, clauses, max(took - without, 1e-6) / ROUNDS * 1000


def row(label, family, size, with_peer):
    """Prints a query's counts and times, and gives its times."""
    (terms, weight, variables, clauses), (making, blasting) = measure(family, size)
    line = "%-13s %6d %7d %9d %9d %9.3f %9.3f %9.4f" % (label, terms, weight, variables, clauses, making, blasting, blasting / weight * 1000)
    if with_peer:
        their_variables, their_clauses, took = peer(family, size)
        line += "  %9d %9d %9.2f %8.2f %8.2f" % (their_variables, their_clauses, took, clauses / their_clauses, blasting / took)
    print(line, flush=True)
    return making, blasting


def main():
    if not os.access(OURS, os.X_OK):
        sys.exit("the program isn't built: run `rt lib` or `rt check` in crates/solver_bench")
    with_peer = shutil.which("z3") is not None
    print("cores: %d, load %.1f, best of %d runs of %d rounds\n" % (os.cpu_count(), os.getloadavg()[0], RUNS, ROUNDS))
    wrong = kinds()
    heads = "%-13s %6s %7s %9s %9s %9s %9s %9s" % ("query", "terms", "weight", "variables", "clauses", "terms ms", "blast ms", "a 1000 w")
    theirs = "  %9s %9s %9s %8s %8s" % ("z3 vars", "z3 claus", "z3 ms", "clauses", "time") if with_peer else "  (no z3)"
    print("\n" + heads + theirs)
    for label, family, size, small in QUERIES:
        row(label, family, size, with_peer and small)
    print("\n" + heads)
    before = None
    for size in FACTS:
        making, blasting = row("%d facts" % size, "facts", size, False)
        if before:
            print("%-13s %6s %7s %9s %9s %9.2f %9.2f" % ("", "", "", "", "factor", making / before[0], blasting / before[1]))
        before = making, blasting
    sys.exit(1 if wrong else 0)


if __name__ == "__main__":
    main()
