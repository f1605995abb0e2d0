#!/usr/bin/env python3
"""Runs sat_cli and the field's solvers over generated formulas: compares their answers, checks each
model and each proof, and gives their times as ratios.

    peers.py [--quick] [--answers N] [--conflicts N] [--limit SECONDS] [--rounds N] PROGRAM

PROGRAM is the built sat_cli. Peers are minisat, picosat and cadical, where they are installed.
Prints tables in Markdown; status 1 where any answer, model or proof is wrong.
"""
import argparse
import math
import os
import random
import resource
import shutil
import signal
import subprocess
import sys
import tempfile

import lrat_check
import make_formulas

PEERS = {
    "minisat": lambda cnf, out: ["minisat", "-verb=0", cnf, out],
    "picosat": lambda cnf, out: ["picosat", cnf],
    "cadical": lambda cnf, out: ["cadical", "-q", cnf],
}
NAMES = {10: "sat", 20: "unsat", 0: "unknown"}
# A shorter median says more of how a program starts than of its search.
LEAST = 0.01


def spent():
    """The processor time of all children that have ended."""
    used = resource.getrusage(resource.RUSAGE_CHILDREN)
    return used.ru_utime + used.ru_stime


class Run:
    """The answer of one solver on one formula, and its processor time: other work on the machine
    disturbs that less than the time on the clock."""

    def __init__(self, command, limit):
        start = spent()
        stop = lambda: resource.setrlimit(resource.RLIMIT_CPU, (limit, limit + 1))
        done = subprocess.run(command, capture_output=True, text=True, preexec_fn=stop)
        self.out = done.stdout
        if done.returncode == -signal.SIGXCPU:
            self.answer = "time"
        else:
            self.answer = NAMES.get(done.returncode, f"status {done.returncode} {done.stderr.strip()}")
        self.seconds = max(spent() - start, 0.0001)


class Bench:
    def __init__(self, options):
        self.options = options
        self.folder = tempfile.mkdtemp(prefix="peers")
        self.cnf = os.path.join(self.folder, "formula.cnf")
        self.proof = os.path.join(self.folder, "proof.lrat")
        self.result = os.path.join(self.folder, "result")
        self.peers = [peer for peer in PEERS if shutil.which(peer)]
        self.starts = {solver: self.start(solver) for solver in ["sat_cli"] + self.peers}
        self.wrong = []
        self.models = self.proofs = self.compared = 0

    def command(self, solver):
        if solver == "sat_cli":
            return [self.options.program, "--conflicts", str(self.options.conflicts), self.cnf]
        return PEERS[solver](self.cnf, self.result)

    def start(self, solver):
        """The least time of twenty runs on a formula of one clause: what a program takes to start."""
        with open(self.cnf, "w") as file:
            file.write("p cnf 1 1\n1 0\n")
        return min(Run(self.command(solver), self.options.limit).seconds for _ in range(20))

    def checked(self, name, formula):
        """The answer of sat_cli with a file for the proof. The model or proof is checked."""
        if os.path.exists(self.proof):
            os.remove(self.proof)
        run = Run(self.command("sat_cli") + [self.proof], self.options.limit)
        self.check(name, formula, run)
        return run

    def check(self, name, formula, run):
        if run.answer == "sat":
            self.models += 1
            wrong = wrong_model(formula, run.out)
        elif run.answer == "unsat":
            self.proofs += 1
            wrong = None if run.out == "s UNSATISFIABLE\n" else "output"
            wrong = wrong or lrat_check.check(self.cnf, self.proof)
        elif run.answer == "unknown":
            wrong = None if run.out == "s UNKNOWN\n" else "output"
        elif run.answer == "time":
            wrong = None
        else:
            wrong = run.answer
        if wrong:
            self.wrong.append(f"{name}: {wrong}")

    def solve(self, name, formula, rounds=1):
        """All solvers on one formula, in one go: the least time of so many rounds. None of them writes
        a proof then; before that sat_cli writes one, which is checked."""
        with open(self.cnf, "w") as file:
            file.write(make_formulas.text_of(formula))
        first = self.checked(name, formula)
        runs = {}
        for _ in range(rounds):
            for solver in ["sat_cli"] + self.peers:
                run = Run(self.command(solver), self.options.limit)
                if solver not in runs or run.seconds < runs[solver].seconds:
                    runs[solver] = run
        if runs["sat_cli"].answer != first.answer and "time" not in (first.answer, runs["sat_cli"].answer):
            self.wrong.append(f"{name}: {first.answer} with a proof, {runs['sat_cli'].answer} without")
        answers = {solver: run.answer for solver, run in runs.items()}
        told = {answer for answer in answers.values() if answer in ("sat", "unsat")}
        if len(told) > 1:
            self.wrong.append(f"{name}: {answers}")
        self.compared += answers["sat_cli"] in told and len([a for a in answers.values() if a in told]) > 1
        return runs


def wrong_model(formula, out):
    """None where the lines give each variable one value, in order, and satisfy the formula."""
    variables, clauses = formula
    lines = out.splitlines()
    if lines[0] != "s SATISFIABLE" or any(not line.startswith("v") or len(line) > 78 for line in lines[1:]):
        return "form"
    numbers = [int(word) for line in lines[1:] for word in line.split()[1:]]
    if [abs(number) for number in numbers] != list(range(1, variables + 1)) + [0]:
        return "values"
    true = set(numbers)
    if not all(any(lit in true for lit in clause) for clause in clauses):
        return "model"
    return None


def families(quick):
    """Each family with its sizes, and the seeds of each size."""
    some = range(3 if quick else 5)
    few = range(1 if quick else 5)
    if quick:
        return {"random": [(n, some) for n in (20, 40, 60)], "pigeons": [(n, few) for n in (3, 4, 5)],
                "sums": [(n, few) for n in (4, 6, 8)], "products": [(n, few) for n in (2, 3)],
                "shifts": [(n, few) for n in (4, 8)]}
    return {"random": [(n, some) for n in (50, 75, 100, 125, 150, 175, 200, 225)], "pigeons": [(n, few) for n in range(3, 9)],
            "sums": [(n, few) for n in (16, 32, 64, 128, 256)], "products": [(n, few) for n in range(4, 9)],
            "shifts": [(n, few) for n in (16, 32, 64, 128, 256)]}


def slope(points):
    """By how much the logarithm of the time rises with one more of size, by least squares."""
    if len({size for size, _ in points}) < 2:
        return float("nan")
    middle = sum(size for size, _ in points) / len(points)
    height = sum(math.log(seconds) for _, seconds in points) / len(points)
    above = sum((size - middle) * (math.log(seconds) - height) for size, seconds in points)
    return above / sum((size - middle) ** 2 for size, _ in points)


def mean(numbers):
    return math.exp(sum(map(math.log, numbers)) / len(numbers)) if numbers else float("nan")


def compare_answers(bench, count):
    rng = random.Random("answers")
    tally = {}
    for number in range(count):
        size = rng.randint(10, 60)
        ratio = rng.choice((3.5, 4.0, 4.26, 4.26, 5.0))
        runs = bench.solve(f"answers {number}", make_formulas.random_formula(size, f"answers {number}", ratio))
        answer = runs["sat_cli"].answer
        tally[answer] = tally.get(answer, 0) + 1
    print(f"{count} random formulas of 10 to 60 variables: {tally}\n")


def ratio_of(row, limit):
    """How many times as long as minisat, and whether that is only a lower bound: out of time."""
    own, minisat = row["sat_cli"], row["minisat"]
    if minisat.answer not in ("sat", "unsat"):
        return None
    if own.answer in ("sat", "unsat"):
        return own.seconds / minisat.seconds, False
    return limit / minisat.seconds, True


def shown(each):
    """The geometric mean of ratios; at least so much, where one is a lower bound."""
    if not each:
        return "-"
    return ("≥ " if any(late for _, late in each) else "") + f"{mean([ratio for ratio, _ in each]):.2f}"


def add_points(points, size, rows, starts):
    """The formulas of a size count for the growth where both answered them, unless minisat's median
    there is too short to be measured. What the programs take to start doesn't grow, and is taken off."""
    each = [(row["sat_cli"], row["minisat"]) for row in rows if "minisat" in row]
    each = [pair for pair in each if {run.answer for run in pair} <= {"sat", "unsat"}]
    if each and sorted(minisat.seconds for _, minisat in each)[len(each) // 2] >= LEAST:
        points["sat_cli"] += [(size, max(own.seconds - starts["sat_cli"], 0.0001)) for own, _ in each]
        points["minisat"] += [(size, max(minisat.seconds - starts["minisat"], 0.0001)) for _, minisat in each]


def cell(run):
    return f"{run.seconds:.3f}" if run.answer in ("sat", "unsat") else run.answer


def time_families(bench, quick):
    solvers = ["sat_cli"] + bench.peers
    print("Seconds of processor time, medians over the seeds; ratio is sat_cli's to minisat's.\n")
    print("| family | size | answer | " + " | ".join(solvers) + " | ratio |")
    print("|---" * (len(solvers) + 4) + "|")
    ratios = {}
    growth = {}
    for family, sizes in families(quick).items():
        points = growth[family] = {"sat_cli": [], "minisat": []}
        for size, seeds in sizes:
            rows = [bench.solve(f"{family} {size} {seed}", make_formulas.make(family, size, seed), bench.options.rounds) for seed in seeds]
            middle = {s: sorted((row[s] for row in rows), key=lambda run: run.seconds)[len(rows) // 2] for s in solvers}
            each = [ratio_of(row, bench.options.limit) for row in rows if "minisat" in row]
            each = [ratio for ratio in each if ratio]
            ratios.setdefault(family, []).extend(each)
            add_points(points, size, rows, bench.starts)
            answers = "/".join(sorted({row["sat_cli"].answer for row in rows}))
            ratio = shown(each)
            print(f"| {family} | {size} | {answers} | " + " | ".join(cell(middle[s]) for s in solvers) + f" | {ratio} |", flush=True)
    print("\n| family | formulas | of them out of time | ratio to minisat, geometric mean |\n|---|---|---|---|")
    ratios["all"] = [ratio for each in ratios.values() for ratio in each]
    for family, each in ratios.items():
        print(f"| {family} | {len(each)} | {sum(late for _, late in each)} | {shown(each)} |")
    print()
    show_growth(growth, bench.starts)


def show_growth(growth, starts):
    print("To start they take " + ", ".join(f"{solver} {seconds:.4f} s" for solver, seconds in starts.items()) + ".\n")
    print(
        "Growth: by how much the logarithm of the time, without that of the start, rises with one more of size, over "
        f"the formulas that both answered, of the sizes where minisat's median is {LEAST} s or more.\n"
    )
    print("| family | sizes | formulas | sat_cli | minisat |\n|---|---|---|---|---|")
    for family, points in growth.items():
        sizes = " ".join(str(size) for size in sorted({size for size, _ in points["minisat"]}))
        own, minisat = slope(points["sat_cli"]), slope(points["minisat"])
        print(f"| {family} | {sizes} | {len(points['minisat'])} | {own:.4f} | {minisat:.4f} |")
    print()


def main():
    parser = argparse.ArgumentParser()
    parser.add_argument("program")
    parser.add_argument("--quick", action="store_true")
    parser.add_argument("--answers", type=int)
    parser.add_argument("--conflicts", type=int, default=100000)
    parser.add_argument("--limit", type=int)
    parser.add_argument("--rounds", type=int, default=3)
    options = parser.parse_args()
    if options.limit is None:
        options.limit = 10 if options.quick else 60
    bench = Bench(options)
    compare_answers(bench, options.answers if options.answers is not None else (50 if options.quick else 2000))
    time_families(bench, options.quick)
    print(f"{bench.compared} answers compared with a peer's, {bench.models} models and {bench.proofs} proofs checked, {len(bench.wrong)} wrong.")
    for wrong in bench.wrong:
        print(f"- {wrong}")
    shutil.rmtree(bench.folder)
    return 1 if bench.wrong else 0


if __name__ == "__main__":
    sys.exit(main())
