#!/usr/bin/env python3
"""Formulas in the DIMACS CNF format, made from a seed.

    make_formulas.py FAMILY SIZE SEED    prints one

Families: `random` (3-clauses, SIZE variables, 4.26 clauses for each), `pigeons` (SIZE + 1 pigeons in
SIZE holes), `sums` (a + b differs from b + a at SIZE bits), `products` (the same of a * b),
`shifts` (a * 3 differs from a + a + a at SIZE bits).
"""
import random
import sys


class Circuit:
    """Clauses for gates, by Tseitin's encoding."""

    def __init__(self):
        self.variables = 0
        self.clauses = []

    def new(self):
        self.variables += 1
        return self.variables

    def word(self, width):
        return [self.new() for _ in range(width)]

    def false(self):
        out = self.new()
        self.clauses.append([-out])
        return out

    def both(self, a, b):
        out = self.new()
        self.clauses += [[-out, a], [-out, b], [out, -a, -b]]
        return out

    def differ(self, a, b):
        out = self.new()
        self.clauses += [[-out, a, b], [-out, -a, -b], [out, -a, b], [out, a, -b]]
        return out

    def most(self, a, b, c):
        out = self.new()
        self.clauses += [[-out, a, b], [-out, a, c], [-out, b, c], [out, -a, -b], [out, -a, -c], [out, -b, -c]]
        return out

    def sum(self, a, b):
        carry, bits = self.false(), []
        for x, y in zip(a, b):
            bits.append(self.differ(self.differ(x, y), carry))
            carry = self.most(x, y, carry)
        return bits

    def product(self, a, b):
        width, zero = len(a), self.false()
        total = [zero] * width
        for shift, bit in enumerate(b):
            row = [zero] * shift + [self.both(bit, x) for x in a[: width - shift]]
            total = self.sum(total, row)
        return total

    def words_differ(self, a, b):
        self.clauses.append([self.differ(x, y) for x, y in zip(a, b)])


def random_formula(variables, seed, ratio=4.26):
    rng = random.Random(f"random {variables} {seed}")
    clauses = []
    for _ in range(round(ratio * variables)):
        chosen = rng.sample(range(1, variables + 1), min(3, variables))
        clauses.append([v if rng.random() < 0.5 else -v for v in chosen])
    return variables, clauses


def pigeons(holes):
    place = {(p, h): p * holes + h + 1 for p in range(holes + 1) for h in range(holes)}
    clauses = [[place[p, h] for h in range(holes)] for p in range(holes + 1)]
    for h in range(holes):
        for p in range(holes + 1):
            for q in range(p):
                clauses.append([-place[p, h], -place[q, h]])
    return (holes + 1) * holes, clauses


def words(family, width):
    circuit = Circuit()
    a, b = circuit.word(width), circuit.word(width)
    if family == "sums":
        circuit.words_differ(circuit.sum(a, b), circuit.sum(b, a))
    elif family == "products":
        circuit.words_differ(circuit.product(a, b), circuit.product(b, a))
    else:
        three = circuit.sum(circuit.sum(a, a), a)
        doubled = circuit.sum([circuit.false()] + a[:-1], a)
        circuit.words_differ(three, doubled)
    return circuit.variables, circuit.clauses


def make(family, size, seed=0):
    """A formula of the family. Of those that have one formula a size, a seed but 0 gives a variant."""
    if family == "random":
        return random_formula(size, seed)
    formula = pigeons(size) if family == "pigeons" else words(family, size)
    return variant(formula, seed) if seed else formula


def variant(formula, seed):
    """The same formula under other names, with its clauses and their literals in another order."""
    variables, clauses = formula
    rng = random.Random(f"variant {seed}")
    names = list(range(1, variables + 1))
    rng.shuffle(names)
    renamed = [[names[lit - 1] if lit > 0 else -names[-lit - 1] for lit in clause] for clause in clauses]
    for clause in renamed:
        rng.shuffle(clause)
    rng.shuffle(renamed)
    return variables, renamed


def text_of(formula):
    variables, clauses = formula
    lines = [f"p cnf {variables} {len(clauses)}"]
    lines += [" ".join(map(str, clause + [0])) for clause in clauses]
    return "\n".join(lines) + "\n"


if __name__ == "__main__":
    sys.stdout.write(text_of(make(sys.argv[1], int(sys.argv[2]), int(sys.argv[3]))))
