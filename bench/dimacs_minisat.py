#!/usr/bin/env python3
"""Times a solver of DIMACS files against minisat.

    dimacs_minisat.py PROGRAM [FOLDER] [SECONDS] [FAMILY]

Writes formulas of a seeded generator into FOLDER and runs `PROGRAM FILE` and `minisat FILE` on each, for at most
SECONDS (60) of processor. The families: random 3-SAT at 4.26 clauses a variable, pigeonhole, miters of two adders and of
two multipliers, and chains of gates over frames that propagation settles. A row of the table is a formula: its size, the
answers, and the seconds of processor in user mode of each. An answer that differs from minisat's ends the run. Unproved;
no contract claims time.
"""
import os
import random
import resource
import subprocess
import sys
import tempfile


class Cnf:
    def __init__(self):
        self.vars, self.clauses = 0, []

    def var(self):
        self.vars += 1
        return self.vars

    def add(self, *clause):
        self.clauses.append(clause)

    def gate_and(self, a, b):
        out = self.var()
        self.add(-out, a)
        self.add(-out, b)
        self.add(out, -a, -b)
        return out

    def gate_xor(self, a, b):
        out = self.var()
        self.add(-out, a, b)
        self.add(-out, -a, -b)
        self.add(out, -a, b)
        self.add(out, a, -b)
        return out

    def gate_or(self, a, b):
        return -self.gate_and(-a, -b)

    def text(self):
        lines = [f"p cnf {self.vars} {len(self.clauses)}"]
        lines += [" ".join(map(str, clause + (0,))) for clause in self.clauses]
        return "\n".join(lines) + "\n"


def random_3sat(variables, seed):
    draw, cnf = random.Random(seed), Cnf()
    cnf.vars = variables
    for _ in range(round(4.26 * variables)):
        chosen = draw.sample(range(1, variables + 1), 3)
        cnf.add(*(v if draw.random() < 0.5 else -v for v in chosen))
    return cnf


def pigeonhole(holes):
    cnf = Cnf()
    sits = [[cnf.var() for _ in range(holes)] for _ in range(holes + 1)]
    for row in sits:
        cnf.add(*row)
    for hole in range(holes):
        for one in range(holes + 1):
            for other in range(one):
                cnf.add(-sits[one][hole], -sits[other][hole])
    return cnf


def full_adder(cnf, a, b, c):
    half = cnf.gate_xor(a, b)
    carry = cnf.gate_or(cnf.gate_and(a, b), cnf.gate_and(half, c))
    return cnf.gate_xor(half, c), carry


def half_adder(cnf, a, b):
    return cnf.gate_xor(a, b), cnf.gate_and(a, b)


def ripple(cnf, xs, ys):
    total, carry = [], None
    for a, b in zip(xs, ys):
        s, carry = half_adder(cnf, a, b) if carry is None else full_adder(cnf, a, b, carry)
        total.append(s)
    return total + [carry]


def lookahead(cnf, xs, ys):
    """Carries by generate and propagate, each a sum of products."""
    makes = [cnf.gate_and(a, b) for a, b in zip(xs, ys)]
    passes = [cnf.gate_xor(a, b) for a, b in zip(xs, ys)]
    total, carry = [], None
    for at in range(len(xs)):
        total.append(passes[at] if carry is None else cnf.gate_xor(passes[at], carry))
        carry = makes[at]
        for low in range(at):
            term = makes[low]
            for middle in range(low + 1, at + 1):
                term = cnf.gate_and(term, passes[middle])
            carry = cnf.gate_or(carry, term)
    return total + [carry]


def multiply(cnf, xs, ys):
    """Rows of partial products, added in order."""
    rows = [[cnf.gate_and(a, b) for a in xs] for b in ys]
    product, rest = [rows[0][0]], rows[0][1:]
    for row in rows[1:]:
        carry, sums = None, []
        for at, bit in enumerate(row):
            terms = [t for t in (bit, rest[at] if at < len(rest) else None, carry) if t is not None]
            if len(terms) == 1:
                s, carry = terms[0], None
            elif len(terms) == 2:
                s, carry = half_adder(cnf, *terms)
            else:
                s, carry = full_adder(cnf, *terms)
            sums.append(s)
        product.append(sums[0])
        rest = sums[1:] + ([carry] if carry is not None else [])
    return product + rest


def miter():
    """A formula, and what ends it: some output of the left side differs from the right side's."""
    cnf = Cnf()
    def end(left, right):
        cnf.add(*(cnf.gate_xor(a, b) for a, b in zip(left, right)))
        return cnf
    return cnf, end


def adder_miter(bits):
    cnf, end = miter()
    xs, ys = ([cnf.var() for _ in range(bits)] for _ in range(2))
    return end(ripple(cnf, xs, ys), lookahead(cnf, xs, ys))


def multiplier_miter(bits):
    cnf, end = miter()
    xs, ys = ([cnf.var() for _ in range(bits)] for _ in range(2))
    return end(multiply(cnf, xs, ys), multiply(cnf, ys, xs))


def frames(variables, satisfiable, seed):
    """Frames of gates over the values of the frame before; the inputs are given, so propagation settles all."""
    draw, cnf = random.Random(seed), Cnf()
    width = 100
    row = [cnf.var() for _ in range(width)]
    value = {v: draw.random() < 0.5 for v in row}
    for v in row:
        cnf.add(v if value[v] else -v)
    while cnf.vars < variables:
        now = []
        for _ in range(width):
            a, b = (v if draw.random() < 0.5 else -v for v in draw.sample(row, 2))
            kind = draw.random() < 0.5
            out = cnf.gate_and(a, b) if kind else cnf.gate_xor(a, b)
            left, right = (value[abs(l)] == (l > 0) for l in (a, b))
            value[out] = (left and right) if kind else left != right
            now.append(out)
        row = now
    last = row[0]
    cnf.add(last if value[last] == satisfiable else -last)
    return cnf


def formulas():
    for variables in (200, 250, 300):
        for seed in range(4):
            yield "random 3-SAT", f"{variables} variables, seed {seed}", random_3sat(variables, 1000 * variables + seed)
    for holes in (7, 8, 9):
        yield "pigeonhole", f"{holes + 1} in {holes}", pigeonhole(holes)
    for bits in (4, 6, 8):
        yield "adders", f"{bits} bits", adder_miter(bits)
    for bits in (4, 5, 6, 7, 8):
        yield "multipliers", f"{bits} bits", multiplier_miter(bits)
    for variables in (20000, 50000, 100000):
        for satisfiable in (True, False):
            yield "frames", f"{variables}, {'' if satisfiable else 'un'}satisfiable", frames(variables, satisfiable, variables)


def run(command, seconds):
    """The exit status and the seconds in user mode; no status where the time ran out."""
    before = resource.getrusage(resource.RUSAGE_CHILDREN).ru_utime
    limit = lambda: resource.setrlimit(resource.RLIMIT_CPU, (seconds, seconds + 1))
    done = subprocess.run(command, stdout=subprocess.DEVNULL, stderr=subprocess.DEVNULL, preexec_fn=limit)
    spent = resource.getrusage(resource.RUSAGE_CHILDREN).ru_utime - before
    return (done.returncode if done.returncode in (10, 20) else None), spent


ANSWERS = {10: "satisfiable", 20: "unsatisfiable", None: "-"}


def main(program, folder=None, seconds="60", family=""):
    folder, seconds = folder or tempfile.mkdtemp(), int(seconds)
    os.makedirs(folder, exist_ok=True)
    print("| family | formula | variables | clauses | answer | proved | minisat |")
    print("|---|---|---|---|---|---|---|")
    for at, (name, what, cnf) in enumerate(formulas()):
        if family not in name:
            continue
        file = os.path.join(folder, f"{at}.cnf")
        with open(file, "w") as out:
            out.write(cnf.text())
        own, own_time = run([program, file], seconds)
        other, other_time = run(["minisat", "-verb=0", file], seconds)
        if own and other and own != other:
            sys.exit(f"{file}: {program} says {ANSWERS[own]}, minisat {ANSWERS[other]}")
        times = [f"{t:.2f}" if status else f"> {seconds}" for status, t in ((own, own_time), (other, other_time))]
        print(f"| {name} | {what} | {cnf.vars:,} | {len(cnf.clauses):,} | {ANSWERS[own or other]} | {times[0]} | {times[1]} |", flush=True)


if __name__ == "__main__":
    main(*sys.argv[1:])
