#!/usr/bin/env python3
"""Reduces random netlists, and compares each result with its source.

    bench/reduce_random.py PROGRAM [--nets N] [--seed S]

writes N (200) netlists of 2 to 60 latches, of which a part stands twice, once with some latches complemented, and of which some latches
have no reset. For each, and for k of 1 and 2 in turn, `reduce` stores what is left, `check --tie` compares that with the source,
and a second `reduce` of it, as binary, has to leave as many latches and gates as the classes of the first result have least members: the
numbers that it prints are those of the file that it stores, and `check --tie` compares that file too. Prints how much stayed.
Unproved.
"""
import argparse
import os
import random
import subprocess
import sys
import tempfile


def netlist(draw):
    """A random netlist, and a second copy of a part of it on the same inputs, with some of its latches complemented."""
    inputs, latches, gates = draw.randint(1, 6), draw.randint(1, 30), draw.randint(1, 120)
    used = inputs + latches + gates
    rows = []
    for v in range(inputs + latches + 1, used + 1):
        a, b = (2 * draw.randint(1, v - 1) + draw.randint(0, 1) for _ in range(2))
        rows.append((v, a, b))
    nexts = [2 * draw.randint(0, used) + draw.randint(0, 1) for _ in range(latches)]
    resets = [draw.choice([0, 0, 1, None]) for _ in range(latches)]
    turned = [reset is not None and draw.random() < 0.5 for reset in resets]
    # The copy: latch i becomes latch i + used, complemented where it is turned.
    def copied(literal):
        v = literal // 2
        if v <= inputs:
            return literal
        flip = v <= inputs + latches and turned[v - inputs - 1]
        return 2 * (v + used) + (literal % 2 ^ flip)

    lines = [f"{2 * v}" for v in range(1, inputs + 1)]
    kept = [i for i in range(latches) if resets[i] is not None]
    freed = {inputs + 1 + i for i in range(latches) if resets[i] is None}
    def with_free(literal):
        # A free latch has no copy: another one would start elsewhere.
        return literal if literal // 2 in freed else copied(literal)

    for i in range(latches):
        v = inputs + 1 + i
        lines.append(f"{2 * v} {nexts[i]} {2 * v if resets[i] is None else resets[i]}")
    for i in kept:
        v = inputs + 1 + i
        lines.append(f"{2 * (v + used)} {with_free(nexts[i]) ^ turned[i]} {resets[i] ^ turned[i]}")
    outputs = [2 * draw.randint(0, used) + draw.randint(0, 1) for _ in range(draw.randint(1, 5))]
    outputs += [with_free(o) for o in outputs]
    lines += [str(o) for o in outputs]
    both = [(2 * v, a, b) for v, a, b in rows] + [(2 * (v + used), with_free(a), with_free(b)) for v, a, b in rows]
    lines += [f"{v} {a} {b}" for v, a, b in both]
    head = f"aag {2 * used} {inputs} {latches + len(kept)} {len(outputs)} {len(both)}"
    return "\n".join([head, *lines]) + "\n", latches + len(kept), len(both)


def run(program, folder, *words):
    told = subprocess.run([program, *words], cwd=folder, stdout=subprocess.PIPE, stderr=subprocess.STDOUT, check=False, text=True)
    return told.returncode, told.stdout.split("\n", 1)[0]


def counts(line):
    said = dict(word.split("=") for word in line.split()[1:])
    return int(said["latches"]), int(said["gates"])


def header(path):
    with open(path, "rb") as it:
        words = it.readline().split()
    return int(words[3]), int(words[5])


def main():
    options = argparse.ArgumentParser()
    options.add_argument("program")
    options.add_argument("--nets", type=int, default=200)
    options.add_argument("--seed", type=int, default=1)
    given = options.parse_args()
    program, draw, wrong = os.path.abspath(given.program), random.Random(given.seed), 0
    sums = [0] * 6
    with tempfile.TemporaryDirectory() as folder:
        for number in range(given.nets):
            text, latches, gates = netlist(draw)
            with open(f"{folder}/net", "w", encoding="ascii") as it:
                it.write(text)
            k = str(1 + number % 2)
            status, first = run(program, folder, "reduce", "net", "less", "-k", k)
            same, verdict = run(program, folder, "check", "net", "less", "--tie", "-k", k)
            again, second = run(program, folder, "reduce", "less", "least", "-k", k, "--binary")
            last, other = run(program, folder, "check", "net", "least", "--tie", "-k", k)
            fine = (status, same, again, last) == (0, 0, 0, 0) and counts(first) == header(f"{folder}/less") and counts(second) == header(f"{folder}/least")
            if not fine:
                wrong += 1
                print(f"net {number}:", first, verdict, second, other, sep="\n  ")
                continue
            for at, n in enumerate((latches, gates, *counts(first), *counts(second))):
                sums[at] += n
    print(f"{given.nets} netlists, {wrong} wrong; latches and gates: {sums[0]:,} and {sums[1]:,}, reduced {sums[2]:,} and {sums[3]:,}, once more {sums[4]:,} and {sums[5]:,}")
    sys.exit(wrong != 0)


main()
