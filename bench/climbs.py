#!/usr/bin/env python3
"""Times `climb` beside `check` with each k on pairs that need k of 2 to 4.

    bench/climbs.py PROGRAM PAIRS FOLDER

PAIRS has the files that engine_pairs.py makes. Each row is one of its pairs to which two chains of latches are added on the right: the first input
goes through one, and through the other where the second input is 1 as well. The latter chain's last latch is never 1 where the
former's isn't, which k frames of history show and fewer don't, for chains of k latches; an output is masked by that. The files are
written to FOLDER. gdb counts how often either command asks the solver (`Ready::solve_in`) and settles a pair without knowing it
(`Prover::settle`). Prints a row for each pair: the greatest k, seconds of processor, questions and pairs settled of `climb`, and of the checks with
k = 1, 2, .. up to it, added up. Ends with 1 where a climb doesn't answer what the last check does. Unproved."""
import os
import re
import resource
import subprocess
import sys

sys.dont_write_bytecode = True
sys.path.insert(0, os.path.join(os.path.dirname(os.path.abspath(__file__)), "..", "examples"))
import aiger  # noqa: E402

ROWS = [("crc32", 2), ("core", 2), ("fifo16", 3), ("fifo64", 3), ("fifo16r", 4)]
NAMES = {"questions": "sat_core::ready::Ready::solve_in", "settled": "verdict_stamp::prover::Prover::settle"}


def masked(net, k):
    """The netlist with two chains of k latches, and its first output masked where the second chain ends and the first doesn't."""
    most = max([0, *net.inputs, *(row[0] for row in net.latches), *(row[0] for row in net.gates)])

    def fresh():
        nonlocal most
        most += 2
        return most

    longer, both = net.inputs[0], fresh()
    gates = [(both, net.inputs[0], net.inputs[1])]
    shorter = both
    for _ in range(k):
        a, b = fresh(), fresh()
        net.latches += [[a, longer, 0], [b, shorter, 0]]
        longer, shorter = a, b
    never, out = fresh(), fresh()
    gates += [(never, shorter, longer ^ 1), (out, net.outputs[0], never ^ 1)]
    net.outputs[0] = out
    net.gates += gates
    return net, most // 2


def text(net, most):
    head = f"aag {most} {len(net.inputs)} {len(net.latches)} {len(net.outputs)} {len(net.gates)}"
    rows = [str(one) for one in net.inputs]
    rows += [f"{own} {nxt} {own if reset == aiger.ANY else reset}" for own, nxt, reset in net.latches]
    rows += [str(one) for one in net.outputs] + [" ".join(map(str, row)) for row in net.gates]
    return "\n".join([head, *rows]) + "\n"


def timed(words):
    before = resource.getrusage(resource.RUSAGE_CHILDREN)
    said = subprocess.run(words, capture_output=True, text=True, check=False).stdout.split("\n")[0]
    after = resource.getrusage(resource.RUSAGE_CHILDREN)
    return said, after.ru_utime + after.ru_stime - before.ru_utime - before.ru_stime


def counted(words):
    orders = ["set breakpoint pending on", "set pagination off"]
    for name in NAMES.values():
        orders.append(f"break {name}")
    orders += ["ignore 1 100000000", "ignore 2 100000000", "run", "info breakpoints"]
    run = ["gdb", "-q", "-batch"] + [word for order in orders for word in ("-ex", order)] + ["--args", *words]
    seen = subprocess.run(run, capture_output=True, text=True, check=False).stdout
    found = []
    for number in (1, 2):
        at = re.search(rf"^{number} .*breakpoint((?:.*\n)(?:\t.*\n)*)", seen, re.M)
        hits = re.search(r"already hit (\d+) time", at[1] if at else "")
        found.append(int(hits[1]) if hits else 0)
    return found


def main():
    program, pairs, folder = sys.argv[1:4]
    os.makedirs(folder, exist_ok=True)
    print("| pair | k | `climb`: seconds | questions | settled | `check` with each k: seconds | questions | settled |\n|---|---|---|---|---|---|---|---|")
    wrong = 0
    for name, k in ROWS:
        left = f"{pairs}/{name}_left.aig"
        right = f"{folder}/{name}_masked.aag"
        with open(right, "w", encoding="utf-8") as file:
            file.write(text(*masked(aiger.read(f"{pairs}/{name}_right.aig"), k)))
        said, climbed = timed([program, "climb", left, right])
        own = counted([program, "climb", left, right])
        seconds, whole, last = 0.0, [0, 0], ""
        for each in range(1, k + 1):
            words = [program, "check", left, right, "-k", str(each)]
            last, took = timed(words)
            seconds += took
            whole = [a + b for a, b in zip(whole, counted(words))]
        if said != last or f" k={k} " not in said or not said.startswith("equivalent"):
            print(f"{name}: climb says {said}, and check {last}", file=sys.stderr)
            wrong = 1
        print(f"| {name} | {k} | {climbed:.2f} | {own[0]:,} | {own[1]:,} | {seconds:.2f} | {whole[0]:,} | {whole[1]:,} |", flush=True)
    sys.exit(wrong)


main()
