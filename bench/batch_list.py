#!/usr/bin/env python3
"""Times `batch` on lists of pairs of bench/demo_pair.py.

    bench/batch_list.py PROGRAM small|mixed [--pairs N] [--runs R]

`small`: N lines (10,000) of pairs of 4 to 8 inputs, in one `batch -j 1`, one `batch -j 4`, and as N runs of `check`, one after another.
`mixed`: N pairs (200) of 5 to 1,100 inputs, few of them large, with `-j 1`, `-j 2` and `-j 4`.
Prints the least seconds that passed of R runs (1) each, the seconds of processor of that run, and its peak memory. What `batch` prints is
compared between all of them. Unproved; no contract claims time.
"""
import argparse
import os
import subprocess
import sys
import tempfile
import time

HERE = os.path.dirname(os.path.abspath(__file__))


def timed(command, folder, out):
    begun = time.time()
    with open(out, "wb") as sink:
        child = subprocess.Popen(command, cwd=folder, stdout=sink)
        _, status, used = os.wait4(child.pid, 0)
    return time.time() - begun, used.ru_utime + used.ru_stime, used.ru_maxrss, os.waitstatus_to_exitcode(status)


def sizes(kind, count):
    if kind == "small":
        return [4 + at % 5 for at in range(count)]
    # Sizes that grow by a constant factor over the list, in an order that mixes them.
    grown = [round(5 * 220 ** (at / max(1, count - 1))) for at in range(count)]
    return [grown[at * 77 % count] for at in range(count)]


def main():
    options = argparse.ArgumentParser()
    options.add_argument("program")
    options.add_argument("kind", choices=["small", "mixed"])
    options.add_argument("--pairs", type=int)
    options.add_argument("--runs", type=int, default=1)
    given = options.parse_args()
    program = os.path.abspath(given.program)
    count = given.pairs or (10_000 if given.kind == "small" else 200)
    with tempfile.TemporaryDirectory() as folder:
        wanted = sizes(given.kind, count)
        for n in sorted(set(wanted)):
            subprocess.run([os.path.join(HERE, "demo_pair.py"), str(n), f"{folder}/l{n}", f"{folder}/r{n}"], check=True)
        with open(f"{folder}/list", "w", encoding="utf-8") as it:
            it.write("".join(f"l{n} r{n}\n" for n in wanted))
        printed = set()
        for workers in (1, 4) if given.kind == "small" else (1, 2, 4):
            out = f"{folder}/out"
            passed, used, peak, status = min(timed([program, "batch", "list", "-j", str(workers)], folder, out) for _ in range(given.runs))
            with open(out, "rb") as it:
                printed.add(it.read())
            print(f"batch -j {workers}: {passed:.2f} s passed, {used:.2f} s of processor, {peak:,} KB, status {status}", flush=True)
        if given.kind == "small":
            begun, lines = time.time(), []
            for at, n in enumerate(wanted):
                told = subprocess.run([program, "check", f"l{n}", f"r{n}"], cwd=folder, stdout=subprocess.PIPE, check=False).stdout
                lines.append(f"{at + 1} ".encode() + told.split(b"\n", 1)[0] + b"\n")
            printed.add(b"".join(lines))
            print(f"{count:,} runs of check: {time.time() - begun:.2f} s passed")
        print("all print the same" if len(printed) == 1 else "WHAT THEY PRINT DIFFERS")
        sys.exit(len(printed) != 1)


main()
