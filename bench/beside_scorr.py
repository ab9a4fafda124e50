#!/usr/bin/env python3
"""beside_scorr.py PROGRAM.. FOLDER [-k K] [-s SECONDS]: times `check` on each pair NAME_left.aig, NAME_right.aig of a folder, by one program or several,
with ABC's scorr beside it, and prints a table in markdown: seconds of processor, one run each, offers and splits by the last program, and the geometric means over
`scorr`. A run is ended after SECONDS (60) and counts as that. Unproved."""
import argparse
import glob
import math
import resource
import subprocess


def spent():
    used = resource.getrusage(resource.RUSAGE_CHILDREN)
    return used.ru_utime + used.ru_stime


def timed(words, seconds):
    """The seconds of processor of a command, and what it printed; none where it was ended."""
    before = spent()
    try:
        said = subprocess.run(words, stdout=subprocess.PIPE, stderr=subprocess.DEVNULL, text=True, timeout=seconds).stdout
    except subprocess.TimeoutExpired:
        return seconds, None
    return spent() - before, said


def shown(found):
    return f"over {found[0]:.0f}" if found[1] is None else f"{found[0]:.2f}"


def counts(said):
    for line in (said or "").splitlines():
        if line.startswith("stats "):
            of = dict(it.split("=") for it in line.split()[1:])
            return f"{of['offers']}; {of['splits']}"
    return "-"


def mean(ratios):
    return math.exp(sum(math.log(it) for it in ratios) / len(ratios))


def main():
    asked = argparse.ArgumentParser(description=__doc__)
    asked.add_argument("paths", nargs="+")
    asked.add_argument("-k", default="1")
    asked.add_argument("-s", type=float, default=60)
    asked = asked.parse_args()
    *programs, folder = asked.paths
    print("| pair | verdict | `scorr` | " + " | ".join(programs) + " | offers; splits |")
    print("|---" * (len(programs) + 4) + "|")
    ratios = [[] for _ in programs]
    for right in sorted(glob.glob(f"{folder}/*_right.aig")):
        left = right.replace("_right.aig", "_left.aig")
        beside = timed(["berkeley-abc", "-q", f"miter {left} {right}; strash; scorr -C 1000000000 -F {asked.k}; print_stats"], asked.s)
        found = [timed([it, "check", left, right, "-k", asked.k, "--stats"], asked.s) for it in programs]
        for of, it in zip(ratios, found):
            of.append(max(it[0], 0.01) / max(beside[0], 0.01))
        said = found[-1][1]
        name = right.rpartition("/")[2].removesuffix("_right.aig")
        print(f"| {name} | {said.split()[0] if said else '-'} | {shown(beside)} | {' | '.join(map(shown, found))} | {counts(said)} |", flush=True)
    print(f"| mean | | 1 | {' | '.join(f'{mean(it):.2f}' for it in ratios)} | |")


main()
