#!/usr/bin/env python3
"""How often rt reckons a crate's sum: along each way down through crates.txt.

    bench/line_sums.py

prints the sums of the sixteen crates that take most and of all, and for each crate the libraries of its line that none of its files
names. Whether a crate is proved without one of these a check of it tells. Unproved."""
import os
import re

ROOT = os.path.dirname(os.path.dirname(os.path.abspath(__file__)))


def lines():
    found = {}
    with open(f"{ROOT}/crates.txt") as file:
        for line in file:
            name, colon, listed = line.partition("#")[0].partition(":")
            if colon:
                found[name.split()[0]] = listed.split()
    return found


def text(crate):
    said = []
    for part in ("src", "specs", "proofs"):
        for at, _, names in os.walk(f"{ROOT}/crates/{crate}/{part}"):
            for name in names:
                if name.endswith((".rt", ".antt")):
                    with open(f"{at}/{name}") as file:
                        said.append(file.read())
    return "\n".join(said)


def main():
    listed, sums = lines(), {}

    def count(crate):
        if crate not in sums:
            sums[crate] = 1 + sum(count(it) for it in listed[crate] if it in listed)
        return sums[crate]

    for crate in listed:
        count(crate)
    for crate, number in sorted(sums.items(), key=lambda it: -it[1])[:16]:
        print(f"{number:8} {crate}")
    print(f"{sum(sums.values()):8} all, {sum(number for crate, number in sums.items() if not crate.endswith('_tests'))} without those of tests")
    for crate, names in listed.items():
        said = text(crate)
        spare = [it for it in names if not re.search(rf"\bRattle\.{it}\.|\b{it}::|\buse {it}\b", said)]
        if spare:
            print(f"{crate} names none of: {' '.join(spare)}")


main()
