#!/usr/bin/env python3
"""Runs the commands of a page in the current folder, and compares what they print with what the page shows.

    bench/page.py PAGE.md

A command is a line `    $ WORDS`; the indented lines below it, up to the next command or the end of the block, are what it
prints on both streams. A line `..` among them stands for any lines. Commands of one block run in one shell. Ends with 1 where
some differ.
"""
import subprocess
import sys

MARK = "----8<---- "


def blocks(lines):
    """Lists of (number of the line, command, lines shown)."""
    block = []
    for number, line in enumerate(lines, 1):
        if line.startswith("    $ "):
            block.append((number, line[6:], []))
        elif line.startswith("    ") and block:
            block[-1][2].append(line[4:])
        elif line.strip() or not block:
            if block:
                yield block
            block = []
    if block:
        yield block


def alike(shown, printed):
    if not shown:
        return not printed
    if shown[0] == "..":
        return any(alike(shown[1:], printed[place:]) for place in range(len(printed) + 1))
    return bool(printed) and shown[0] == printed[0] and alike(shown[1:], printed[1:])


def run(block):
    """What each command of a block prints."""
    script = "".join(f"{command}\nstatus=$?; echo; echo '{MARK}'; (exit $status)\n" for _, command, _ in block)
    words = ["bash", "-c", "exec 2>&1\n" + script]
    done = subprocess.run(words, stdin=subprocess.DEVNULL, capture_output=True, text=True, errors="replace")
    parts = done.stdout.split(f"\n{MARK}\n")
    return [part.rstrip("\n").split("\n") if part.strip("\n") else [] for part in parts]


def main():
    with open(sys.argv[1], encoding="utf-8") as file:
        lines = file.read().split("\n")
    commands = faults = 0
    for block in blocks(lines):
        for (number, command, shown), printed in zip(block, run(block)):
            commands += 1
            if not alike([line for line in shown if line], printed):
                faults += 1
                print(f"{sys.argv[1]}:{number}: $ {command}\n  shown:", *shown, "  printed:", *printed, sep="\n    ")
    print(f"{commands} commands, {faults} not as shown")
    return 1 if faults else 0


sys.exit(main())
