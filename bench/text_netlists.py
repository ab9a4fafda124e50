#!/usr/bin/env python3
"""Makes a text file in the AIGER format and times a command that reads it.

    text_netlists.py VARIABLES FILE [--shuffle] [-- COMMAND ..]

The file has a thousandth of its variables as inputs, a fiftieth as latches, and gates for the rest; with --shuffle
its gates stand in random order. COMMAND is run five times with the file's name at its end, and the least time and
the bytes a second are printed. Unproved; no contract claims time.
"""
import random
import subprocess
import sys
import time


def lines(variables, shuffle):
    inputs, latches = max(1, variables // 1000), variables // 50
    gates = variables - inputs - latches
    first = inputs + latches + 1
    yield f"aag {variables} {inputs} {latches} 1 {gates}"
    for variable in range(1, inputs + 1):
        yield str(2 * variable)
    for variable in range(inputs + 1, first):
        yield f"{2 * variable} {random.randint(2, 2 * variables + 1)}"
    yield str(2 * variables)
    order = list(range(first, variables + 1))
    if shuffle:
        random.shuffle(order)
    for variable in order:
        left = random.randint(2, 2 * variable - 1)
        right = random.randint(2, 2 * variable - 1)
        yield f"{2 * variable} {left} {right}"


def main():
    words, command = sys.argv[1:], []
    if "--" in words:
        cut = words.index("--")
        words, command = words[:cut], words[cut + 1 :]
    shuffle = "--shuffle" in words
    variables, name = [word for word in words if word != "--shuffle"]
    random.seed(1)
    text = "\n".join(lines(int(variables), shuffle)) + "\n"
    with open(name, "w", encoding="ascii") as file:
        file.write(text)
    print(f"{name}: {len(text)} bytes")
    if command:
        times = []
        for _ in range(5):
            begin = time.perf_counter()
            subprocess.run(command + [name], check=False, stdout=subprocess.DEVNULL)
            times.append(time.perf_counter() - begin)
        print(f"{min(times):.3f} s, {len(text) / min(times) / 1e6:.0f} MB/s")


main()
