#!/usr/bin/env python3
"""Times the readers of text and binary files on one circuit.

    netlist_readers.py VARIABLES PROGRAM [FOLDER] [RUNS]

Writes the same circuit as a text and as a binary file, VARIABLES variables of which a thousandth are inputs and a
fiftieth latches, and runs `PROGRAM check FILE none` on three kinds of each: its first byte spoiled, so that it is
loaded and no more; with a bad symbol line after the body, so that it is read into the builder; and whole, so that the
netlist is finished too (the right file isn't there). The least time of RUNS runs is taken of each. Unproved; no
contract claims time.
"""
import os
import random
import subprocess
import sys
import tempfile
import time


def circuit(variables):
    inputs, latches = max(1, variables // 1000), variables // 50
    first = inputs + latches + 1
    nexts = [random.randint(2, 2 * variables + 1) for _ in range(latches)]
    gates = []
    for variable in range(first, variables + 1):
        left, right = (random.randint(2, 2 * variable - 1) for _ in range(2))
        gates.append((2 * variable, max(left, right), min(left, right)))
    return inputs, nexts, gates


def as_text(variables, inputs, nexts, gates):
    lines = [f"aag {variables} {inputs} {len(nexts)} 1 {len(gates)}"]
    lines += [str(2 * (variable + 1)) for variable in range(inputs)]
    lines += [f"{2 * (inputs + 1 + at)} {literal}" for at, literal in enumerate(nexts)]
    lines.append(str(2 * variables))
    lines += [f"{own} {left} {right}" for own, left, right in gates]
    return ("\n".join(lines) + "\n").encode("ascii")


def delta(number):
    spelled = bytearray()
    while number >= 128:
        spelled.append(number % 128 + 128)
        number //= 128
    spelled.append(number)
    return spelled


def as_binary(variables, inputs, nexts, gates):
    lines = [f"aig {variables} {inputs} {len(nexts)} 1 {len(gates)}"]
    lines += [str(literal) for literal in nexts] + [str(2 * variables)]
    data = bytearray(("\n".join(lines) + "\n").encode("ascii"))
    for own, left, right in gates:
        data += delta(own - left) + delta(left - right)
    return bytes(data)


def least(program, name, data, runs):
    with open(name, "wb") as file:
        file.write(data)
    times = []
    for _ in range(runs):
        begin = time.perf_counter()
        subprocess.run([program, "check", name, name + ".none"], check=False, capture_output=True)
        times.append(time.perf_counter() - begin)
    return min(times)


def main():
    variables, program = int(sys.argv[1]), sys.argv[2]
    folder = sys.argv[3] if len(sys.argv) > 3 else tempfile.gettempdir()
    runs = int(sys.argv[4]) if len(sys.argv) > 4 else 25
    random.seed(1)
    parts = circuit(variables)
    gates = len(parts[2])
    for form, data in (("text", as_text(variables, *parts)), ("binary", as_binary(variables, *parts))):
        name = os.path.join(folder, f"readers.{form}")
        loaded = least(program, name, b"x" + data[1:], runs)
        read = least(program, name, data + b"i999999999 x\n", runs)
        done = least(program, name, data, runs)
        reader = read - loaded
        print(f"{form}: {len(data)} bytes, {gates} gates")
        print(f"  loaded {loaded:.3f} s, read {read:.3f} s, finished {done:.3f} s")
        print(f"  the reader {reader:.3f} s: {len(data) / reader / 1e6:.0f} MB/s, {gates / reader / 1e6:.1f} million gates/s")


main()
