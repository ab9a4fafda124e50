#!/usr/bin/env python3
"""Gives a netlist the state after reset to begin from.

    examples/after_reset.py IN.aig OUT.aig NAME=BIT.. [CYCLES]

holds the inputs NAME at BIT for so many cycles (1 where it is left out), all other inputs being unknown, and makes what the latches
have then their resets. Before that a latch has its reset of IN.aig, or is unknown where that is its own literal. What isn't
known after it, in three values, begins at any value. Names are those of the symbol lines.
"""
import sys

sys.dont_write_bytecode = True
import aiger

UNKNOWN = aiger.ANY


def value(values, literal):
    bit = values[literal >> 1]
    return bit if bit == UNKNOWN else bit ^ (literal & 1)


def cycle(net, held, state):
    """The latches' values one cycle later."""
    values = {0: 0, **held}
    values.update((row[0] >> 1, bit) for row, bit in zip(net.latches, state))
    for own, left, right in net.gates:
        a, b = value(values, left), value(values, right)
        values[own >> 1] = 0 if 0 in (a, b) else 1 if a == b == 1 else UNKNOWN
    return [value(values, row[1]) for row in net.latches]


def main():
    if len(sys.argv) < 4:
        sys.exit(__doc__)
    source, target, *words = sys.argv[1:]
    cycles = int(words.pop()) if words[-1].isdigit() else 1
    net = aiger.read(source)
    named = {net.names.get(("i", place)): literal >> 1 for place, literal in enumerate(net.inputs)}
    held = {literal >> 1: UNKNOWN for literal in net.inputs}
    for word in words:
        name, bit = word.rsplit("=", 1)
        if name not in named or bit not in ("0", "1"):
            sys.exit(f"{word}: wanted NAME=0 or NAME=1, for an input of {', '.join(map(str, named))}")
        held[named[name]] = int(bit)
    state = [row[2] for row in net.latches]
    for _ in range(cycles):
        state = cycle(net, held, state)
    for row, bit in zip(net.latches, state):
        row[2] = bit
    aiger.write(target, net)
    print(f"{target}: {state.count(0)} latches begin at 0, {state.count(1)} at 1, {state.count(UNKNOWN)} at any value")


main()
