#!/usr/bin/env python3
"""Writes several copies of a circuit side by side: each has inputs, latches, gates and outputs of its own.

    side_by_side.py FROM TO COPIES

FROM is a binary AIGER file without bad states, constraints and the like; TO becomes a text file. Both sides of a pair, copied so,
are a pair again, of blocks that have nothing to do with one another."""
import sys


class Circuit:
    """A binary AIGER file."""

    def __init__(self, path):
        self.bytes = open(path, "rb").read()
        self.at = 0
        head = self.line()
        if head[0] != b"aig" or len(head) != 6:
            sys.exit(f"{path}: no binary file of inputs, latches, outputs and gates alone")
        _, self.inputs, latches, outputs, gates = (int(word) for word in head[1:])
        self.latches = [[int(word) for word in self.line()] for _ in range(latches)]
        self.outputs = [int(self.line()[0]) for _ in range(outputs)]
        first = self.inputs + latches + 1
        self.gates = [self.gate(2 * (first + n)) for n in range(gates)]

    def line(self):
        end = self.bytes.index(b"\n", self.at)
        words = self.bytes[self.at:end].split()
        self.at = end + 1
        return words

    def delta(self):
        value, shift = 0, 0
        while True:
            byte = self.bytes[self.at]
            self.at += 1
            value |= (byte & 127) << shift
            shift += 7
            if byte < 128:
                return value

    def gate(self, own):
        left = own - self.delta()
        return own, left, left - self.delta()


def renumber(circuit, copies, copy, lit):
    """A literal of one copy: inputs of all copies first, then latches, then gates."""
    inputs, latches, gates = circuit.inputs, len(circuit.latches), len(circuit.gates)
    var = lit // 2
    if var == 0:
        return lit
    if var <= inputs:
        new = copy * inputs + var
    elif var <= inputs + latches:
        new = copies * inputs + copy * latches + var - inputs
    else:
        new = copies * (inputs + latches) + copy * gates + var - inputs - latches
    return 2 * new + lit % 2


def side_by_side(circuit, copies):
    """The lines of a text file."""
    inputs, latches, gates = circuit.inputs, len(circuit.latches), len(circuit.gates)
    sizes = (inputs + latches + gates, inputs, latches, len(circuit.outputs), gates)
    yield "aag " + " ".join(str(copies * size) for size in sizes)
    for n in range(copies * inputs):
        yield str(2 * (n + 1))
    for copy in range(copies):
        for n, latch in enumerate(circuit.latches):
            own = renumber(circuit, copies, copy, 2 * (inputs + 1 + n))
            words = [own, renumber(circuit, copies, copy, latch[0])]
            words += [reset if reset < 2 else own for reset in latch[1:]]
            yield " ".join(str(word) for word in words)
    for copy in range(copies):
        for lit in circuit.outputs:
            yield str(renumber(circuit, copies, copy, lit))
    for copy in range(copies):
        for gate in circuit.gates:
            yield " ".join(str(renumber(circuit, copies, copy, lit)) for lit in gate)


def main(source, target, copies):
    with open(target, "w") as out:
        for line in side_by_side(Circuit(source), int(copies)):
            out.write(line + "\n")


if __name__ == "__main__":
    if len(sys.argv) != 4:
        sys.exit(__doc__)
    main(*sys.argv[1:])
