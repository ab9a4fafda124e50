#!/usr/bin/env python3
"""Makes a pair that differs first in a given frame, of two netlists that agree: to time the search for a difference.

    bench/deep_pair.py LEFT RIGHT FRAME TO_LEFT TO_RIGHT

The right one gets a chain of so many latches that begin at 0, whose first takes the constant 1, and the chain's last as one more
output; the left one gets the constant 0 there. So the new outputs differ from that frame on. Nothing here is proved.
"""
import os
import sys

sys.path.insert(0, os.path.join(os.path.dirname(os.path.abspath(__file__)), "..", "examples"))
import aiger  # noqa: E402


def text(net, chain):
    most = max([0] + net.inputs + [row[0] for row in net.latches] + [gate[0] for gate in net.gates]) // 2
    latches = [[row[0], row[1], row[2]] for row in net.latches]
    last = 1
    for _ in range(chain):
        most += 1
        latches.append([2 * most, last, 0])
        last = 2 * most
    outputs = net.outputs + [last if chain else 0]
    lines = [f"aag {most} {len(net.inputs)} {len(latches)} {len(outputs)} {len(net.gates)}"]
    lines += [str(lit) for lit in net.inputs]
    for lit, step, reset in latches:
        lines.append(f"{lit} {step} {lit if reset == aiger.ANY else reset}")
    lines += [str(lit) for lit in outputs]
    lines += [" ".join(map(str, gate)) for gate in net.gates]
    return "\n".join(lines) + "\n"


def main():
    if len(sys.argv) != 6:
        sys.exit(__doc__)
    left, right, frame, to_left, to_right = sys.argv[1:]
    for source, target, chain in (left, to_left, 0), (right, to_right, int(frame)):
        with open(target, "w") as file:
            file.write(text(aiger.read(source), chain))


main()
