#!/usr/bin/env python3
"""Writes a pair of text netlists for benchmarks: the parity of N inputs and a latch that holds it so far, as a chain of exclusive
ors that takes the inputs from the first one on, and as one that takes them from the last one on.

    bench/parity_pair.py N LEFT RIGHT
"""
import sys


def chain(n, order):
    gates = []

    def conjunction(a, b):
        gates.append((2 * (n + 2 + len(gates)), max(a, b), min(a, b)))
        return gates[-1][0]

    def exclusive_or(a, b):
        return conjunction(conjunction(a, b) ^ 1, conjunction(a ^ 1, b ^ 1) ^ 1)

    latch = 2 * (n + 1)
    parity = 2 * order[0]
    for i in order[1:]:
        parity = exclusive_or(parity, 2 * i)
    following = exclusive_or(parity, latch)
    lines = [f"aag {n + 1 + len(gates)} {n} 1 1 {len(gates)}"]
    lines += [str(2 * i) for i in range(1, n + 1)] + [f"{latch} {following} 0", str(latch)]
    lines += [f"{own} {a} {b}" for own, a, b in gates]
    return "\n".join(lines) + "\n"


def texts_of(n):
    return chain(n, list(range(1, n + 1))), chain(n, list(range(n, 0, -1)))


def main():
    n, left, right = int(sys.argv[1]), sys.argv[2], sys.argv[3]
    for path, text in zip((left, right), texts_of(n)):
        with open(path, "w") as file:
            file.write(text)


if __name__ == "__main__":
    main()
