#!/usr/bin/env python3
"""Writes a pair of text netlists for benchmarks: a random circuit with N inputs, N latches, 6N gates and N outputs, and a copy of
it in which the latches that are chosen, and every use of them, are complemented.

    bench/demo_pair.py N LEFT RIGHT
"""
import sys

MASK = (1 << 64) - 1
MULTIPLIER = 6364136223846793005


def rotated(word, by):
    return ((word >> by) | (word << (32 - by))) & 0xFFFFFFFF if by else word


def output(state):
    return rotated((((state >> 18) ^ state) >> 27) & 0xFFFFFFFF, state >> 59)


class Random:
    """PCG XSH RR 64/32 (O'Neill 2014), seeded from a number as rand_core's seed_from_u64 does."""

    def __init__(self, seed):
        words = []
        for _ in range(4):
            seed = (seed * MULTIPLIER + 11634580027462260723) & MASK
            words.append(output(seed))
        self.step_by = (words[2] | words[3] << 32) | 1
        self.state = ((words[0] | words[1] << 32) + self.step_by) & MASK
        self.step()

    def step(self):
        self.state = (self.state * MULTIPLIER + self.step_by) & MASK

    def draw(self, m):
        state = self.state
        self.step()
        return output(state) % m


def pair_of(n):
    random = Random(n)

    def literal(count):
        variable = 1 + random.draw(count)
        return 2 * variable + random.draw(2)

    gates = []
    for v in range(2 * n + 1, 8 * n + 1):
        a = literal(v - 1)
        b = literal(v - 1)
        gates.append((2 * v, max(a, b), min(a, b)))
    latches = []
    for v in range(n + 1, 2 * n + 1):
        following = literal(8 * n)
        latches.append((2 * v, following, random.draw(2)))
    outputs = [literal(8 * n) for _ in range(n)]
    chosen = {v for v in range(n + 1, 2 * n + 1) if random.draw(2) == 1}
    inputs = [2 * v for v in range(1, n + 1)]
    turned = lambda lit: lit ^ 1 if lit >> 1 in chosen else lit
    left = (n, inputs, latches, outputs, gates)
    copy = [
        (lit, turned(following) ^ (lit >> 1 in chosen), reset ^ (lit >> 1 in chosen))
        for lit, following, reset in latches
    ]
    right = (n, inputs, copy, [turned(o) for o in outputs], [(g, turned(a), turned(b)) for g, a, b in gates])
    return left, right


def text_of(side):
    n, inputs, latches, outputs, gates = side
    lines = [f"aag {8 * n} {n} {n} {n} {6 * n}"]
    lines += [str(i) for i in inputs]
    lines += [f"{lit} {following} {int(reset)}" for lit, following, reset in latches]
    lines += [str(o) for o in outputs]
    lines += [f"{g} {a} {b}" for g, a, b in gates]
    return "\n".join(lines) + "\n"


def main():
    n, left, right = int(sys.argv[1]), sys.argv[2], sys.argv[3]
    for path, side in zip((left, right), pair_of(n)):
        with open(path, "w") as file:
            file.write(text_of(side))


if __name__ == "__main__":
    main()
