#!/usr/bin/env python3
"""Counts the questions of `--least`: twenty pairs that differ first in frames 0 to 40.

    bench/least_runs.py PROGRAM [FOLDER]

Each pair is written into FOLDER (a new one, where none is given) and checked with `-d 64` alone and with `--least`. The trace of the latter
is compared with the least run that least_search.py finds by another way, over sets of states; so are the frame and output, but of the FIFO,
whose sets are too large. gdb counts how often the search for it asks the solver (`Prepared::find_under`, which nothing else calls). Prints a
row for each pair: the frame and output, the bits of a trace (a start bit for each latch of both sides, a bit for each input and frame), how
many of them the run without and the one with `--least` have as 1, the questions, and the seconds of processor without and with it. Ends with
status 1 where a trace isn't the least one, where there are more questions than bits, or fewer than its ones, each of which has to be asked
for. Unproved; no contract claims time.
"""
import os
import re
import resource
import subprocess
import sys
import tempfile

sys.dont_write_bytecode = True
sys.path.insert(0, os.path.join(os.path.dirname(os.path.abspath(__file__)), "..", "examples"))
import aiger  # noqa: E402
import least_search  # noqa: E402

EXAMPLES = os.path.join(os.path.dirname(os.path.abspath(__file__)), "..", "examples")


class Side:
    """One side of a pair, gate by gate. Inputs come first, then latches, then gates."""

    def __init__(self, inputs, resets):
        self.net = aiger.Netlist(False, [2 * (i + 1) for i in range(inputs)], [], [], [])
        self.latches = [2 * (inputs + i + 1) for i in range(len(resets))]
        self.resets, self.most = resets, inputs + len(resets)

    def input(self, i):
        return self.net.inputs[i]

    def both(self, a, b):
        self.most += 1
        self.net.gates.append((2 * self.most, max(a, b), min(a, b)))
        return 2 * self.most

    def either(self, a, b):
        return self.both(a ^ 1, b ^ 1) ^ 1

    def unlike(self, a, b):
        return self.both(self.both(a, b) ^ 1, self.both(a ^ 1, b ^ 1) ^ 1)

    def pick(self, which, a, b):
        return self.either(self.both(which, a), self.both(which ^ 1, b))

    def all(self, literals):
        whole = 1
        for one in literals:
            whole = self.both(whole, one)
        return whole

    def is_number(self, bits, number):
        return self.all(bit ^ 1 ^ (number >> i & 1) for i, bit in enumerate(bits))

    def one_more(self, bits, carry):
        more = []
        for bit in bits:
            more.append(self.unlike(bit, carry))
            carry = self.both(bit, carry)
        return more

    def done(self, steps, outputs):
        self.net.latches = [[own, step, reset] for own, step, reset in zip(self.latches, steps, self.resets)]
        self.net.outputs = outputs
        return self.net


def silent(inputs):
    """The other side: an output that is always 0."""
    return Side(inputs, []).done([], [0])


def chain(side, first, latches):
    """The steps of a chain of latches that takes a literal."""
    return [first] + latches[:-1] if latches else []


def parity(inputs):
    side = Side(inputs, [])
    whole = 0
    for i in range(inputs):
        whole = side.unlike(whole, side.input(i))
    return side.done([], [whole]), silent(inputs)


def late(frames):
    """An input shown late, in a frame in which another one is 0."""
    side = Side(2, [0] * frames)
    last = ([side.input(0)] + side.latches)[-1]
    return side.done(chain(side, side.input(0), side.latches), [side.both(last, side.input(1) ^ 1)]), silent(2)


def counter(width, number):
    """A counter that either of two inputs lets go on and a third sets to 0; it is seen at a number."""
    side = Side(3, [0] * width)
    going = side.either(side.input(0), side.input(1))
    steps = [side.both(bit, side.input(2) ^ 1) for bit in side.one_more(side.latches, going)]
    return side.done(steps, [side.is_number(side.latches, number)]), silent(3)


def free_counter(width, number, frames):
    """A counter that begins anywhere, seen at a number once a chain of latches has filled."""
    side = Side(2, [aiger.ANY] * width + [0] * frames)
    count, wait = side.latches[:width], side.latches[width:]
    steps = side.one_more(count, side.both(side.input(0), side.input(1) ^ 1))
    return side.done(steps + chain(side, 1, wait), [side.both(([1] + wait)[-1], side.is_number(count, number))]), silent(2)


def lock(digits):
    """A lock that opens by three-bit digits, one after another; a wrong one begins anew."""
    width = len(digits).bit_length()
    side = Side(3, [0] * width)
    fits = 0
    for i, digit in enumerate(digits):
        fits = side.either(fits, side.both(side.is_number(side.latches, i), side.is_number(side.net.inputs, digit)))
    is_open = side.is_number(side.latches, len(digits))
    steps = [side.pick(is_open, bit, side.both(fits, more)) for bit, more in zip(side.latches, side.one_more(side.latches, 1))]
    return side.done(steps, [is_open]), silent(3)


def shift(width, most, frames):
    """A shift register that begins anywhere, seen when it has so many ones and a chain of latches has filled."""
    side = Side(1, [aiger.ANY] * width + [0] * frames)
    row, wait = side.latches[:width], side.latches[width:]
    count = [0] * width.bit_length()
    for bit in row:
        count = side.one_more(count, bit)
    seen = side.both(([1] + wait)[-1], side.is_number(count, most))
    return side.done(chain(side, side.input(0), row) + chain(side, 1, wait), [seen]), silent(1)


def feedback(width, taps, number, frames):
    """A linear feedback shift register that begins anywhere and takes an input, seen at a number once a chain of latches has filled."""
    side = Side(1, [aiger.ANY] * width + [0] * frames)
    row, wait = side.latches[:width], side.latches[width:]
    back = side.input(0)
    for tap in taps:
        back = side.unlike(back, row[tap])
    seen = side.both(([1] + wait)[-1], side.is_number(row, number))
    return side.done(chain(side, back, row) + chain(side, 1, wait), [seen]), silent(1)


def example(left, right):
    return tuple(aiger.read(os.path.join(EXAMPLES, name + ".aig")) for name in (left, right))


def masked(left, right, output, frames):
    """An example whose right side shows 0 for an output once a chain of latches has filled."""
    left, right = example(left, right)
    most = max([0] + right.inputs + [row[0] for row in right.latches] + [gate[0] for gate in right.gates]) // 2
    wait = [2 * (most + i + 1) for i in range(frames)]
    right.latches += [[own, step, 0] for own, step in zip(wait, [1] + wait)]
    shown = right.outputs[output]
    seen = 2 * (most + frames + 1)
    right.gates.append((seen, max(shown, ([1] + wait)[-1] ^ 1), min(shown, ([1] + wait)[-1] ^ 1)))
    right.outputs[output] = seen
    left.binary = right.binary = False
    return left, right


PAIRS = [
    ("parity of eight inputs", lambda: parity(8)),
    ("sum of samples without resets, rewritten", lambda: example("filter", "filter_tree")),
    ("counter to 1", lambda: counter(3, 1)),
    ("shift register, 6 of 9", lambda: shift(9, 6, 2)),
    ("counter from anywhere to 13", lambda: free_counter(5, 13, 3)),
    ("lock of 4 digits", lambda: lock([5, 1, 6, 2])),
    ("FIFO with a bug", lambda: example("fifo", "fifo_bug")),
    ("CRC, masked from frame 6", lambda: masked("crc", "crc_retimed", 3, 6)),
    ("shift register, 7 of 12", lambda: shift(12, 7, 7)),
    ("input shown late", lambda: late(8)),
    ("counter from anywhere to 25", lambda: free_counter(5, 25, 10)),
    ("lock of 12 digits", lambda: lock([3, 3, 0, 7, 1, 4, 4, 2, 5, 6, 0, 1])),
    ("counter to 13", lambda: counter(5, 13)),
    ("CRC, masked from frame 15", lambda: masked("crc", "crc_retimed", 0, 15)),
    ("feedback register of 12", lambda: feedback(12, [11, 5, 3, 0], 0xA53, 16)),
    ("counter to 18", lambda: counter(5, 18)),
    ("feedback register of 14", lambda: feedback(14, [13, 4, 2, 0], 0x2B5D, 28)),
    ("feedback register of 16", lambda: feedback(16, [15, 14, 12, 3], 0xBEEF, 32)),
    ("shift register, 8 of 14", lambda: shift(14, 8, 36)),
    ("input shown late", lambda: late(40)),
]


def text(net):
    most = max([0] + net.inputs + [row[0] for row in net.latches] + [gate[0] for gate in net.gates]) // 2
    lines = [f"aag {most} {len(net.inputs)} {len(net.latches)} {len(net.outputs)} {len(net.gates)}"]
    lines += [str(lit) for lit in net.inputs]
    lines += [f"{own} {step} {own if reset == aiger.ANY else reset}" for own, step, reset in net.latches]
    lines += [str(lit) for lit in net.outputs]
    lines += [" ".join(map(str, gate)) for gate in net.gates]
    return "\n".join(lines) + "\n"


def checked(program, left, right, options):
    """The frame, the output, the bits of the trace, and the seconds of processor of one run."""
    begun = resource.getrusage(resource.RUSAGE_CHILDREN)
    seen = subprocess.run([program, "check", left, right, "-d", "64"] + options, capture_output=True, text=True)
    ended = resource.getrusage(resource.RUSAGE_CHILDREN)
    took = ended.ru_utime + ended.ru_stime - begun.ru_utime - begun.ru_stime
    head = re.match(r"different k=1 frame=(\d+) output=(\d+)\n1\nb\d+\n([01\n]*)\.\n", seen.stdout)
    if seen.returncode != 1 or head is None:
        sys.exit(f"{left} {right}: status {seen.returncode}\n{seen.stdout}{seen.stderr}")
    return int(head[1]), int(head[2]), head[3].replace("\n", ""), took


def questions(program, left, right):
    """How often the search for the least run asks the solver."""
    orders = ["set pagination off", "set confirm off", "break frame_questions::found::Prepared::find_under", "ignore 1 1000000", "run", "info breakpoints"]
    words = ["gdb", "-q", "-batch"] + [word for order in orders for word in ("-ex", order)]
    words += ["--args", program, "check", left, right, "-d", "64", "--least"]
    seen = subprocess.run(words, capture_output=True, text=True).stdout
    if not re.search(r"^1 .*breakpoint .*find_under", seen, re.M):
        sys.exit(f"gdb finds no find_under in {program}:\n{seen}")
    hits = re.search(r"breakpoint already hit (\d+) time", seen)
    return int(hits[1]) if hits else 0


def row(program, folder, number, what, pair):
    names = [os.path.join(folder, f"{number:02}_{side}.aag") for side in ("left", "right")]
    for name, net in zip(names, pair):
        with open(name, "w") as file:
            file.write(text(net))
    frame, output, found, plain = checked(program, *names, [])
    same, also, least, took = checked(program, *names, ["--least"])
    asked = questions(program, *names)
    states = least_search.Pair(*pair)
    wanted = least_search.least_run(states, frame, output)
    is_good = (same, also, least) == (frame, output, wanted) and least.count("1") <= asked <= len(least)
    if what != "FIFO with a bug":
        is_good = is_good and least_search.least_difference(states, 64) == (frame, output)
    ones = f"{found.count('1')}, {least.count('1')}"
    print(f"| {what} | {frame} | {output} | {len(least)} | {ones} | {asked} | {plain:.2f}, {took:.2f} |" + ("" if is_good else f" WRONG: {wanted}"), flush=True)
    return is_good


def main():
    if len(sys.argv) not in (2, 3):
        sys.exit(__doc__)
    folder = sys.argv[2] if len(sys.argv) == 3 else tempfile.mkdtemp()
    print("| pair | frame | output | bits | ones, without and with `--least` | questions | seconds, without and with |")
    print("|---|---|---|---|---|---|---|")
    rows = [row(os.path.abspath(sys.argv[1]), folder, i, what, make()) for i, (what, make) in enumerate(PAIRS)]
    sys.exit(0 if all(rows) else 1)


main()
