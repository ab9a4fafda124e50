#!/usr/bin/env python3
"""Times two parts of a run: the making of the frames that each version of the classes has, and the opening by simulation. A pair of
demo_pair.py without outputs, of so many gates, is checked under gdb, which stops where `Unrolled::step_frames` begins and where it
ends, or where the opening has its phases and where it is over.

    bench/frames.py PROGRAM GATES

Prints the clauses, seconds, and clauses per second, for k = 1; and the gates, 16 frames of them in 512 runs, eight words a gate, by seconds. Unproved; no
contract claims time.
"""
import os
import re
import subprocess
import sys
import tempfile

sys.dont_write_bytecode = True

import demo_pair

TIMER = """
import gdb, time
for line in ("set pagination off", "set confirm off", "set print inferior-events off"):
    gdb.execute(line)
first = gdb.Breakpoint("product_machine::product::Product::eval")
gdb.execute("run", to_string=True)
gdb.execute("finish", to_string=True)
first.delete()
opened = gdb.Breakpoint("verdict_stamp::version::Version::copy")
begun = time.time()
gdb.execute("continue", to_string=True)
print("opening", time.time() - begun)
opened.delete()
gdb.Breakpoint("frame_unroll::unrolled::Unrolled::step_frames")
gdb.execute("continue", to_string=True)
begun = time.time()
gdb.execute("finish", to_string=True)
print("frames", time.time() - begun)
gdb.execute("kill")
"""


def without_outputs(text):
    lines = text.split("\n")
    form, m, i, l, o, a = lines[0].split()
    first = 1 + int(i) + int(l)
    return "\n".join([f"{form} {m} {i} {l} 0 {a}"] + lines[1:first] + lines[first + int(o):]), int(l), int(a)


def main():
    program, gates = sys.argv[1], int(sys.argv[2])
    sides = [without_outputs(demo_pair.text_of(side)) for side in demo_pair.pair_of(gates // 12)]
    with tempfile.TemporaryDirectory() as folder:
        names = [os.path.join(folder, name) for name in ("left", "right", "timer.py")]
        for name, text in zip(names, [sides[0][0], sides[1][0], TIMER]):
            with open(name, "w") as file:
                file.write(text)
        seen = subprocess.run(["gdb", "-q", "-batch", "-x", names[2], "--args", program, "check"] + names[:2], capture_output=True, text=True).stdout
    opening, frames = (float(re.search(part + r" ([0-9.]+)", seen).group(1)) for part in ("opening", "frames"))
    latches, ands = sum(s[1] for s in sides), sum(s[2] for s in sides)
    # two frames of three clauses a gate, two a latch between them; the clauses of equal signals come on top
    clauses = 6 * ands + 2 * latches
    print(f"{ands} gates, {latches} latches")
    words = 8 * 16 * ands
    print(f"opening: {words} gate-words and their splits in {opening:.4f} s, {words / opening / 1e6:.0f} million a second")
    print(f"frames: more than {clauses} clauses in {frames:.4f} s, {clauses / frames / 1e6:.0f} million a second")


main()
