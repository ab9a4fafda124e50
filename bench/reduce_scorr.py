#!/usr/bin/env python3
"""Reduces single designs by `sec reduce` and by ABC's `scorr`, and makes a table of what either leaves.

    bench/reduce_scorr.py PROGRAM FOLDER [NAME..]

writes FOLDER/NAME.aig for ten designs of 1,400 to 51,600 gates from Verilog that stands here and in engine_pairs.py: some as they are, some
with parts that stand more than once, as in lockstep or voted hardware. Then it prints a row for each: latches and gates as
yosys wrote them; as `sec reduce` leaves them, with its seconds of processor; as `strash; scorr` leaves them, with its seconds; and as
`sec reduce` and then `strash` leave them. A run ends after 100 seconds, shown as `-`. Needs `yosys` and ABC as `berkeley-abc`. Unproved."""
import os
import re
import resource
import subprocess
import sys

import engine_pairs as pairs


# Parts are mapped each by itself and put together at the end, so that what stands more than once in a design stays so.
SYNTHESIS = ("read_verilog {0}.v; hierarchy -top top; proc; opt; memory -nomap; memory_map; opt; techmap; opt; dffunmap; simplemap; aigmap; opt_clean; "
             "flatten; clean; setundef -init -zero; write_aiger -zinit {0}.aig")


def part(text, name):
    return text.replace("module top(", f"module {name}(")


# Three cores on one input, of which two out of three are shown.
VOTED = """
module top(input clk, input [15:0] word, output [15:0] shown, output [15:0] at);
  wire [15:0] s0, s1, s2, a0, a1, a2;
  core c0(clk, word, s0, a0);
  core c1(clk, word, s1, a1);
  core c2(clk, word, s2, a2);
  assign shown = (s0 & s1) | (s0 & s2) | (s1 & s2);
  assign at = (a0 & a1) | (a0 & a2) | (a1 & a2);
endmodule
"""

# Two styles of SHA-1 in lockstep, with a flag that is raised where they differ.
LOCKSTEP = """
module top(input clk, input load, input [31:0] word, output [31:0] shown, output differs);
  wire [31:0] a, b;
  one x(clk, load, word, a);
  other y(clk, load, word, b);
  assign shown = a;
  assign differs = a != b;
endmodule
"""

# Four multipliers, each with its own registers, of which two have the same factors, and two exchanged ones.
FACTORS = """
module top(input clk, input [15:0] x, input [15:0] y, output [31:0] p, output [31:0] q, output [31:0] r, output [31:0] s);
  unit a(clk, x, y, p);
  unit b(clk, y, x, q);
  unit c(clk, x, y, r);
  unit d(clk, y, x, s);
endmodule
"""

# A bank of sixteen cores: those of a pair read the same words, but for the last bit of each fourth pair.
BANK = """
module top(input clk, input [15:0] word, input [7:0] last, output [255:0] shown);
  genvar i;
  generate for (i = 0; i < 16; i = i + 1) begin : each
    wire [15:0] at;
    wire [7:0] mine = last ^ ((i / 2) % 4 == 3 ? i : i / 2);
    core c(clk, word ^ {8'd0, mine}, shown[16 * i +: 16], at);
  end endgenerate
endmodule
"""

CORE = part(pairs.CORE, "core")


def with_parts(top, *parts):
    return "\n".join(parts) + top


DESIGNS = {
    "crc32": pairs.CRC_BITS,
    "core": pairs.CORE,
    "fifo64": pairs.fifo(64),
    "sha1 in lockstep": with_parts(LOCKSTEP, part(pairs.SHA.format(**pairs.SHA_LEFT), "one"), part(pairs.SHA.format(**pairs.SHA_RIGHT), "other")),
    "core, voted": with_parts(VOTED, CORE),
    "multipliers": with_parts(FACTORS, part(pairs.multiplier(16, pairs.rows_of_adders), "unit")),
    "fifo256": pairs.fifo(256),
    "fifo512": pairs.fifo(512),
    "bank of cores": with_parts(BANK, CORE),
    "fifo1024": pairs.fifo(1024),
}


def make(name, text, folder):
    file = name.replace(" ", "_").replace(",", "")
    path = f"{folder}/{file}.aig"
    if os.path.exists(path):
        return path
    with open(f"{folder}/{file}.v", "w", encoding="utf-8") as out:
        out.write(text)
    subprocess.run(["yosys", "-q", "-p", SYNTHESIS.format(file)], cwd=folder, check=True, stdout=subprocess.DEVNULL)
    return path


def timed(words, limit=100, folder=None):
    before = resource.getrusage(resource.RUSAGE_CHILDREN)
    try:
        done = subprocess.run(words, capture_output=True, text=True, timeout=limit, check=False, cwd=folder)
        said = done.stdout + done.stderr
    except subprocess.TimeoutExpired:
        return None, ""
    after = resource.getrusage(resource.RUSAGE_CHILDREN)
    return after.ru_utime + after.ru_stime - before.ru_utime - before.ru_stime, said


def counts(path):
    with open(path, "rb") as file:
        head = file.readline().split()
    return int(head[3]), int(head[5])


STATS = re.compile(r"lat =\s*(\d+)\s+and =\s*(\d+)")


def by_abc(path, passes):
    time, said = timed(["berkeley-abc", "-c", f"read_aiger {path}; strash; {passes} print_stats"])
    found = STATS.findall(said)
    return time, tuple(map(int, found[-1])) if found else None


def shown(pair):
    return "-" if pair is None else f"{pair[0]:,}, {pair[1]:,}"


def seconds(time):
    return "-" if time is None else f"{time:.2f}"


def main():
    program, folder, *names = sys.argv[1:]
    os.makedirs(folder, exist_ok=True)
    print("| design | latches, gates | `reduce` | seconds | `scorr` | seconds | `reduce`, then `strash` |\n|---|---|---|---|---|---|---|")
    for name, text in DESIGNS.items():
        if names and name not in names:
            continue
        path = make(name, text, folder)
        out = f"{folder}/reduced.aig"
        time, said = timed([program, "reduce", path, out, "--binary"])
        ours = re.search(r"latches=(\d+) gates=(\d+)", said)
        ours = tuple(map(int, ours.groups())) if ours else None
        abc_time, abc = by_abc(path, "scorr -C 1000000000 -F 1;")
        after = by_abc(out, "")[1] if ours else None
        print(f"| {name} | {shown(counts(path))} | {shown(ours)} | {seconds(time)} | {shown(abc)} | {seconds(abc_time)} | {shown(after)} |", flush=True)


if __name__ == "__main__":
    main()
