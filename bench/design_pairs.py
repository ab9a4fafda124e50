#!/usr/bin/env python3
"""Makes pairs of designs by yosys and ABC: those of bench/designs, and four that are written here.

    bench/design_pairs.py FOLDER [NAME..]

writes FOLDER/NAMEx_left.aig and FOLDER/NAMEx_right.aig: a design, and what is made of it by (x) d: choices and six-input tables of ABC; s: its
script &syn4; w: rewriting, twice, and resubstitution; t: retiming; y: yosys alone, by other passes, with state machines one-hot and five-input tables, and with all the
gates that it leaves. Needs `yosys` and `berkeley-abc`. Unproved."""
import os
import subprocess
import sys

HERE = os.path.dirname(os.path.abspath(__file__))
SYN2 = "balance; rewrite; refactor; balance; rewrite; rewrite -z; balance; refactor -z; rewrite -z; balance"
RESUB = "; ".join(f"resub -K {k} -l; rewrite -l; resub -K {k} -N 2 -l; balance -l" for k in (6, 8, 10, 12))
PASSES = {
    "d": "dch -f; if -K 6; strash; dc2; dc2; dch; strash",
    "s": "&get -n; &syn4; &put; dc2",
    "w": f"{SYN2}; {SYN2}; {RESUB}",
    "t": "dretime; strash; dc2",
}
LEFT = "synth -flatten -top top; memory_map; techmap; opt -full; dfflegalize -cell $_DFF_P_ 01"
RIGHT = ("hierarchy -top top; proc; flatten; opt; fsm -encoding one-hot; opt; wreduce; alumacc; share; opt; memory_map; opt -full; dffunmap; techmap; "
         "dfflegalize -cell $_DFF_P_ 01; abc -lut 5; opt; techmap")

AES = """
module box(input [7:0] x, output reg [7:0] y);
  always @* case (x)
{cases}
  endcase
endmodule
module top(input clk, input load, input [31:0] word, input [31:0] key, output [31:0] shown);
  reg [31:0] s = 0, k = 0;
  wire [31:0] t;
  box b0(s[7:0], t[7:0]), b1(s[15:8], t[15:8]), b2(s[23:16], t[23:16]), b3(s[31:24], t[31:24]);
  function [7:0] twice;
    input [7:0] x;
    twice = {{x[6:0], 1'b0}} ^ (8'h1b & {{8{{x[7]}}}});
  endfunction
  wire [7:0] a = t[7:0], b = t[15:8], c = t[23:16], d = t[31:24];
  wire [31:0] mixed = {{twice(d) ^ twice(a) ^ a ^ b ^ c, twice(c) ^ twice(d) ^ d ^ a ^ b,
                       twice(b) ^ twice(c) ^ c ^ d ^ a, twice(a) ^ twice(b) ^ b ^ c ^ d}};
  assign shown = s;
  always @(posedge clk) begin
    k <= load ? key : {{k[23:0], k[31:24]}} ^ s;
    s <= load ? word : mixed ^ k;
  end
endmodule
"""


def substitutions():
    """The substitution box of AES (FIPS 197), along the powers of 3 and of its inverse."""
    box, p, q = [0x63] * 256, 1, 1
    while True:
        p ^= (p << 1) & 0xFF ^ (0x1B if p & 0x80 else 0)
        for by in (1, 2, 4):
            q ^= q << by & 0xFF
        q ^= 0x09 if q & 0x80 else 0
        turned = q
        for by in range(1, 5):
            turned ^= (q << by | q >> (8 - by)) & 0xFF
        box[p] = turned ^ 0x63
        if p == 1:
            return box


def aes():
    """A column of a round of AES a cycle."""
    return AES.format(cases="\n".join(f"    8'd{i}: y = 8'd{it};" for i, it in enumerate(substitutions())))


def cordic():
    """A rotation in seven stages (J. Volder 1959)."""
    regs = "\n".join(f"  reg signed [11:0] x{i} = 0, y{i} = 0, z{i} = 0;" for i in range(8))
    stages = "\n".join(
        f"    x{i + 1} <= z{i}[11] ? x{i} + (y{i} >>> {i}) : x{i} - (y{i} >>> {i});\n"
        f"    y{i + 1} <= z{i}[11] ? y{i} - (x{i} >>> {i}) : y{i} + (x{i} >>> {i});\n"
        f"    z{i + 1} <= z{i}[11] ? z{i} + 12'd{by} : z{i} - 12'd{by};" for i, by in enumerate((804, 475, 251, 127, 64, 32, 16)))
    return (f"module top(input clk, input [11:0] angle, output [11:0] sine, output [11:0] cosine);\n{regs}\n  assign sine = y7, cosine = x7;\n"
            f"  always @(posedge clk) begin\n    x0 <= 12'd622; y0 <= 0; z0 <= angle;\n{stages}\n  end\nendmodule\n")


def sorter():
    """Eight bytes sorted in seven stages."""
    stages = [[(0, 1), (2, 3), (4, 5), (6, 7)], [(0, 2), (1, 3), (4, 6), (5, 7)], [(1, 2), (5, 6), (0, 4), (3, 7)], [(1, 5), (2, 6)],
              [(1, 4), (3, 6)], [(2, 4), (3, 5)], [(3, 4)]]
    lines = [f"    s{i + 1} <= s{i};" + "".join(
        f" if (s{i}[{8 * x} +: 8] > s{i}[{8 * y} +: 8]) begin s{i + 1}[{8 * x} +: 8] <= s{i}[{8 * y} +: 8]; s{i + 1}[{8 * y} +: 8] <= s{i}[{8 * x} +: 8]; end"
        for x, y in stage) for i, stage in enumerate(stages)]
    regs = "\n".join(f"  reg [63:0] s{i} = 0;" for i in range(len(stages) + 1))
    body = "\n".join(lines)
    return f"module top(input clk, input [63:0] words, output [63:0] sorted);\n{regs}\n  assign sorted = s{len(stages)};\n  always @(posedge clk) begin\n    s0 <= words;\n{body}\n  end\nendmodule\n"


def lfsr():
    """A sum of what sixteen feedback registers draw."""
    regs = "\n".join(f"  reg [30:0] l{i} = {i * 7919 + 1};" for i in range(16))
    steps = "\n".join(f"    l{i} <= {{l{i}[29:0], l{i}[30] ^ l{i}[{(i * 5 + 3) % 29}] ^ word[{i}]}};" for i in range(16))
    drawn = " ^ ".join(f"{{1'b0, l{i}}}" for i in range(16))
    return (f"module top(input clk, input [31:0] word, input valid, output [31:0] shown);\n{regs}\n  reg [31:0] sum = 0;\n  assign shown = sum;\n"
            f"  always @(posedge clk) if (valid) begin\n{steps}\n    sum <= sum + ({drawn});\n  end\nendmodule\n")


def designs():
    """Each design's Verilog, by its name."""
    found = {"aes": aes(), "cordic": cordic(), "sorter": sorter(), "lfsr": lfsr()}
    for name in sorted(os.listdir(f"{HERE}/designs")):
        with open(f"{HERE}/designs/{name}", encoding="utf-8") as file:
            found[name.removesuffix(".v")] = file.read()
    return found


def run(words, folder):
    subprocess.run(words, cwd=folder, check=True, stdout=subprocess.DEVNULL)


def synthesise(name, passes, to, folder):
    run(["yosys", "-q", "-p", f"read_verilog {name}.v; {passes}; setundef -zero; aigmap; write_aiger -zinit {to}"], folder)


def main():
    if len(sys.argv) < 2:
        sys.exit(__doc__)
    folder, wanted = sys.argv[1], sys.argv[2:]
    os.makedirs(folder, exist_ok=True)
    for name, text in designs().items():
        if wanted and name not in wanted:
            continue
        with open(f"{folder}/{name}.v", "w", encoding="utf-8") as file:
            file.write(text)
        for x in [*PASSES, "y"]:
            synthesise(name, LEFT, f"{name}{x}_left.aig", folder)
            if x == "y":
                synthesise(name, RIGHT, f"{name}y_right.aig", folder)
            else:
                run(["berkeley-abc", "-q", f"read_aiger {name}{x}_left.aig; strash; {PASSES[x]}; strash; write_aiger {name}{x}_right.aig"], folder)


main()
