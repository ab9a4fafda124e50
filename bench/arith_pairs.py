#!/usr/bin/env python3
"""Makes pairs of arithmetic circuits by yosys and ABC, from Verilog that stands here.

    bench/arith_pairs.py FOLDER [more]

writes FOLDER/NAME_left.aig and FOLDER/NAME_right.aig: filters of a few constant factors, a barrel shifter with an adder, a serial
line, and a count of the ones of a word, each beside what ABC's retiming and rewriting make of it (names that end with r) or beside what yosys makes of it in another
style, by its pass maccmap (names that end with m). With `more` it writes others: filters of drawn factors (fN_TAPS_BITS), counts of 40 and
48 bits, and a sum of two squares. Needs `yosys` and `yosys-abc` or `berkeley-abc`. Unproved."""
import os
import random
import shutil
import subprocess
import sys

FIR = """
module top(input clk, input [{top}:0] in, output reg [19:0] out);
  reg [{top}:0] {regs};
  initial out = 0;
  always @(posedge clk) begin
    {shift}
    out <= {sum};
  end
endmodule
"""

ALU = """
module top(input clk, input [3:0] op, input [31:0] a, input [31:0] b, output reg [31:0] y, output reg z);
  reg [31:0] ra = 0, rb = 0, r;
  reg [3:0] ro = 0;
  initial begin y = 0; z = 0; end
  always @* case (ro)
    0: r = ra + rb; 1: r = ra - rb; 2: r = ra & rb; 3: r = ra | rb; 4: r = ra ^ rb; 5: r = ra << rb[4:0];
    6: r = ra >> rb[4:0]; 7: r = $signed(ra) >>> rb[4:0]; 8: r = {31'b0, ra < rb};
    9: r = {31'b0, $signed(ra) < $signed(rb)}; 10: r = ~ra; 11: r = -ra; default: r = rb;
  endcase
  always @(posedge clk) begin ra <= a; rb <= b; ro <= op; y <= r; z <= r == 0; end
endmodule
"""

UART = """
module top(input clk, input go, input [7:0] d, input rx, output reg tx, output busy, output reg [7:0] q, output reg ok);
  reg [3:0] n = 0, m = 0;
  reg [9:0] sh = 10'h3ff;
  reg [7:0] div = 0, rd = 0, rs = 0;
  initial begin tx = 1; q = 0; ok = 0; end
  assign busy = n != 0;
  always @(posedge clk) begin
    if (!busy && go) begin n <= 10; sh <= {1'b1, d, 1'b0}; div <= 0; end
    else if (busy) begin
      div <= div == 103 ? 0 : div + 1;
      if (div == 103) begin tx <= sh[0]; sh <= {1'b1, sh[9:1]}; n <= n - 1; end
    end
    ok <= 0;
    if (m == 0) begin if (!rx) begin m <= 1; rd <= 52; end end
    else begin
      rd <= rd == 103 ? 0 : rd + 1;
      if (rd == 103) begin rs <= {rx, rs[7:1]}; m <= m == 9 ? 0 : m + 1; if (m == 9) begin ok <= rx; q <= rs; end end
    end
  end
endmodule
"""

COUNT = """
module top(input clk, input [63:0] a, output reg [6:0] n, output reg p);
  reg [63:0] r = 0;
  reg [6:0] s;
  integer i;
  initial begin n = 0; p = 0; end
  always @* begin s = 0; for (i = 0; i < 64; i = i + 1) s = s + r[i]; end
  always @(posedge clk) begin r <= a; n <= s; p <= ^r; end
endmodule
"""


def fir(factors, bits):
    names = [f"d{i}" for i in range(len(factors))]
    shift = ["d0 <= in;"] + [f"d{i} <= d{i - 1};" for i in range(1, len(factors))]
    return FIR.format(
        top=bits - 1,
        regs=", ".join(f"{it} = 0" for it in names),
        shift=" ".join(shift),
        sum=" + ".join(f"{it} * 8'd{factor}" for it, factor in zip(names, factors)),
    )


CIRCUITS = {
    "fir3": fir([23, 91, 177], 8),
    "fir4": fir([13, 55, 55, 13], 8),
    "fir5": fir([7, 99, 201, 99, 7], 8),
    "fir6": fir([3, 27, 115, 115, 27, 3], 6),
    "alu": ALU,
    "uart": UART,
    "count": COUNT,
}

SQUARES = """
module top(input clk, input [6:0] a, input [6:0] b, output reg [15:0] o);
  reg [6:0] x = 0, y = 0;
  initial o = 0;
  always @(posedge clk) begin x <= a; y <= b; o <= x * x + y * y; end
endmodule
"""


def more():
    """Filters of factors that are drawn, and other circuits."""
    draw = random.Random(5)
    circuits = {}
    for taps, bits in [(3, 7), (3, 8), (4, 6), (4, 7), (5, 6), (2, 10), (3, 8), (4, 7)]:
        factors = [draw.randrange(3, 255) | 1 for _ in range(taps)]
        circuits[f"f{len(circuits)}_{taps}_{bits}"] = fir(factors, bits)
    for bits in (40, 48):
        circuits[f"cnt{bits}"] = COUNT.replace("63", str(bits - 1)).replace("64", str(bits))
    circuits["sq7"] = SQUARES
    return circuits


END = "opt -full; setundef -zero -init -undriven; dffunmap; techmap; {abc}; opt_clean; write_aiger -zinit {out}"
LEFT = "read_verilog {name}.v; prep -top top -flatten; opt -full; techmap; "
OTHER = "read_verilog {name}.v; prep -top top -flatten; alumacc; share; opt -full; maccmap -unmap; techmap; "
RETIMED = "read {name}_left.aig; strash; dretime; strash; balance; rewrite; refactor; balance; rewrite -z; write_aiger -s {name}r_right.aig"


def made(words, folder):
    subprocess.run(words, cwd=folder, check=True, stdout=subprocess.DEVNULL, stderr=subprocess.DEVNULL)


def main():
    if len(sys.argv) not in (2, 3) or sys.argv[2:] not in ([], ["more"]):
        sys.exit(__doc__)
    folder, circuits = sys.argv[1], more() if sys.argv[2:] else CIRCUITS
    os.makedirs(folder, exist_ok=True)
    abc = shutil.which("yosys-abc") or shutil.which("berkeley-abc") or sys.exit("needs yosys-abc or berkeley-abc")
    for name, text in circuits.items():
        with open(f"{folder}/{name}.v", "w") as file:
            file.write(text)
        left = LEFT + END.format(abc="abc -g AND -fast", out=f"{name}_left.aig")
        other = OTHER + END.format(abc="abc -g AND", out=f"{name}m_right.aig")
        made(["yosys", "-q", "-p", left.format(name=name)], folder)
        made(["yosys", "-q", "-p", other.format(name=name)], folder)
        made([abc, "-c", RETIMED.format(name=name)], folder)
        for style in "mr":
            shutil.copyfile(f"{folder}/{name}_left.aig", f"{folder}/{name}{style}_left.aig")


main()
