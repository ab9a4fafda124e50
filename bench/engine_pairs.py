#!/usr/bin/env python3
"""Makes pairs of circuits for the engine by yosys and ABC, from Verilog that stands here.

    bench/engine_pairs.py FOLDER

writes FOLDER/NAME_left.aig and FOLDER/NAME_right.aig for each pair: a circuit and what ABC's rewriting makes of it, or the same
function written in two styles. Needs `yosys` and `yosys-abc`. Unproved."""
import math
import os
import subprocess
import sys

FIFO = """
module top(input clk, input push, input pop, input [7:0] in, output [7:0] out, output empty, output full, output [{top}:0] level);
  reg [7:0] cells [0:{last}];
  reg [{at}:0] head = 0, tail = 0;
  reg [{top}:0] count = 0;
  assign empty = count == 0;
  assign full = count == {words};
  assign level = count;
  assign out = cells[head];
  wire pushes = push & ~full;
  wire pops = pop & ~empty;
  integer i;
  initial for (i = 0; i < {words}; i = i + 1) cells[i] = 0;
  always @(posedge clk) begin
    if (pushes) begin
      cells[tail] <= in;
      tail <= tail + 1;
    end
    if (pops) head <= head + 1;
    count <= count + pushes - pops;
  end
endmodule
"""

# A core with eight registers: it fetches a word of input as an instruction, and shows what it writes and where it stands.
CORE = """
module top(input clk, input [15:0] word, output [15:0] shown, output [15:0] at);
  reg [15:0] file [0:7];
  reg [15:0] pc = 0, instruction = 0, result = 0;
  reg [2:0] target = 0;
  reg writes = 0, zero = 0;
  wire [2:0] op = instruction[15:13], rd = instruction[12:10], ra = instruction[9:7], rb = instruction[6:4];
  wire [15:0] a = (writes & target == ra) ? result : file[ra];
  wire [15:0] b = (writes & target == rb) ? result : file[rb];
  wire [15:0] number = {{9{instruction[6]}}, instruction[6:0]};
  wire [15:0] sum = a + (op == 1 ? ~b + 16'd1 : op == 2 ? number : b);
  reg [15:0] value;
  always @* case (op)
    0, 1, 2: value = sum;
    3: value = a & b;
    4: value = a ^ b;
    5: value = a << b[3:0];
    6: value = a >> b[3:0];
    7: value = {15'd0, $signed(a) < $signed(b)};
  endcase
  wire taken = op == 7 & instruction[3] & zero;
  assign shown = result;
  assign at = pc;
  integer i;
  initial for (i = 0; i < 8; i = i + 1) file[i] = 0;
  always @(posedge clk) begin
    instruction <= word;
    pc <= taken ? pc + number : pc + 16'd1;
    result <= value;
    target <= rd;
    zero <= value == 0;
    writes <= ~taken;
    if (writes) file[target] <= result;
  end
endmodule
"""

SHA = """
module top(input clk, input load, input [31:0] word, output [31:0] shown);
  reg [31:0] a = 32'h67452301, b = 32'hefcdab89, c = 32'h98badcfe, d = 32'h10325476, e = 32'hc3d2e1f0;
  reg [511:0] w = 0;
  reg [6:0] t = 0;
  wire [31:0] f = {f};
  wire [31:0] k = t < 20 ? 32'h5a827999 : t < 40 ? 32'h6ed9eba1 : t < 60 ? 32'h8f1bbcdc : 32'hca62c1d6;
  wire [31:0] x = w[511:480] ^ w[415:384] ^ w[255:224] ^ w[95:64];
  wire [31:0] next = load ? word : {{x[30:0], x[31]}};
  wire [31:0] turned = {{a[26:0], a[31:27]}};
  wire [31:0] sum = {sum};
  assign shown = a ^ e;
  always @(posedge clk) begin
    w <= {{w[479:0], next}};
    t <= load ? 0 : t == 79 ? 0 : t + 1;
    e <= d; d <= c; c <= {{b[1:0], b[31:2]}}; b <= a; a <= sum;
  end
endmodule
"""

SHA_LEFT = {
    "f": "t < 20 ? (b & c) | (~b & d) : t < 40 ? b ^ c ^ d : t < 60 ? (b & c) | (b & d) | (c & d) : b ^ c ^ d",
    "sum": "turned + f + e + k + next",
}
SHA_RIGHT = {
    "f": "(t >= 20 & t < 40 | t >= 60) ? d ^ (c ^ b) : t < 20 ? d ^ (b & (c ^ d)) : (b & c) | (d & (b | c))",
    "sum": "(next + k) + (e + (f + turned))",
}

CRC_BITS = """
module top(input clk, input [31:0] data, input clear, output [31:0] crc);
  reg [31:0] state = 32'hffffffff;
  reg [31:0] s;
  integer i;
  always @* begin
    s = state;
    for (i = 0; i < 32; i = i + 1) s = {s[30:0], 1'b0} ^ ({32{s[31] ^ data[31 - i]}} & 32'h04c11db7);
  end
  assign crc = state;
  always @(posedge clk) state <= clear ? 32'hffffffff : s;
endmodule
"""


def crc_rows():
    """The same by rows of the matrix: each bit of the next state as a sum of bits."""
    def after(state, data):
        for i in range(32):
            top = (state >> 31 ^ data >> (31 - i)) & 1
            state = (state << 1 & 0xffffffff) ^ (0x04c11db7 if top else 0)
        return state

    rows = [[] for _ in range(32)]
    for i in range(32):
        for name, image in ((f"state[{i}]", after(1 << i, 0)), (f"data[{i}]", after(0, 1 << i))):
            for j in range(32):
                if image >> j & 1:
                    rows[j].append(name)
    lines = "\n".join(f"  assign s[{j}] = {' ^ '.join(reversed(row))};" for j, row in enumerate(rows))
    return f"""
module top(input clk, input [31:0] data, input clear, output [31:0] crc);
  reg [31:0] state = 32'hffffffff;
  wire [31:0] s;
{lines}
  assign crc = state;
  always @(posedge clk) state <= clear ? 32'hffffffff : s;
endmodule
"""


MULTIPLIER = """
module top(input clk, input [{top}:0] x, input [{top}:0] y, output [{most}:0] product);
  reg [{top}:0] a = 0, b = 0;
  reg [{most}:0] p = 0;
  {body}
  assign product = p;
  always @(posedge clk) begin a <= x; b <= y; p <= value; end
endmodule
"""


def rows_of_adders(n):
    """Row by row, each added by a chain of full adders."""
    lines = [f"  wire [{2 * n - 1}:0] r0 = b[0] ? {{{n}'d0, a}} : 0;"]
    for i in range(1, n):
        lines.append(f"  wire [{2 * n - 1}:0] r{i} = r{i - 1} + (b[{i}] ? {{{n}'d0, a}} << {i} : 0);")
    lines.append(f"  wire [{2 * n - 1}:0] value = r{n - 1};")
    return "\n".join(lines)


def columns_of_savers(n):
    """Carries are saved from row to row, and added once at the end."""
    width = 2 * n
    lines = [f"  wire [{width - 1}:0] s0 = b[0] ? {{{n}'d0, a}} : 0, c0 = 0;"]
    for i in range(1, n):
        lines.append(f"  wire [{width - 1}:0] m{i} = b[{i}] ? {{{n}'d0, a}} << {i} : 0;")
        lines.append(f"  wire [{width - 1}:0] s{i} = s{i - 1} ^ c{i - 1} ^ m{i};")
        lines.append(f"  wire [{width - 1}:0] c{i} = ((s{i - 1} & c{i - 1}) | (s{i - 1} & m{i}) | (c{i - 1} & m{i})) << 1;")
    lines.append(f"  wire [{width - 1}:0] value = s{n - 1} + c{n - 1};")
    return "\n".join(lines)


def multiplier(n, body):
    return MULTIPLIER.format(top=n - 1, most=2 * n - 1, body=body(n))


def fifo(words):
    bits = int(math.log2(words))
    return FIFO.format(words=words, last=words - 1, at=bits - 1, top=bits)


REWRITE = "strash; dc2; balance; rewrite; refactor"
RETIME = "strash; dc2; retime -M 4; strash; zero"

# name: the left circuit, and the right one, or the passes that make it of the left
PAIRS = {
    "fifo16": (fifo(16), None, REWRITE),
    "fifo16r": (fifo(16), None, RETIME),
    "fifo64": (fifo(64), None, REWRITE),
    "fifo64r": (fifo(64), None, RETIME),
    "core": (CORE, None, "strash; dc2; balance; rewrite; refactor; dc2"),
    "sha1": (SHA.format(**SHA_LEFT), SHA.format(**SHA_RIGHT), None),
    "crc32": (CRC_BITS, None, REWRITE),
    "crc32m": (CRC_BITS, crc_rows(), None),
    "mul8": (multiplier(8, rows_of_adders), multiplier(8, columns_of_savers), None),
    "mul16": (multiplier(16, rows_of_adders), None, REWRITE),
    "mul16c": (multiplier(16, columns_of_savers), None, REWRITE),
}

SYNTHESIS = ("read_verilog {0}.v; prep -top top; memory_map; opt; techmap; opt; dffunmap; abc -g AND; opt_clean; aigmap; "
             "setundef -init -zero; write_aiger -zinit {0}.aig")


def run(command, folder):
    subprocess.run(command, cwd=folder, check=True, stdout=subprocess.DEVNULL)


def circuit(name, text, folder):
    with open(f"{folder}/{name}.v", "w", encoding="utf-8") as file:
        file.write(text)
    run(["yosys", "-q", "-p", SYNTHESIS.format(name)], folder)


def main():
    folder = sys.argv[1]
    os.makedirs(folder, exist_ok=True)
    for name, (left, right, passes) in PAIRS.items():
        circuit(f"{name}_left", left, folder)
        if right:
            circuit(f"{name}_right", right, folder)
        else:
            run(["yosys-abc", "-q", f"read_aiger {name}_left.aig; {passes}; write_aiger {name}_right.aig"], folder)


if __name__ == "__main__":
    main()
