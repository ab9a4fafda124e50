#!/usr/bin/env python3
"""Makes pairs of netlists by yosys and ABC: a FIFO of bytes with its counters, against what ABC's rewriting makes of it, and
against what its rewriting and retiming make of it.

    bench/tool_pairs.py WORDS FOLDER

writes FOLDER/fifo.aig, FOLDER/rewritten.aig and FOLDER/retimed.aig, for a FIFO of so many bytes (a power of two). Needs `yosys`
and `yosys-abc`. Unproved.
"""
import math
import os
import subprocess
import sys

FIFO = """
module fifo(input clk, input push, input pop, input [7:0] in, output [7:0] out, output empty, output full, output [{top}:0] level);
  reg [7:0] cells [0:{last}];
  reg [{at}:0] head = 0, tail = 0;
  reg [{top}:0] count = 0;
  assign empty = count == 0;
  assign full = count == {words};
  assign level = count;
  assign out = cells[head];
  wire pushes = push & ~full;
  wire pops = pop & ~empty;
  integer i;
  initial for (i = 0; i < {words}; i = i + 1) cells[i] = 0;
  always @(posedge clk) begin
    if (pushes) begin
      cells[tail] <= in;
      tail <= tail + 1;
    end
    if (pops) head <= head + 1;
    count <= count + pushes - pops;
  end
endmodule
"""

PASSES = {
    "rewritten": "strash; dc2; balance; rewrite; refactor",
    "retimed": "strash; dc2; retime -M 4; strash; zero",
}


def run(command, folder):
    subprocess.run(command, cwd=folder, check=True, stdout=subprocess.DEVNULL)


def main():
    words, folder = int(sys.argv[1]), sys.argv[2]
    os.makedirs(folder, exist_ok=True)
    bits = int(math.log2(words))
    with open(os.path.join(folder, "fifo.v"), "w") as file:
        file.write(FIFO.format(words=words, last=words - 1, at=bits - 1, top=bits))
    run(["yosys", "-q", "-p", "read_verilog fifo.v; prep -top fifo; memory_map; opt; techmap; opt; dffunmap; abc -g AND; opt_clean;"
         " aigmap; setundef -init -zero; write_aiger -zinit fifo.aig"], folder)
    for name, passes in PASSES.items():
        run(["yosys-abc", "-q", f"read_aiger fifo.aig; {passes}; write_aiger {name}.aig"], folder)


main()
