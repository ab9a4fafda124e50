#!/bin/sh
# Makes a pair of AIGER files of two Verilog files that describe the same module, and compares the names of their ports.
#
#   examples/verilog_pair.sh TOP LEFT.v RIGHT.v FOLDER
#
# writes FOLDER/left.aig and FOLDER/right.aig. Several files of one side are one word: "a.v b.v". One run of yosys reads both
# sides: it numbers the ports in the order in which it first meets their names, so two runs may number them differently. Needs
# `yosys`.
#
#   STARTS=-init         registers with no initial value begin at 0; else at any value
#   CLOCKS=clk2fflogic   for several clocks, each an input; else all registers step together
[ $# -eq 4 ] || { sed -n '2,11p' "$0" >&2; exit 2; }
top=$1 left=$2 right=$3 folder=$4
mkdir -p "$folder" || exit 2

passes="prep -top $top -flatten; ${CLOCKS:-async2sync}; memory_map; opt; techmap; opt; dffunmap; simplemap; setundef -zero $STARTS;
        aigmap; opt_clean"
yosys -q -p "read_verilog $left; $passes; write_aiger -symbols -map $folder/left.map $folder/left.aig; design -stash left;
             read_verilog $right; $passes; write_aiger -symbols -map $folder/right.map $folder/right.aig" || exit 1

for side in left right; do
    grep -E '^(input|output) ' "$folder/$side.map" >"$folder/$side.ports"
done
diff "$folder/left.ports" "$folder/right.ports" || { echo "the ports differ, or stand in another order" >&2; exit 1; }
