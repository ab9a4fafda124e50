#!/bin/sh
# Makes the AIGER files of this folder from their Verilog: examples/make.sh FOLDER writes them into FOLDER. Needs `yosys` and
# ABC (`berkeley-abc` or `yosys-abc`).
set -e
[ $# -eq 1 ] || { sed -n '2,3p' "$0" >&2; exit 2; }
here=$(cd "$(dirname "$0")" && pwd)
mkdir -p "$1"
folder=$(cd "$1" && pwd)
abc=$(command -v berkeley-abc || command -v yosys-abc)
pair=$folder/pair

# two TOP LEFT RIGHT: LEFT.aig and RIGHT.aig of LEFT.v and RIGHT.v.
two() {
    (cd "$here" && ./verilog_pair.sh "$1" "$2.v" "$3.v" "$pair")
    mv "$pair/left.aig" "$folder/$2.aig"
    mv "$pair/right.aig" "$folder/$3.aig"
}

two fifo fifo fifo_rewritten
two fifo fifo fifo_bug
two multiplier multiplier multiplier_cells

two filter filter filter_tree

two arbiter arbiter arbiter_onehot
for name in arbiter arbiter_onehot; do
    "$here/after_reset.py" "$folder/$name.aig" "$folder/$name.reset" rst=1
    mv "$folder/$name.reset" "$folder/$name.aig"
done

two core core core
cd "$folder"
"$abc" -q "read_aiger core.aig; strash; dc2; balance; rewrite; refactor; dc2; write_aiger -s core_resynthesized.aig"
rm -r "$pair"
