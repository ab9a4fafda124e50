#!/bin/sh
# Runs every command of docs/GUIDE.md and compares what it prints with what the page shows; and checks the pairs of
# examples/README.md, from the files that stand there and from files made anew, against the lines of its table.
#
#   bench/guide.sh PROGRAM
#
# PROGRAM is the built program, crates/sec/out/sec. Needs yosys, ABC as `berkeley-abc`, and GNU parallel. It works in a folder
# of its own, and ends with 1 where some output isn't as shown. It isn't proved.
[ $# -eq 1 ] || { sed -n '2,8p' "$0" >&2; exit 2; }
top=$(cd "$(dirname "$0")/.." && pwd)
program=$(cd "$(dirname "$1")" && pwd)/$(basename "$1")
for tool in yosys berkeley-abc parallel python3 "$program"; do
    command -v "$tool" >/dev/null || { echo "guide.sh: no $tool" >&2; exit 2; }
done
folder=$(mktemp -d) || exit 2
trap 'rm -rf "$folder"' EXIT

cp "$top/examples/"* "$folder"
mkdir "$folder/tools" "$folder/blocks"
ln -s "$program" "$folder/tools/sec"
for number in $(seq 200); do
    "$top/bench/demo_pair.py" $((number % 12 + 1)) "$folder/blocks/l$number.aag" "$folder/blocks/r$number.aag"
    echo "pair$number blocks/l$number.aag blocks/r$number.aag"
done >"$folder/list.txt"

cd "$folder" || exit 2
PATH=$folder/tools:$folder:$PATH
export PATH PYTHONDONTWRITEBYTECODE=1
failed=0
python3 "$top/bench/page.py" "$top/docs/GUIDE.md" || failed=1

# A row is `LEFT`, `RIGHT`, what was done, `TEXT`.
mkdir made
cp "$top/examples/"*.a?g made
make.sh made >/dev/null || failed=1
sed -n 's/^| `\([^`]*\)` | `\([^`]*\)` | .* | `\([^`]*\)`.*/\1 \2 \3/p' "$top/examples/README.md" >rows
while read -r left right text; do
    case $text in different*) depth=6 ;; *) depth=1 ;; esac
    for place in "$top/examples" made; do
        said=$(sec check "$place/$left" "$place/$right" -k "$depth" | head -n 1)
        [ "$said" = "$text" ] || { echo "$place/$left $right: $said, and the table says $text"; failed=1; }
    done
done <rows
echo "$(wc -l <rows) pairs of the table"
said=$(sec replay "$top/examples/fifo.aig" "$top/examples/fifo_bug.aig" "$top/examples/fifo_bug.trace")
[ "$said" = "differs frame=5 output=5" ] || { echo "fifo_bug.trace: $said"; failed=1; }
exit "$failed"
