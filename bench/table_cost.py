#!/usr/bin/env python3
"""What a table of a test costs its proof, by how it is written.

    bench/table_cost.py [ROWS..]

writes a crate with one function over a table of so many rows of six fields (0 and 20 where none is named), as a local array of
tuples, as a local array of structs that a function makes, and as a constant; checks each from nothing with one job; and prints the
seconds of a processor. What 0 rows take is in each. Unproved."""
import os
import resource
import shutil
import subprocess
import sys
import tempfile

HEAD = """//! Rows.
#![tactic(auto)]

#[derive(Clone, Copy)]
pub struct Row {
    pub words: &'static str,
    pub left: &'static str,
    pub right: &'static str,
    pub status: u8,
    pub out: &'static str,
    pub err: &'static str,
}

pub fn case(words: &'static str, left: &'static str, right: &'static str, status: u8, out: &'static str, err: &'static str) -> Row {
    Row { words, left, right, status, out, err }
}

pub fn is_refused(row: &Row) -> bool {
    row.status == 7
}

"""

LOOP = """        if is_refused(&case(words, left, right, status, out, err)) {
            return true;
        }
    }
    false
}
"""


def row(i):
    return f'("check left right -k {i}", "left", "right", {i % 5}, "equivalent k={i}\\n", "")'


def text(form, count):
    rows = [row(i) for i in range(count)]
    fields = "(&str, &str, &str, u8, &str, &str)"
    if form == "structs of a function":
        rows = ", ".join(f"case{it}" for it in rows)
        return HEAD + f"pub fn one() -> bool {{\n    let rows: [Row; {count}] = [{rows}];\n    for row in rows.iter() {{\n        if is_refused(row) {{\n            return true;\n        }}\n    }}\n    false\n}}\n"
    rows = ", ".join(rows)
    table = f"let rows: [{fields}; {count}] = [{rows}]" if form == "local tuples" else f"const ROWS: &[{fields}] = &[{rows}]"
    over = "rows.iter()" if form == "local tuples" else "ROWS"
    return HEAD + f"pub fn one() -> bool {{\n    {table};\n    for &(words, left, right, status, out, err) in {over} {{\n" + LOOP


def seconds(form, count):
    with tempfile.TemporaryDirectory() as room:
        os.makedirs(f"{room}/crates/rows/src")
        subprocess.run(["git", "init", "-q", room], check=True)
        with open(f"{room}/crates.txt", "w") as file:
            file.write("rows:\n")
        with open(f"{room}/crates/rows/src/lib.rt", "w") as file:
            file.write(text(form, count))
        before = resource.getrusage(resource.RUSAGE_CHILDREN)
        ran = subprocess.run(["rt", "check", "--jobs", "1"], cwd=f"{room}/crates/rows", stdout=subprocess.PIPE, stderr=subprocess.STDOUT, text=True)
        after = resource.getrusage(resource.RUSAGE_CHILDREN)
    if not ran.stdout.rstrip().split("\n")[-1].startswith("logic=proved"):
        sys.exit(ran.stdout)
    return after.ru_utime + after.ru_stime - before.ru_utime - before.ru_stime


def main():
    if not shutil.which("rt"):
        sys.exit("table_cost.py: there is no rt")
    for count in [int(it) for it in sys.argv[1:]] or [0, 20]:
        for form in ("local tuples", "structs of a function", "a constant"):
            print(f"{count} rows, {form}: {seconds(form, count):.0f} s", flush=True)


if __name__ == "__main__":
    main()
