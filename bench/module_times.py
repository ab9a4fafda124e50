#!/usr/bin/env python3
"""What the proof of a crate spends its time on: module_times.py CRATE [N], where CRATE is the crate's folder, reads off the times of the files
that a check kept how many seconds passed before each module was done, adds them up by function, and prints the N dearest
(40, where N is left out), each with its dearest module. It fits a check from nothing, at one job, with nothing else on the machine:

    rm -rf crates/NAME/out/incremental
    cd crates/NAME && rt check --jobs 1
    bench/module_times.py crates/NAME

Of a function's modules `Lts` is its transition system, which grows with the values that it owns and its ways out, `Tie` and `Layout` are
what the borrow checker proves, and `Proof` is what is left."""
import collections
import os
import sys


def files_of(folder):
    found = []
    for at, _, names in os.walk(folder):
        for name in names:
            if name.endswith(".oantt"):
                found.append((os.lstat(f"{at}/{name}").st_mtime_ns, name))
    return sorted(found)


def split(name):
    """The function and the part of a module's file."""
    module = name.removesuffix(".oantt").removesuffix(".decls")
    module = module.partition("-")[2].partition("-")[2]
    module = module.partition(".")[2] or module
    function, _, part = module.rpartition(".")
    return function or module, part


def main():
    folder, most = sys.argv[1], int(sys.argv[2]) if len(sys.argv) > 2 else 40
    files = files_of(f"{folder}/out/incremental")
    if not files:
        sys.exit(f"module_times.py: nothing is kept in {folder}/out/incremental")
    of, parts = collections.Counter(), collections.defaultdict(collections.Counter)
    for (before, _), (now, name) in zip(files, files[1:]):
        function, part = split(name)
        of[function] += now - before
        parts[function][part] += now - before
    print(f"{(files[-1][0] - files[0][0]) / 1e9:.1f} s, {len(files)} modules")
    kinds = collections.Counter()
    for each in parts.values():
        kinds.update(each)
    print(", ".join(f"{part} {time / 1e9:.1f}" for part, time in kinds.most_common(8)))
    for function, time in of.most_common(most):
        part, own = parts[function].most_common(1)[0]
        print(f"{time / 1e9:8.1f} s {function} ({part} {own / 1e9:.1f})")


if __name__ == "__main__":
    main()
