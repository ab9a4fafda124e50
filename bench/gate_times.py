#!/usr/bin/env python3
"""Processor seconds that the gate takes, crate by crate: gate_times.py LOG watches each run of the prover on this machine
until it is interrupted, or for SECONDS where they are given, and appends one line to LOG as each ends: seconds of
processor, seconds that passed, kind, crate, number of the process.

    bench/gate_times.py LOG [SECONDS] &
    rt ci
    bench/gate_times.py --table LOG
    bench/gate_times.py --edits LOG

The kinds: "proof" of a crate from nothing, "tests" with its tests, "seed" for the second proof with which a crate's
must-fail edits begin and for the look with which they end, "edit" for each of them (CRATE/NUMBER, in the order of their
names; in kits that keep nothing between runs: in the order of their tries), "build" of a program or of its tests by a compiler, "other" for checks by hand. The table adds them up; with
--edits the dearest edits are named, at the top of the repository. A process that lives for less than the half second
between two looks is missed."""
import glob
import os
import re
import sys
import time

TICK = os.sysconf("SC_CLK_TCK")
KINDS = ("proof", "tests", "seed", "edit", "build", "other")


def words_of(pid):
    with open(f"/proc/{pid}/cmdline", "rb") as it:
        return it.read().decode(errors="replace").split("\0")


def seconds_of(pid):
    with open(f"/proc/{pid}/stat", "rb") as it:
        fields = it.read().decode(errors="replace").rpartition(")")[2].split()
    return (int(fields[11]) + int(fields[12])) / TICK


def name_and_kind(words, folder):
    name = words[words.index("--crate-name") + 1]
    if "rt-edit" not in folder:
        return name, kind_of(words, folder)
    over = words[words.index("--incremental") + 1] if "--incremental" in words else ""
    if over.endswith("/seed"):
        return name, "seed"
    if "rt-edits" in over and not os.path.basename(over).isdigit():
        return name_of_try(name, TRIES.setdefault(over, []), folder)
    return (f"{name}/{os.path.basename(over)}" if over else name), "edit"


# By the folder in which what a check keeps is shared: the folders of the tries that begin with it.
TRIES = {}


def name_of_try(name, tries, folder):
    """A try of a kit that has one such folder for all: the first is the second proof."""
    if folder not in tries:
        tries.append(folder)
    number = tries.index(folder)
    return (f"{name}/{number - 1}", "edit") if number else (name, "seed")


def kind_of(words, folder):
    if "rt-copy" not in folder and "--incremental" in words:
        return "other"
    if "--test" in words:
        return "tests"
    return "build" if "--backend" in words else "proof"


def look(seen, ended):
    now, there = time.time(), set()
    for pid in filter(str.isdigit, os.listdir("/proc")):
        try:
            words = words_of(pid)
            if os.path.basename(words[0]) != "rattle" or "--crate-name" not in words:
                continue
            if pid not in seen:
                name, kind = name_and_kind(words, os.readlink(f"/proc/{pid}/cwd"))
                seen[pid] = [0.0, now, kind, name]
            seen[pid][0] = seconds_of(pid)
            there.add(pid)
        except (OSError, ValueError, IndexError):
            continue
    for pid in [it for it in seen if it not in there]:
        seconds, begun, kind, name = seen.pop(pid)
        print(f"{seconds:.1f} {now - begun:.1f} {kind} {name} {pid}", file=ended, flush=True)


def watch(log, most):
    seen, begun = {}, time.time()
    with open(log, "a", encoding="utf-8") as ended:
        try:
            while time.time() - begun < most:
                look(seen, ended)
                time.sleep(0.5)
        except KeyboardInterrupt:
            pass


def lines_of(log):
    with open(log, encoding="utf-8") as lines:
        for line in lines:
            seconds, _, kind, name, _ = re.split(r"\s+", line.strip())
            yield float(seconds), kind, name


def table(log):
    found = {}
    for seconds, kind, name in lines_of(log):
        row = found.setdefault(name.partition("/")[0], dict.fromkeys(KINDS, 0.0) | {"edits": 0})
        row[kind] += seconds
        row["edits"] += kind == "edit"
    found = dict(sorted(found.items(), key=lambda it: -whole(it[1])))
    found["all"] = {it: sum(row[it] for row in found.values()) for it in (*KINDS, "edits")}
    print("| crate | proof | with tests | second proof | edits | how many | builds | all |\n|---|---|---|---|---|---|---|---|")
    for name, row in found.items():
        print(f"| `{name}` | {row['proof']:.0f} | {row['tests']:.0f} | {row['seed']:.0f} | {row['edit']:.0f} | {row['edits']:.0f} | "
              f"{row['build']:.0f} | {whole(row):.0f} |")


def whole(row):
    return sum(row[it] for it in KINDS if it != "other")


def edits(log):
    tried = [(seconds, *name.split("/")) for seconds, kind, name in lines_of(log) if kind == "edit" and "/" in name]
    for seconds, crate, number in sorted(tried, reverse=True)[:40]:
        files = sorted(glob.glob(f"crates/{crate}/must-fail/*.edit"))
        print(f"{seconds:6.1f} {crate} {os.path.basename(files[int(number)]) if int(number) < len(files) else number}")


if __name__ == "__main__":
    if sys.argv[1:2] == ["--table"]:
        table(sys.argv[2])
    elif sys.argv[1:2] == ["--edits"]:
        edits(sys.argv[2])
    else:
        watch(sys.argv[1], float(sys.argv[2]) if len(sys.argv) > 2 else float("inf"))
