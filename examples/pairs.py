#!/usr/bin/env python3
"""Checks a list of pairs in slices, on as many machines as there are, and joins what they found.

    examples/pairs.py slice LIST COUNT FOLDER        FOLDER/slice-0, slice-1, ..: the lines of LIST dealt out in turn
    examples/pairs.py check SLICE FOLDER [WORDS..]   checks each pair of a slice, with WORDS handed to `sec check`
    examples/pairs.py join LIST FOLDER               verifies the certificates, says how each pair of LIST ended, and sums up

A line of LIST is NAME LEFT RIGHT, with no spaces inside a word. `check` writes FOLDER/NAME.cert or FOLDER/NAME.trace, and
last FOLDER/NAME.result: the exit status and the first line that `sec` printed. A pair that has its result is not checked
again, so a job that was cut short can be run again. `join` believes no `equivalent`: it runs `sec verify`. It ends with 0
where all pairs are verified, 1 where some pair differs, else 3 where some pair has no answer, else 2 where some pair is
undecided. `sec` is the word of the environment variable SEC, or `sec` on the path.
"""
import os
import subprocess
import sys

SEC = os.environ.get("SEC", "sec")


def rows(path):
    with open(path, encoding="utf-8") as file:
        return [line.split() for line in file if line.strip()]


def slices(path, count, folder):
    os.makedirs(folder, exist_ok=True)
    pairs = rows(path)
    for number in range(int(count)):
        with open(f"{folder}/slice-{number}", "w", encoding="utf-8") as file:
            file.writelines(" ".join(pair) + "\n" for pair in pairs[number::int(count)])


def check(path, folder, *words):
    os.makedirs(folder, exist_ok=True)
    for name, left, right in rows(path):
        result = f"{folder}/{name}.result"
        if os.path.exists(result):
            continue
        stored = ["--cert", f"{folder}/{name}.cert", "--trace", f"{folder}/{name}.trace"]
        done = subprocess.run([SEC, "check", left, right, *stored, *words], capture_output=True, text=True)
        said = (done.stdout or done.stderr or "no text").splitlines()[0]
        with open(result + ".new", "w", encoding="utf-8") as file:
            file.write(f"{done.returncode} {said}\n")
        os.rename(result + ".new", result)


def ending(name, left, right, folder):
    """The status that counts for a pair, and what is said of it."""
    try:
        with open(f"{folder}/{name}.result", encoding="utf-8") as file:
            status, said = file.read().strip().split(" ", 1)
    except OSError:
        return 3, "no result"
    if status != "0":
        return (int(status) if status in ("1", "2") else 3), said
    done = subprocess.run([SEC, "verify", left, right, f"{folder}/{name}.cert"], capture_output=True, text=True)
    return (0, "verified") if done.returncode == 0 else (3, done.stderr.strip() or "not verified")


def join(path, folder):
    counts = {0: 0, 1: 0, 2: 0, 3: 0}
    for name, left, right in rows(path):
        status, said = ending(name, left, right, folder)
        counts[status] += 1
        if status:
            print(f"{name}: {said}")
    print(f"verified {counts[0]}, different {counts[1]}, undecided {counts[2]}, no answer {counts[3]}")
    return next((status for status in (1, 3, 2) if counts[status]), 0)


COMMANDS = {"slice": (slices, 3, 3), "check": (check, 2, 99), "join": (join, 2, 2)}

command, least, most = COMMANDS.get(sys.argv[1] if len(sys.argv) > 1 else "", (None, 0, 0))
if not command or not least <= len(sys.argv) - 2 <= most:
    sys.exit(__doc__)
sys.exit(command(*sys.argv[2:]))
