#!/usr/bin/env python3
"""Times `check`, `check --cert` and `verify` on pairs, for the table of docs/GUIDE.md.

    bench/guide_times.py PROGRAM SECONDS LEFT RIGHT [LEFT RIGHT..]

prints a row for each pair: the gates of both sides, what `check` says, seconds of processor of `check`, `check --cert` and
`verify` (the least of three runs, or of one where it takes more than five; stopped after SECONDS of waiting), the
certificate's bytes. It isn't proved.
"""
import os
import resource
import subprocess
import sys
import tempfile


def gates(path):
    with open(path, "rb") as file:
        return int(file.readline().split()[5])


def timed(words, seconds):
    before = resource.getrusage(resource.RUSAGE_CHILDREN)
    try:
        done = subprocess.run(words, capture_output=True, text=True, timeout=seconds)
    except subprocess.TimeoutExpired:
        return None, None
    after = resource.getrusage(resource.RUSAGE_CHILDREN)
    return after.ru_utime + after.ru_stime - before.ru_utime - before.ru_stime, (done.stdout or done.stderr).split("\n")[0]


def least(words, seconds):
    """The least of three runs; a run of more than five seconds stands alone."""
    time, said = timed(words, seconds)
    if time is None or time > 5:
        return time, said
    return min([time] + [again for again, _ in (timed(words, seconds) for _ in range(2)) if again is not None]), said


def shown(time):
    return "-" if time is None else f"{time:.3f}"


program, seconds, *files = sys.argv[1:]
for left, right in zip(files[::2], files[1::2]):
    with tempfile.TemporaryDirectory() as folder:
        cert = folder + "/cert"
        plain, said = least([program, "check", left, right], float(seconds))
        whole, _ = least([program, "check", left, right, "--cert", cert], float(seconds)) if plain is not None else (None, None)
        size, verify = "-", None
        if os.path.exists(cert):
            size = f"{os.path.getsize(cert):,}"
            verify, _ = least([program, "verify", left, right, cert], float(seconds))
        name = os.path.basename(right).rsplit(".", 1)[0]
        times = " | ".join(map(shown, (plain, whole, verify)))
        print(f"| {name} | {gates(left):,} + {gates(right):,} | `{said}` | {times} | {size} |", flush=True)
