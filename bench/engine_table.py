#!/usr/bin/env python3
"""engine_table.py PROGRAM FOLDER [SECONDS]: times `check` on the pairs of engine_pairs.py and on pairs of demo_pair.py, for k = 1 and 2
and 1, 2 and 4 workers, with ABC's scorr beside it, and prints a table in markdown. A run is ended after SECONDS (60)."""
import os
import signal
import subprocess
import sys
import time

PAIRS = ["fifo16", "fifo64", "fifo64r", "core", "crc32", "mul16", "mul16c", "sha1", "mul8"]
DEMOS = [1000, 5000]


def timed(words, seconds):
    """Returns the seconds that passed, the peak memory in megabytes, and what was printed; None where it didn't end."""
    began = time.monotonic()
    run = subprocess.Popen(words, stdout=subprocess.PIPE, stderr=subprocess.DEVNULL, text=True)
    try:
        said, _ = run.communicate(timeout=seconds)
    except subprocess.TimeoutExpired:
        run.kill()
        run.communicate()
        return None
    return time.monotonic() - began, said


def peak(words, seconds):
    """The same with the peak memory: /usr/bin/time tells it."""
    began = time.monotonic()
    run = subprocess.Popen(["/usr/bin/time", "-f", "%M", *words], stdout=subprocess.PIPE, stderr=subprocess.PIPE, text=True, start_new_session=True)
    try:
        said, told = run.communicate(timeout=seconds)
    except subprocess.TimeoutExpired:
        os.killpg(run.pid, signal.SIGKILL)
        run.communicate()
        return None
    return time.monotonic() - began, int(told.split()[-1]) / 1000, said


def scorr(left, right, k, seconds):
    """The seconds of scorr, or none."""
    if not left.endswith(".aig"):
        return "-"
    found = timed(["berkeley-abc", "-q", f"miter {left} {right}; strash; scorr -C 1000000000 -F {k}; print_stats"], seconds)
    return "-" if found is None else f"{found[0]:.2f}"


def stats(said):
    """Offers, splits and already, of the line of --stats."""
    for line in said.splitlines():
        if line.startswith("stats "):
            counts = dict(it.split("=") for it in line.split()[1:])
            return f"{counts['offers']}; {counts['splits']}, {counts['already']}"
    return "-"


def main():
    program, folder = sys.argv[1:3]
    seconds = float(sys.argv[3]) if len(sys.argv) > 3 else 60.0
    rows = [(it, f"{folder}/{it}_left.aig", f"{folder}/{it}_right.aig") for it in PAIRS]
    here = os.path.dirname(os.path.abspath(__file__))
    for size in DEMOS:
        names = f"{folder}/demo{size}_left.aag", f"{folder}/demo{size}_right.aag"
        subprocess.run([sys.executable, f"{here}/demo_pair.py", str(size), *names], check=True)
        rows.append((f"`demo_pair.py {size}`", *names))
    print("| pair | k | verdict | `scorr` | `-j 1` | `-j 2` | `-j 4` | offers; splits, already |")
    print("|---|---|---|---|---|---|---|---|")
    for name, left, right in rows:
        for k in (1, 2):
            cells, verdict, counts = [], "-", "-"
            for workers in (1, 2, 4):
                found = peak([program, "check", left, right, "-k", str(k), "-j", str(workers), "--stats"], seconds)
                if found is None:
                    cells.append(f"over {seconds:.0f}")
                    continue
                cells.append(f"{found[0]:.2f}; {found[1]:.0f} MB")
                if workers == 1:
                    verdict, counts = found[2].split()[0], stats(found[2])
            print(f"| {name} | {k} | {verdict} | {scorr(left, right, k, seconds)} | {' | '.join(cells)} | {counts} |", flush=True)


main()
