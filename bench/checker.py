#!/usr/bin/env python3
"""Counts what the checker of derivations goes through in a certificate, and how long that takes: `perf record` on `verify` tells the
share of `first_bad`.

    bench/checker.py PROGRAM LEFT RIGHT CERT

A hint past the clauses of the formula names a line of the log, whose literals are counted; any other names a clause of the
frames, which has two literals at least. Unproved; no contract claims time.
"""
import re
import resource
import subprocess
import sys
import tempfile


def logs_of(lines):
    """The logs of the base questions, and those of the step questions."""
    logs = {"base": [], "step": []}
    for line in lines:
        word = line.split(" ", 1)[0]
        if word in logs:
            log = []
            logs[word].append(log)
        elif line != "end" and logs["base"]:
            numbers = [int(word) for word in line.split()]
            end = numbers.index(0)
            log.append((numbers[:end], numbers[end + 1 : -1]))
    return logs.values()


def main():
    program, left, right, cert = sys.argv[1:]
    lines = hints = literals = 0
    with open(cert) as file:
        for logs in logs_of(file.read().splitlines()):
            # all questions of a kind have as many clauses, and the last line but one of a trimmed log is hinted
            given = max(max(h for _, names in log for h in names) - (len(log) - 1) for log in logs)
            for log in logs:
                for clause, names in log:
                    lines += 1
                    hints += len(names)
                    literals += len(clause) + sum(len(log[h - given - 1][0]) if h > given else 2 for h in names)
    command = [program, "verify", left, right, cert]
    least = None
    for _ in range(5):
        before = resource.getrusage(resource.RUSAGE_CHILDREN).ru_utime
        subprocess.run(command, check=True, stdout=subprocess.DEVNULL)
        took = resource.getrusage(resource.RUSAGE_CHILDREN).ru_utime - before
        least = took if least is None else min(least, took)
    with tempfile.NamedTemporaryFile() as data:
        subprocess.run(["perf", "record", "-q", "-o", data.name] + command, check=True, stdout=subprocess.DEVNULL, stderr=subprocess.DEVNULL)
        report = subprocess.run(["perf", "report", "-i", data.name, "--stdio"], capture_output=True, text=True).stdout
    share = sum(float(found) for found in re.findall(r"([0-9.]+)%.*first_bad", report)) / 100
    seconds = least * share
    print(f"{lines} lines, {hints} hints, more than {literals} literals; verify {least:.3f} s, of which the checker {seconds:.3f} s:"
          f" {literals / seconds / 1e6:.0f} million literals a second")


main()
