#!/usr/bin/env python3
"""Times one command with 1, 2 and 4 workers: the least of so many runs each, on a machine that does nothing else.

    bench/workers.py RUNS PROGRAM WORDS..

as in `bench/workers.py 3 crates/sec/out/sec check LEFT RIGHT`. Prints the seconds that passed, and those of processor (of the
program and of the system). Unproved; no contract claims time.
"""
import os
import subprocess
import sys
import time


def timed(command):
    begun = time.time()
    child = subprocess.Popen(command, stdout=subprocess.DEVNULL)
    _, _, used = os.wait4(child.pid, 0)
    return time.time() - begun, used.ru_utime, used.ru_stime


def main():
    runs, command = int(sys.argv[1]), sys.argv[2:]
    for workers in (1, 2, 4):
        passed, user, system = min(timed(command + ["-j", str(workers)]) for _ in range(runs))
        print(f"-j {workers}: {passed:.2f} s passed, {user:.2f} s of the program, {system:.2f} s of the system")


main()
