#!/usr/bin/env python3
"""Times certificates: for pairs of demo_pair.py or parity_pair.py, what it takes to check them, to check and certify them, and
to verify the certificate, and how long that is.

    bench/certificates.py demo|parity PROGRAM RUNS N..

Prints a row for each N: seconds of processor, the least of RUNS runs, with one thread and k = 1. Unproved; no contract claims
time.
"""
import os
import resource
import subprocess
import sys
import tempfile

sys.dont_write_bytecode = True

import demo_pair
import parity_pair

TEXTS = {
    "demo": lambda n: [demo_pair.text_of(side) for side in demo_pair.pair_of(n)],
    "parity": parity_pair.texts_of,
}


def seconds(command):
    before = resource.getrusage(resource.RUSAGE_CHILDREN)
    subprocess.run(command, check=True, stdout=subprocess.DEVNULL)
    after = resource.getrusage(resource.RUSAGE_CHILDREN)
    return after.ru_utime - before.ru_utime + after.ru_stime - before.ru_stime


def least(command, runs):
    return min(seconds(command) for _ in range(runs))


def row(texts, program, runs, n, folder):
    pair = [os.path.join(folder, name) for name in ("left.aag", "right.aag")]
    for path, text in zip(pair, texts(n)):
        with open(path, "w") as file:
            file.write(text)
    cert = os.path.join(folder, "cert")
    check = least([program, "check", *pair, "-j", "1"], runs)
    both = least([program, "check", *pair, "-j", "1", "--cert", cert], runs)
    verify = least([program, "verify", *pair, cert], runs)
    with open(cert, "rb") as file:
        text = file.read()
    return f"| {n} | {check:.3f} | {both:.3f} | {verify:.3f} | {len(text):,} | {text.count(10):,} |"


def main():
    texts, program, runs = TEXTS[sys.argv[1]], os.path.abspath(sys.argv[2]), int(sys.argv[3])
    print("| N | `check` | `check --cert` | `verify` | bytes | lines |")
    print("|---|---|---|---|---|---|")
    with tempfile.TemporaryDirectory() as folder:
        for n in map(int, sys.argv[4:]):
            print(row(texts, program, runs, n, folder), flush=True)


if __name__ == "__main__":
    main()
