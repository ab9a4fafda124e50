#!/usr/bin/env python3
"""Refuses the built program its memory: each allocation in turn, alone and with all later ones.

    bench/refused_memory.py PROGRAM [--step S] [--seconds T] [--runs-at-once R] [--only WORD]

Each of a few commands is run once with ample memory, and then with allocation 1, 2, 3, .. refused (each S-th, 1 where --step is
left out) until past the last. In a third mode the call that is to be refused is held until another thread waits, at the lock or for
work. A run must end within T seconds (10) as the one with ample memory did, or with status 7, `sec: out of memory` on standard
error, nothing on standard output and no file stored. Prints a row for each command and mode: runs, those that answered, those that
told want of memory, and others, of which the first few are shown. Ends with status 1 where there are others.
"""
import argparse
import concurrent.futures
import dataclasses
import os
import subprocess
import sys
import tempfile

# An allocator before the C library's own, which counts calls and refuses some, and a way out that tells their number.
PRELOAD = r"""
#define _GNU_SOURCE
#include <errno.h>
#include <fcntl.h>
#include <stdarg.h>
#include <stddef.h>
#include <stdio.h>
#include <stdlib.h>
#include <sys/syscall.h>
#include <unistd.h>

extern void *__libc_malloc(size_t);
extern void *__libc_calloc(size_t, size_t);
extern void *__libc_realloc(void *, size_t);
extern void *__libc_memalign(size_t, size_t);

static long calls, refused_call, all_later, while_waiting, waiting, is_ready;

static void prepare(void) {
    const char *call = getenv("REFUSED_CALL");
    refused_call = call ? atol(call) : 0;
    all_later = getenv("REFUSED_ALL_LATER") != NULL;
    while_waiting = getenv("REFUSED_WHILE_WAITING") != NULL;
    __atomic_store_n(&is_ready, 1, __ATOMIC_SEQ_CST);
}

// How long a call that is to be refused is held for another thread to wait at a lock or a bell: a fifth of a second at most.
static void hold(void) {
    for (int i = 0; i < 200 && __atomic_load_n(&waiting, __ATOMIC_SEQ_CST) == 0; i++)
        usleep(1000);
    usleep(2000);
}

static int refused(void) {
    if (!__atomic_load_n(&is_ready, __ATOMIC_SEQ_CST))
        prepare();
    long call = __atomic_add_fetch(&calls, 1, __ATOMIC_SEQ_CST);
    if (refused_call == 0 || call < refused_call || (call > refused_call && !all_later))
        return 0;
    if (while_waiting)
        hold();
    errno = ENOMEM;
    return 1;
}

// The program's system calls, among which are those by which a thread waits.
long syscall(long number, ...) {
    va_list words;
    va_start(words, number);
    long a = va_arg(words, long), b = va_arg(words, long), c = va_arg(words, long);
    long d = va_arg(words, long), e = va_arg(words, long), f = va_arg(words, long);
    va_end(words);
    int waits = number == SYS_futex && ((b & 127) == 0 || (b & 127) == 9);
    if (waits)
        __atomic_add_fetch(&waiting, 1, __ATOMIC_SEQ_CST);
    register long r10 __asm__("r10") = d;
    register long r8 __asm__("r8") = e;
    register long r9 __asm__("r9") = f;
    long result;
    __asm__ volatile("syscall" : "=a"(result) : "a"(number), "D"(a), "S"(b), "d"(c), "r"(r10), "r"(r8), "r"(r9) : "rcx", "r11", "memory");
    if (waits)
        __atomic_sub_fetch(&waiting, 1, __ATOMIC_SEQ_CST);
    if (result < 0 && result > -4096) {
        errno = -result;
        return -1;
    }
    return result;
}

void *malloc(size_t size) { return refused() ? NULL : __libc_malloc(size); }
void *calloc(size_t count, size_t size) { return refused() ? NULL : __libc_calloc(count, size); }
void *realloc(void *old, size_t size) { return refused() ? NULL : __libc_realloc(old, size); }
void *aligned_alloc(size_t align, size_t size) { return refused() ? NULL : __libc_memalign(align, size); }
void *memalign(size_t align, size_t size) { return refused() ? NULL : __libc_memalign(align, size); }

int posix_memalign(void **out, size_t align, size_t size) {
    void *made = refused() ? NULL : __libc_memalign(align, size);
    if (made == NULL)
        return ENOMEM;
    *out = made;
    return 0;
}

void _exit(int status) {
    const char *name = getenv("REFUSED_COUNT");
    if (name != NULL) {
        char text[32];
        int length = snprintf(text, sizeof text, "%ld\n", calls), file = creat(name, 0600);
        if (file < 0 || write(file, text, length) < 0)
            status = 99;
    }
    syscall(SYS_exit_group, status);
    __builtin_unreachable();
}
"""

DELAY = "aag 2 1 1 1 0\n2\n4 2\n4\n"
MASKED = "aag 10 1 3 1 6\n2\n4 2\n6 21\n8 1\n6\n10 4 9\n12 5 8\n14 11 13\n16 2 14\n18 3 15\n20 17 19\n"
TOGGLE = "aag 1 0 1 1 0\n2 3\n2\n"
LOW = "aag 0 0 0 1 0\n0\n"
FILES = {
    "delay": DELAY,
    "masked": MASKED,
    "toggle": TOGGLE,
    "low": LOW,
    "list": "delay masked\ntoggle low\ntoggle list\n",
    "trace": "1\nb0\n0\n\n\n.\n",
    "cert": "seccert 2 k=1 signals=3 tie=0\nclass l1 r1\nbase r1\n0 6 2 3 4 0\nstep r1\n-2 0 3 8 5 11 9 0\n0 12 4 7 6 11 10 0\nend\n",
}
COMMANDS = [
    "check delay masked -j 2",
    "check delay masked -j 4",
    "check delay masked -k 3 -j 2 --trace made",
    "check toggle toggle --cert made",
    "check delay delay --classes --stats --cert made",
    "verify toggle toggle cert",
    "replay toggle low trace",
    "climb toggle low -j 2",
    "reduce masked made -j 2",
    "batch list -j 2",
    "demo 20 -j 3",
]
MODES = ["alone", "and all later", "while another waits"]


@dataclasses.dataclass(frozen=True)
class Ending:
    """How a run ended; status None where it didn't in time."""

    status: int | None
    out: bytes
    err: bytes
    made: bytes | None


MEMORY = Ending(7, b"", b"sec: out of memory\n", None)


class Runs:
    """A program under the allocator, in folders of their own."""

    def __init__(self, program, folder, seconds):
        self.program, self.folder, self.seconds = program, folder, seconds
        self.library = os.path.join(folder, "refused.so")
        source = os.path.join(folder, "refused.c")
        with open(source, "w") as file:
            file.write(PRELOAD)
        subprocess.run(["cc", "-O1", "-shared", "-fPIC", "-fno-builtin", source, "-o", self.library], check=True)

    def ending(self, words, call, mode, count=None):
        """One run of these words, in which this call of the allocator is refused."""
        with tempfile.TemporaryDirectory(dir=self.folder) as place:
            for name, text in FILES.items():
                with open(os.path.join(place, name), "w") as file:
                    file.write(text)
            settings = {"LD_PRELOAD": self.library, "REFUSED_CALL": str(call)}
            if mode == "and all later":
                settings["REFUSED_ALL_LATER"] = "1"
            if mode == "while another waits":
                settings["REFUSED_WHILE_WAITING"] = "1"
            if count is not None:
                settings["REFUSED_COUNT"] = count
            try:
                got = subprocess.run(
                    [self.program, *words.split()], cwd=place, env=settings, stdin=subprocess.DEVNULL, capture_output=True, timeout=self.seconds
                )
            except subprocess.TimeoutExpired as late:
                return Ending(None, late.stdout or b"", late.stderr or b"", self.made(place))
            return Ending(got.returncode, got.stdout, got.stderr, self.made(place))

    @staticmethod
    def made(place):
        """What the run stored, under the one name that the commands give."""
        others = set(os.listdir(place)) - FILES.keys()
        if not others:
            return None
        if others != {"made"}:
            raise SystemExit(f"stored: {others}")
        with open(os.path.join(place, "made"), "rb") as file:
            return file.read()

    def calls(self, words):
        """The ending with ample memory, and how often the allocator was called."""
        count = os.path.join(self.folder, "count")
        ending = self.ending(words, 0, "alone", count)
        with open(count) as file:
            return ending, int(file.read())


def row(runs, pool, words, mode, step, shown):
    """Refuses each call in turn, and counts the endings."""
    ample, calls = runs.calls(words)
    tally = {"answered": 0, "memory": 0, "other": 0}
    # Threads don't call the same each time: so a few calls past the last are refused too.
    numbers = range(1, calls + calls // 20 + 10, step)
    for number, ending in zip(numbers, pool.map(lambda number: runs.ending(words, number, mode), numbers)):
        kind = "answered" if ending == ample else "memory" if ending == MEMORY else "other"
        tally[kind] += 1
        if kind == "other" and len(shown) < 12:
            shown.append(f"{words}, call {number} refused {mode}: {ending}")
    print(f"| `{words}` | {mode} | {sum(tally.values()):,} | {tally['answered']:,} | {tally['memory']:,} | {tally['other']:,} |", flush=True)
    return tally["other"]


def main():
    parser = argparse.ArgumentParser()
    parser.add_argument("program")
    parser.add_argument("--step", type=int, default=1)
    parser.add_argument("--seconds", type=float, default=10)
    parser.add_argument("--runs-at-once", type=int, default=2)
    parser.add_argument("--only", default="")
    given = parser.parse_args()
    shown = []
    print("| command | refused | runs | answered | memory | other |")
    print("|---|---|---|---|---|---|")
    with tempfile.TemporaryDirectory() as folder, concurrent.futures.ThreadPoolExecutor(given.runs_at_once) as pool:
        runs = Runs(os.path.abspath(given.program), folder, given.seconds)
        chosen = [words for words in COMMANDS if given.only in words]
        others = sum(row(runs, pool, words, mode, given.step, shown) for words in chosen for mode in MODES)
    print("\n".join(shown), file=sys.stderr)
    return 1 if others else 0


if __name__ == "__main__":
    sys.exit(main())
