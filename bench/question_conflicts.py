"""Where the solver's conflicts are: how many each question takes.

    PAIR=FOLDER/NAME gdb -q -batch -x bench/question_conflicts.py PROGRAM

checks FOLDER/NAME_left.aig and _right.aig with a program that has its symbols (unproved_build.py makes one), with one worker, and
prints all conflicts, by the functions that asked, and the 30 greatest numbers of one question. Unproved."""
import collections
import os

import gdb

for it in ("pagination off", "confirm off", "breakpoint pending on"):
    gdb.execute(f"set {it}")
conflicts = gdb.Breakpoint("sat_core::solving::on_conflict")
conflicts.ignore_count = 1 << 30


class Question(gdb.Breakpoint):
    def __init__(self):
        super().__init__("sat_core::ready::Ready::solve_in")
        self.rows, self.before = [], 0

    def end(self):
        if self.rows:
            self.rows[-1][1] = conflicts.hit_count - self.before
        self.before = conflicts.hit_count

    def stop(self):
        self.end()
        names, frame = [], gdb.newest_frame().older()
        while frame is not None and len(names) < 14:
            names.append((frame.name() or "?").split("::")[-1])
            frame = frame.older()
        self.rows.append([" < ".join(it for it in names if not it.startswith("<#")), 0])
        return False


question = Question()
pair = os.environ["PAIR"]
gdb.execute(f"run check {pair}_left.aig {pair}_right.aig > /dev/null")
question.end()
by, times = collections.Counter(), collections.Counter()
for asked, number in question.rows:
    by[asked] += number
    times[asked] += 1
print(f"{conflicts.hit_count} conflicts, {len(question.rows)} questions")
for asked, number in by.most_common(12):
    print(f"{number:9} in {times[asked]:5}: {asked}")
print(*sorted((number for _, number in question.rows), reverse=True)[:30])
