#!/usr/bin/env python3
"""Has the built program go on from cuts of a small transcript, and from texts that are none.

    tests/cuts.py [--changes N] [--seed N] [--program PROGRAM]

The transcript is that of `examples/north`: a head of five lines, the last of which is `begin`, and twenty entries. It is cut behind each
of its bytes. Where the head is whole, `resume` has to make of the cut the whole transcript, the stored report and the stored summary;
else it has to say status 7, and the line of the head that is missing. Then single bytes are changed at random, N times (100). Each
has to be refused with status 7, but where the last newline is no more: a rest without one is dropped. At last the cut is of another
plan, of other readings, other keys or other lanes, or of version 1. No refused cut may leave a file.

The exit status is 0 where all is so, and else 1, with a line for each cut that ended otherwise.
"""
import argparse
import os
import random
import subprocess
import sys
import tempfile

from fuzz import EXAMPLES, PROGRAM

HEAD_LINES = 5


def content(name):
    with open(name, "rb") as file:
        return file.read()


def put(name, data):
    with open(name, "wb") as file:
        file.write(data)


def ended(program, *words):
    ran = subprocess.run([program, *words], stdout=subprocess.PIPE, stderr=subprocess.PIPE)
    return ran.returncode, ran.stdout, ran.stderr.decode(errors="replace")


class Cuts:
    """The small files, and what was wrong with the cuts so far."""

    def __init__(self, program):
        self.program, self.wrong = program, 0
        north = os.path.join(EXAMPLES, "north")
        self.plan, self.readings, self.report, self.summary = (
            content(os.path.join(north, name)) for name in ("plan.csv", "readings.csv", "report.csv", "summary.txt")
        )
        put("plan", self.plan)
        put("readings", self.readings)
        ended(program, "run", "plan", "readings", "report", "transcript", "1")
        self.transcript = content("transcript")

    def try_cut(self, row, cut, status, complaint=None, plan=None, readings=None):
        """Goes on from a cut, and looks whether it ends as it has to."""
        for name in ("report", "transcript"):
            if os.path.exists(name):
                os.remove(name)
        put("plan", self.plan if plan is None else plan)
        put("readings", self.readings if readings is None else readings)
        put("cut", cut)
        came, said, complained = ended(self.program, "resume", "plan", "readings", "cut", "report", "transcript", "1")
        if status == 0:
            good = came == 0 and said == self.summary and os.path.exists("report") and os.path.exists("transcript")
            good = good and content("report") == self.report and content("transcript") == self.transcript
        else:
            good = came == status and not said and complaint in (None, complained)
            good = good and not os.path.exists("report") and not os.path.exists("transcript")
        if not good:
            self.wrong += 1
            print(f"{row}: status {came}, {said!r}, {complained!r}")

    def cut_everywhere(self):
        for size in range(len(self.transcript) + 1):
            cut = self.transcript[:size]
            lines = cut.count(b"\n")
            if lines < HEAD_LINES:
                self.try_cut(f"{size} bytes", cut, 7, f"meteragg: cut line {lines + 1}: Head\n")
            else:
                self.try_cut(f"{size} bytes", cut, 0)

    def change_bytes(self, changes, dice):
        for _ in range(changes):
            at = dice.randrange(len(self.transcript))
            byte = dice.choice([it for it in range(256) if it != self.transcript[at]])
            cut = self.transcript[:at] + bytes([byte]) + self.transcript[at + 1 :]
            self.try_cut(f"byte {at} is {byte}", cut, 0 if at == len(self.transcript) - 1 else 7)

    def of_others(self):
        first = f"meteragg: cut line {HEAD_LINES + 1}: not this run\n"
        self.try_cut("another plan", self.transcript, 7, "meteragg: cut: other plan\n", plan=self.plan.replace(b"windows,1,2", b"windows,1,3"))
        self.try_cut("other readings", self.transcript, 7, first, readings=self.readings.replace(b",10,", b",11,"))
        keys = self.plan.replace(b"pair,0,0,1,", b"pair,0,0,1,ff", 1).split(b"\n")
        keys = [it[: len(b"pair,0,0,1,") + 64] if it.startswith(b"pair,0,0,1,") else it for it in keys]
        self.try_cut("another key", self.transcript, 7, first, plan=b"\n".join(keys))
        lane = b"lane,rules,0.0.r.0=-,0,3\n"
        self.try_cut("other lanes", self.transcript, 7, first, plan=self.plan + lane)
        old = self.transcript.replace(b"meteragg transcript 2", b"meteragg transcript 1", 1)
        self.try_cut("version 1", old, 7, "meteragg: cut line 1: Head\n")


def main():
    heading, _, rest = __doc__.partition("\n\n")
    how = argparse.RawDescriptionHelpFormatter
    parser = argparse.ArgumentParser(description=heading, epilog=rest, formatter_class=how)
    parser.add_argument("--changes", type=int, default=100)
    parser.add_argument("--seed", type=int, default=1)
    parser.add_argument("--program", default=PROGRAM)
    options = parser.parse_args()
    program = os.path.realpath(options.program)
    with tempfile.TemporaryDirectory() as room:
        os.chdir(room)
        cuts = Cuts(program)
        cuts.cut_everywhere()
        cuts.change_bytes(options.changes, random.Random(options.seed))
        cuts.of_others()
    sys.exit(cuts.wrong > 0)


if __name__ == "__main__":
    main()
