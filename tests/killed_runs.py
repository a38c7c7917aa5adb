#!/usr/bin/env python3
"""Kills runs of the built program at random moments, and has `resume` go on from what they leave.

    tests/killed_runs.py [--kills N] [--size GROUPSxMETERSxROUNDS] [--seed N] [--program PROGRAM]

It makes a plan and readings, and runs them once to the end. Then it begins a run N times (20), kills it with SIGKILL at a random moment
of that time, and takes the part of the transcript that is left, `transcript.part`, as the cut. `resume` puts a transcript and a report.
The report, the summary and the transcript have to be those of the whole run, and `audit` has to confirm both files. Where a run was killed before it wrote a whole head, `resume` has to say status 7.

One line is printed for each kill: after how many milliseconds, how many whole lines the cut has, and the status. The exit status is 0
where all is as it has to be, and else 1.
"""
import argparse
import collections
import os
import random
import subprocess
import sys
import tempfile
import time

from fuzz import PROGRAM


# What a whole run gives.
Whole = collections.namedtuple("Whole", "summary report transcript")


def call(*words):
    """What a call of the program says, and its status."""
    ran = subprocess.run(words, stdout=subprocess.PIPE, stderr=subprocess.DEVNULL)
    return ran.returncode, ran.stdout


def content(name):
    with open(name, "rb") as file:
        return file.read()


def killed(program, seconds):
    """What a run leaves of its transcript that is killed after so long; none where it was over before, or left nothing."""
    child = subprocess.Popen([program, "run", "plan", "readings", "report", "transcript"], stdout=subprocess.DEVNULL)
    time.sleep(seconds)
    child.kill()
    if child.wait() == 0 or not os.path.exists("transcript.part"):
        return None
    return content("transcript.part")


def faults(program, cut, whole):
    """What is wrong with going on from a cut, and the status of that."""
    status, summary = call(program, "resume", "plan", "readings", "transcript.part", "report", "transcript", "4")
    has_head = b"\nbegin\n" in cut
    if status != (0 if has_head else 7):
        return status, ["the status"]
    if not has_head:
        return status, []
    wrong = []
    if summary != whole.summary:
        wrong.append("the summary")
    if content("report") != whole.report:
        wrong.append("the report")
    if content("transcript") != whole.transcript:
        wrong.append("the transcript")
    if content("transcript.part") != cut:
        wrong.append("the cut, which was written over")
    if call(program, "audit", "transcript", "report")[0] != 0:
        wrong.append("the audit")
    return status, wrong


def remove(*names):
    for name in names:
        if os.path.exists(name):
            os.remove(name)


def main():
    heading, _, rest = __doc__.partition("\n\n")
    how = argparse.RawDescriptionHelpFormatter
    parser = argparse.ArgumentParser(description=heading, epilog=rest, formatter_class=how)
    parser.add_argument("--kills", type=int, default=20)
    parser.add_argument("--size", default="32x64x64")
    parser.add_argument("--seed", type=int, default=1)
    parser.add_argument("--program", default=PROGRAM)
    options = parser.parse_args()
    program = os.path.realpath(options.program)
    dice = random.Random(options.seed)
    is_wrong, kills = False, 0
    with tempfile.TemporaryDirectory() as room:
        os.chdir(room)
        call(program, "make", str(options.seed), *options.size.split("x"), "plan", "readings")
        began = time.monotonic()
        status, summary = call(program, "run", "plan", "readings", "report", "transcript")
        took = time.monotonic() - began
        if status:
            sys.exit(f"the whole run ended with status {status}")
        whole = Whole(summary, content("report"), content("transcript"))
        while kills < options.kills:
            remove("report", "transcript", "transcript.part", "report.part")
            after = dice.random() * took
            cut = killed(program, after)
            if cut is None:
                continue
            kills += 1
            status, wrong = faults(program, cut, whole)
            is_wrong = is_wrong or bool(wrong)
            print(f"{after * 1000:.0f} ms, {cut.count(10)} whole lines, status {status}", *(f"; wrong: {it}" for it in wrong), sep="")
    sys.exit(is_wrong)


if __name__ == "__main__":
    main()
