#!/usr/bin/env python3
"""Measures the commands of the built program on one made district, and prints the table of docs/SCALING.md.

    tests/speed.py [--size GROUPS METERS ROUNDS] [--times N] [--program PROGRAM]

Each line has a command and its medians over N runs: the seconds by the clock, the processor's seconds, and the most memory in
MB; then what it printed. For `twin` the first two meters of each group exchange their readings wherever both took part. The
exit status is 0 where each run ended with status 0.
"""
import argparse
import multiprocessing
import os
import statistics
import subprocess
import sys
import tempfile
import time

from fuzz import PROGRAM, old_text

COMMANDS = [
    "make {size} plan readings",
    "run plan readings report transcript 1",
    "run plan readings report transcript 4",
    "run plan readings report transcript 16",
    "audit transcript report",
    "load {size} 4",
    "load {size} 4 loaded",
    "twin plan readings other transcript masks",
    "convert old converted",
]


def missing_of(report):
    """The missing meters of each group and round."""
    missing = {}
    for line in report.splitlines()[1:]:
        group, number, _, meters, _, _ = line.split(",")
        missing[group, number] = set() if meters == "-" else set(meters.split("+"))
    return missing


def exchanged(readings, missing):
    """The readings, with those of meters 0 and 1 exchanged where both are there and neither is missing."""
    for line in readings.splitlines():
        fields = line.split(",")
        if fields[2] and fields[3] and not {"0", "1"} & missing[fields[0], fields[1]]:
            fields[2], fields[3] = fields[3], fields[2]
        yield ",".join(fields) + "\n"


def add_files(room):
    """Writes the other readings and the transcript of version 1, from what a run has left."""
    text = lambda name: open(os.path.join(room, name), encoding="ascii").read()
    with open(os.path.join(room, "other"), "w", encoding="ascii") as other:
        other.writelines(exchanged(text("readings"), missing_of(text("report"))))
    with open(os.path.join(room, "transcript"), "rb") as transcript, open(os.path.join(room, "old"), "wb") as old:
        old.write(old_text(transcript.read()))


def measured(program, words, room):
    """Runs the words: the status, the seconds, the processor's seconds, the most memory in MB, and what is printed."""
    started = time.monotonic()
    process = subprocess.Popen([program, *words.split()], cwd=room, stdout=subprocess.PIPE, stderr=subprocess.PIPE)
    printed, complaint = process.stdout.read(), process.stderr.read()
    _, status, used = os.wait4(process.pid, 0)
    process.returncode = os.waitstatus_to_exitcode(status)
    seconds = time.monotonic() - started
    said = (printed or complaint).decode(errors="replace").strip()[:90]
    return process.returncode, seconds, used.ru_utime + used.ru_stime, used.ru_maxrss // 1024, said


def main():
    parser = argparse.ArgumentParser()
    parser.add_argument("--size", nargs=3, type=int, default=[20, 64, 96], metavar=("GROUPS", "METERS", "ROUNDS"))
    parser.add_argument("--times", type=int, default=5)
    parser.add_argument("--program", default=PROGRAM)
    options = parser.parse_args()
    program = os.path.realpath(options.program)
    size = " ".join(["7", *map(str, options.size)])
    failed = False
    print("| Command | Seconds by the clock | Processor seconds | Memory, MB | Printed |")
    print("|---|---|---|---|---|")
    with tempfile.TemporaryDirectory(prefix="speed-") as room:
        for command in COMMANDS:
            if command.startswith("twin"):
                # In a process of its own, since the program's most memory counts from what this process has at its start.
                writer = multiprocessing.Process(target=add_files, args=(room,))
                writer.start()
                writer.join()
            words = command.format(size=size)
            runs = [measured(program, words, room) for _ in range(options.times)]
            failed |= any(run[0] != 0 for run in runs)
            seconds, processor, memory = (statistics.median(run[at] for run in runs) for at in (1, 2, 3))
            print(f"| `{words}` | {seconds:.2f} | {processor:.2f} | {memory} | `{runs[0][4]}` |", flush=True)
    return 1 if failed else 0


if __name__ == "__main__":
    sys.exit(main())
