#!/usr/bin/env python3
"""Runs the built program on files and plans at their limits, and prints the status, the seconds and the memory of each.

    tests/sizes.py [--row WORD] [--program PROGRAM]

The files take about 1.5 GB in the folder for temporary files, one after another. The exit status is 0 where each run ended
with the status of its row.
"""
import argparse
import multiprocessing
import os
import random
import resource
import sys
import tempfile

from fuzz import PROGRAM
from speed import measured

MOST_BYTES = 1 << 28
RUN = "run plan readings report transcript 4"
AUDIT = "audit transcript report"
CONVERT = "convert old transcript"


def plan_text(groups, meters, rounds, rows=""):
    draw = random.Random(1)
    lines = ["plan,1", f"rounds,{rounds}", "windows,2,4"]
    lines += [f"group,g{group},{meters},2" for group in range(groups)]
    for group in range(groups):
        lines += [f"own,{group},{meter},{draw.randbytes(32).hex()}" for meter in range(meters)]
        lines += [
            f"pair,{group},{low},{high},{draw.randbytes(32).hex()}"
            for low in range(meters)
            for high in range(low + 1, meters)
        ]
    return "\n".join(lines) + "\n" + rows


def readings_text(groups, meters, rounds):
    draw = random.Random(2)
    rows = (
        f"g{group},{round_},{','.join(str(draw.randrange(5000)) for _ in range(meters))}\n"
        for group in range(groups)
        for round_ in range(rounds)
    )
    return "".join(rows)


def plan_and_readings(groups, meters, rounds, rows=""):
    return {
        "plan": plan_text(groups, meters, rounds, rows).encode(),
        "readings": readings_text(groups, meters, rounds).encode(),
    }


def small(**changed):
    return {**plan_and_readings(1, 3, 1), **changed}


def audited(transcript):
    return {"transcript": transcript, "report": REPORT_HEAD}


def filled(start, size, byte=b"x", end=b""):
    return start + byte * (size - len(start) - len(end)) + end


def write_files(room, make):
    for name, data in make().items():
        with open(os.path.join(room, name), "wb") as file:
            file.write(data)


SMALL_PLAN = plan_text(1, 3, 1).encode()
SMALL_READINGS = readings_text(1, 3, 1).encode()
HEAD = b"meteragg transcript 2\n"
OLD_HEAD = b"meteragg transcript 1\n"
REPORT_HEAD = b"group,round,survivors,missing,outcome,total\n"

# Each row with its name, the command's words, its status, and what makes its files.
ROWS = [
    ("a plan of 2^28 zero bytes", RUN, 5, lambda: small(plan=bytes(MOST_BYTES))),
    ("a plan of 2^28 + 1 bytes", RUN, 3, lambda: small(plan=bytes(MOST_BYTES + 1))),
    ("a plan with a last line up to 2^28 bytes", RUN, 5, lambda: small(plan=filled(SMALL_PLAN, MOST_BYTES))),
    ("a plan with empty lines up to 2^28 bytes", RUN, 0, lambda: small(plan=filled(SMALL_PLAN, MOST_BYTES, b"\n"))),
    ("a plan that is one row of 2^28 commas", RUN, 5, lambda: small(plan=b"," * MOST_BYTES)),
    ("a plan that is one open quote of 2^28 bytes", RUN, 5, lambda: small(plan=filled(b'"', MOST_BYTES))),
    ("readings of 2^28 + 1 bytes", RUN, 3, lambda: small(readings=bytes(MOST_BYTES + 1))),
    ("a number of 2^28 digits", RUN, 6, lambda: small(readings=filled(b"g0,0,", MOST_BYTES, b"9", b",1,1\n"))),
    ("readings with empty lines up to 2^28 bytes", RUN, 0, lambda: small(readings=filled(SMALL_READINGS, MOST_BYTES, b"\n"))),
    ("1 group of 256 meters, 512 rounds: 131,072 readings", RUN, 0, lambda: plan_and_readings(1, 256, 512)),
    ("32 groups of 256 meters, 16 rounds: 1,044,480 pairs", RUN, 0, lambda: plan_and_readings(32, 256, 16)),
    ("256 groups of 2 meters, 256 rounds: 131,072 readings", RUN, 0, lambda: plan_and_readings(256, 2, 256)),
    ("1 group of 2 meters, 4096 rounds", RUN, 0, lambda: plan_and_readings(1, 2, 4096)),
    ("1 group of 32 meters, 4096 rounds: 131,072 readings", RUN, 0, lambda: plan_and_readings(1, 32, 4096)),
    ("256 groups of 32 meters, 16 rounds, with 16 workers", RUN.replace(" 4", " 16"), 0, lambda: plan_and_readings(256, 32, 16)),
    ("257 groups", RUN, 5, lambda: plan_and_readings(257, 2, 1)),
    ("4097 rounds", RUN, 5, lambda: plan_and_readings(1, 2, 4097)),
    ("1 group of 33 meters, 3972 rounds: 131,076 readings", RUN, 5, lambda: plan_and_readings(1, 33, 3972)),
    ("33 groups of 256 meters: 1,077,120 pairs", RUN, 5, lambda: plan_and_readings(33, 256, 1)),
    ("a transcript of 2^28 bytes in one line", AUDIT, 7, lambda: audited(filled(HEAD, MOST_BYTES))),
    ("a transcript of 2^28 + 1 bytes", AUDIT, 3, lambda: audited(bytes(MOST_BYTES + 1))),
    ("an old transcript of 2^28 bytes in one line", CONVERT, 7, lambda: {"old": filled(OLD_HEAD, MOST_BYTES)}),
    ("a seed at its end, and 131,072 readings", "make 18446744073709551615 4 32 1024 plan readings", 0, dict),
    ("load at 131,072 readings with 16 workers", "load 1 32 32 128 16", 0, dict),
]


def run_row(program, words, make):
    """Runs the words among the files: the status, the seconds, the processor's seconds, the most memory in MB, and what is
    printed."""
    with tempfile.TemporaryDirectory(prefix="sizes-") as room:
        # In a process of its own, since the program's most memory counts from what this process has at its start.
        writer = multiprocessing.Process(target=write_files, args=(room, make))
        writer.start()
        writer.join()
        return measured(program, words, room)


def main():
    parser = argparse.ArgumentParser(description="Runs the program on files and plans at their limits.")
    parser.add_argument("--row", default="", help="only rows whose name has this text")
    parser.add_argument("--program", default=PROGRAM)
    options = parser.parse_args()
    program = os.path.abspath(options.program)
    resource.setrlimit(resource.RLIMIT_CORE, (0, 0))
    good = True
    print("| Files | Status | Seconds | Processor seconds | Memory, MB | Printed |\n|---|---|---|---|---|---|")
    for name, words, wanted, make in ROWS:
        if options.row not in name:
            continue
        status, seconds, processor, memory, said = run_row(program, words, make)
        # A command that the program doesn't have.
        if status == 2:
            continue
        note = "" if status == wanted else f" (not {wanted})"
        good &= status == wanted
        print(f"| {name} | {status}{note} | {seconds:.1f} | {processor:.1f} | {memory} | `{said}` |", flush=True)
    return 0 if good else 1


if __name__ == "__main__":
    sys.exit(main())
