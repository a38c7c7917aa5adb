#!/usr/bin/env python3
"""Runs the built program on plan files, readings files and transcripts of 64 MB with lines that no such file has, and looks at how
each is refused, in how much memory, and how fast.

    tests/long_rows.py [--program PROGRAM]

A run is a finding where its status or its complaint is another than the rules of the file say, where it takes more than 64 MB
more than the file's bytes, or more than four seconds of processor time. The exit status is 0 where there is no finding, and 1
where there is one.
"""
import argparse
import os
import subprocess
import sys
import tempfile

HERE = os.path.dirname(os.path.abspath(__file__))
PROGRAM = os.path.join(HERE, "..", "crates", "meteragg", "out", "meteragg")
SIZE = 1 << 26
MOST_MORE = 64 << 20
MOST_SECONDS = 4
PIECE = 1 << 16

ZEROS = b"0" * 64
HEAD = b"plan,1\nrounds,1\nwindows,1,2\n"
NORTH = b"group,north,3,2\n" + b"".join(
    b"own,0,%d,%s\n" % (meter, ZEROS) for meter in range(3)
) + b"".join(b"pair,0,%d,%d,%s\n" % (low, high, ZEROS) for low, high in ((0, 1), (0, 2), (1, 2)))
READINGS = b"north,0,10,20,30\n"
TRANSCRIPT = b"meteragg transcript 2\nrounds,1\nwindows,1,2\ngroup,north,3,2\nbegin\n"
REPORT = b"group,round,survivors,missing,outcome,total\nnorth,0,3,-,total,60\n"

RUN = ["run", "plan", "readings", "out", "new"]
AUDIT = ["audit", "transcript", "report"]

# Each row: what it is, the file that it is, its beginning, the bytes that fill it, its end, the status and the complaint.
FILES = [
    ("commas", "readings", b"", b",", b"", 6, "readings row 1: Row"),
    ("commas behind a name", "readings", b"north,0", b",", b"", 6, "readings row 1: Fields"),
    ("a long reading", "readings", b"north,0,10,20,", b"7", b"\n", 6, "readings row 1: Number"),
    ("a quote that isn't closed", "readings", b'north,0,10,20,"', b"7", b"", 6, "readings row 1: Number"),
    ("quotes in quotes", "readings", b'north,0,10,20,"', b'""', b'"\n', 6, "readings row 1: Number"),
    ("newlines", "readings", b"", b"\n", b"", 6, "readings row 1: Short"),
    ("carriage returns", "readings", READINGS, b"\r", b"x", 6, "readings row 2: Extra"),
    ("rows of one field", "readings", READINGS, b"x\n", b"", 6, "readings row 2: Extra"),
    ("commas", "plan", b"", b",", b"", 5, "plan row 1: Row"),
    ("commas behind a word", "plan", HEAD + b"group", b",", b"\n", 5, "plan row 4: Fields"),
    ("a long key", "plan", HEAD + NORTH + b"own,0,0,", b"0", b"\n", 5, "plan row 11: Hex"),
    ("a quoted name", "plan", HEAD + b'group,"', b"n", b'",3,2\n', 5, "plan row 4: Name"),
    ("an argument of commas", "plan", HEAD + NORTH + b"lane,every", b",", b"\n", 5, "plan row 11: Fields"),
    ("a line of commas", "transcript", TRANSCRIPT, b",", b"", 7, "transcript line 6: NoEnd"),
    ("entries behind a fault", "transcript", TRANSCRIPT + b"x\n", b"1,t,0,0,r,0,fresh\n", b"", 7, "transcript line 6: Line"),
]


def write(path, head, filling, tail):
    """A file of this beginning and this end, as long as `SIZE` allows; in pieces, since a run's memory is also what this script
    has when it starts it."""
    times = (SIZE - len(head) - len(tail)) // len(filling)
    with open(path, "wb") as file:
        file.write(head)
        while times > 0:
            file.write(filling * min(times, PIECE))
            times -= PIECE
        file.write(tail)


def run(program, words, folder):
    """The status of the program in the folder, what it complains of, the most memory that it had, and its processor seconds."""
    process = subprocess.Popen(
        [program, *words],
        cwd=folder,
        stdout=subprocess.DEVNULL,
        stderr=subprocess.PIPE,
    )
    complaint = process.stderr.read().decode()
    _, status, usage = os.wait4(process.pid, 0)
    process.stderr.close()
    process.returncode = os.waitstatus_to_exitcode(status)
    return process.returncode, complaint, usage.ru_maxrss << 10, usage.ru_utime + usage.ru_stime


def main():
    parser = argparse.ArgumentParser(description=__doc__.splitlines()[0])
    parser.add_argument("--program", default=PROGRAM)
    program = os.path.abspath(parser.parse_args().program)
    findings = 0
    with tempfile.TemporaryDirectory() as folder:
        for what, name, head, filling, tail, status, complaint in FILES:
            for other, text in (("plan", HEAD + NORTH), ("readings", READINGS), ("report", REPORT)):
                with open(os.path.join(folder, other), "wb") as file:
                    file.write(text)
            write(os.path.join(folder, name), head, filling, tail)
            came = run(program, AUDIT if name == "transcript" else RUN, folder)
            wanted = (status, f"meteragg: {complaint}\n")
            more, seconds = came[2] - SIZE, came[3]
            if came[:2] != wanted or more > MOST_MORE or seconds > MOST_SECONDS:
                findings += 1
                found = f"status {came[0]}, {came[1]!r}, {more >> 20} MB more than the file, {seconds:.1f} s"
                print(f"{what} ({name}): {found}", file=sys.stderr)
    return 1 if findings else 0


if __name__ == "__main__":
    sys.exit(main())
