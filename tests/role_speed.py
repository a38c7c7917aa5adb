#!/usr/bin/env python3
"""Measures the head end that stands apart, and prints a table.

    tests/role_speed.py [--size GROUPS METERS ROUNDS] [--times N] [--folder FOLDER] [--program PROGRAM]

- frames a second of processor time: `collect` hears a file of a reading of each place and no tick, and what a start without input takes is
  taken off; its answers go nowhere, and to a file;
- a frame through a pipe: the microseconds from a frame's write to the read of its answer, by the clock;
- a start: `collect` with a journal of all readings, answers and ticks, and no input: seconds by the clock and of the processor, and for each
  million lines; a plan has at most 266,288 lines behind the head of its journal;
- memory: the most that a head end takes that starts so and puts its report, in MB.

The frames have words of their own: a head end can't tell. FOLDER is where the files are, as on the disk that a journal would have. Each figure
is the median of N runs. The exit status is 0 where each run ended with 0.
"""
import argparse
import os
import statistics
import struct
import subprocess
import sys
import tempfile
import time

from fuzz import PROGRAM

PIPED = 20000


def frame(kind, group, round_, meter):
    """The digits of a frame with an empty set and a word of its own."""
    head = struct.pack(">BBBBHHI", 0x4D, 2, kind, meter, group, 0, round_)
    return (head + bytes(32) + struct.pack(">Q", hash((kind, group, round_, meter)) & 0xFFFFFFFFFFFFFFFF)).hex().encode()


def windows_of(public):
    rows = [row.split(",") for row in public.splitlines()]
    return int(rows[2][1]), int(rows[2][2])


def journal_lines(options, windows):
    """The lines of a course in which each reading and each answer comes in time."""
    groups, meters, rounds = options.size
    places = [(group, meter) for group in range(groups) for meter in range(meters)]
    w1, w2 = windows
    for tick in range(rounds + w1 + w2):
        if tick < rounds:
            yield from (b"f," + frame(1, group, tick, meter) for group, meter in places)
        if 0 <= tick - w1 - 1 < rounds:
            yield from (b"f," + frame(3, group, tick - w1 - 1, meter) for group, meter in places)
        yield b"t"


def measured(program, given, output):
    """Runs a head end on a file: its seconds, and the processor's seconds."""
    with open(given, "rb") as source, open(output, "wb") as sink:
        started = time.monotonic()
        process = subprocess.Popen([program, "collect", "public", "journal", "report"], stdin=source, stdout=sink)
        _, status, used = os.wait4(process.pid, 0)
        process.returncode = os.waitstatus_to_exitcode(status)
    if process.returncode:
        sys.exit(f"role_speed: collect ended with status {process.returncode}")
    return time.monotonic() - started, used.ru_utime + used.ru_stime


class Piped:
    """A head end with which this process speaks through pipes."""

    def __init__(self, program):
        self.process = subprocess.Popen([program, "collect", "public", "journal", "report"], stdin=subprocess.PIPE, stdout=subprocess.PIPE)
        self.source, self.sink = self.process.stdin.fileno(), self.process.stdout.fileno()
        self.hear(b"ready,")

    def hear(self, word):
        """Reads up to a line that begins with the word."""
        said = b"\n"
        while not said.endswith(b"\n") or b"\n" + word not in said:
            said += os.read(self.sink, 65536)

    def ask(self, line):
        """The microseconds from a line's write to the read of its answer."""
        started = time.perf_counter_ns()
        os.write(self.source, line)
        os.read(self.sink, 65536)
        return (time.perf_counter_ns() - started) / 1000

    def end(self):
        """Has it put the report; the most memory that it has taken, in MB."""
        os.write(self.source, b"report\n")
        self.hear(b"reported")
        with open(f"/proc/{self.process.pid}/status") as status:
            most = next(int(line.split()[1]) for line in status if line.startswith("VmHWM:"))
        self.process.stdin.close()
        self.process.stdout.read()
        self.process.stdout.close()
        if self.process.wait():
            sys.exit(f"role_speed: collect ended with status {self.process.returncode}")
        return most / 1024


def medians(runs):
    return [statistics.median(run[at] for run in runs) for at in range(2)]


def remove(*names):
    for name in names:
        if os.path.exists(name):
            os.remove(name)


def write(name, lines):
    with open(name, "wb") as file:
        file.writelines(line + b"\n" for line in lines)


def measure_frames(options, program):
    """Frames a second of processor time, from a file without a tick."""
    groups, meters, rounds = options.size
    write("frames", (b"frame," + frame(1, g, r, i) for r in range(rounds) for g in range(groups) for i in range(meters)))
    write("nothing", ())
    count = groups * meters * rounds
    for output, named in ((os.devnull, "nowhere"), ("said", "a file")):
        whole, empty = [], []
        for _ in range(options.times):
            for given, runs in (("frames", whole), ("nothing", empty)):
                remove("journal", "report")
                runs.append(measured(program, given, output))
        seconds, processor = (one - other for one, other in zip(medians(whole), medians(empty)))
        said = f"{count / processor:.0f} a second of processor time, {count / seconds:.0f} by the clock"
        print(f"| {count} frames from a file, answers to {named} | {said} |  |", flush=True)


def measure_pipe(options, program):
    """The microseconds of a frame through a pipe."""
    remove("journal", "report")
    head_end = Piped(program)
    with open("frames", "rb") as frames:
        lines = [line for line, _ in zip(frames, range(PIPED))]
    took = sorted(head_end.ask(line) for line in lines)
    median, late = took[len(took) // 2], took[len(took) * 99 // 100]
    said = f"{median:.1f} microseconds at the median, {late:.1f} for 99 of 100"
    print(f"| {len(took)} frames through a pipe | {said} | {head_end.end():.1f} MB |", flush=True)


def measure_starts(options, program, windows):
    """Starts with journals of different lengths."""
    remove("journal", "report")
    measured(program, "nothing", "said")
    with open("journal", "rb") as journal:
        head = journal.read()
    lines = list(journal_lines(options, windows))
    for count in sorted({0, len(lines) // 4, len(lines) // 2, len(lines)}):
        text = head + b"".join(line + b"\n" for line in lines[:count])
        runs = []
        for _ in range(options.times):
            with open("journal", "wb") as journal:
                journal.write(text)
            runs.append(measured(program, "nothing", "said"))
        seconds, processor = medians(runs)
        each = f", {seconds * 1e6 / count:.2f} by the clock for each million" if count else ""
        said = f"{seconds:.3f} s, {processor:.3f} of processor time{each}"
        print(f"| a start with {count} lines | {said} | {Piped(program).end():.1f} MB |", flush=True)


def main():
    heading, _, rest = __doc__.partition("\n\n")
    parser = argparse.ArgumentParser(description=heading, epilog=rest, formatter_class=argparse.RawDescriptionHelpFormatter)
    parser.add_argument("--size", nargs=3, type=int, default=[32, 64, 64], metavar=("GROUPS", "METERS", "ROUNDS"))
    parser.add_argument("--times", type=int, default=5)
    parser.add_argument("--folder")
    parser.add_argument("--program", default=PROGRAM)
    options = parser.parse_args()
    program = os.path.realpath(options.program)
    with tempfile.TemporaryDirectory(prefix="role-speed-", dir=options.folder) as room:
        os.chdir(room)
        for words in (["make", "7", *map(str, options.size), "plan", "readings"], ["public", "plan", "public"]):
            subprocess.run([program, *words], stdout=subprocess.DEVNULL, check=True)
        with open("public") as public:
            windows = windows_of(public.read())
        print("| What | Takes | Memory |")
        print("|---|---|---|")
        measure_frames(options, program)
        measure_pipe(options, program)
        measure_starts(options, program, windows)
        os.chdir("/")
    return 0


if __name__ == "__main__":
    sys.exit(main())
