#!/usr/bin/env python3
"""Looks for the readings that bills give no cover, and tries what `hide` writes.

    tests/bills.py [--program PROGRAM] [--jobs N] --count EXAMPLE LENGTH ..
    tests/bills.py [--program PROGRAM] [--jobs N] [--runs N] [--seed N]

With --count it runs an example, cuts its rounds into periods of each LENGTH, and asks `hide` for a partner of each reading in
its period. It prints how many readings there are and how many have none.

Without, it makes plans and readings of drawn sizes, runs them over drawn lanes, and asks `hide` for drawn places. What it writes
has to have the same bills, and `twin` has to end with it, with words that move. The exit status is 0 where all of this is so.
"""
import argparse
import concurrent.futures
import os
import random
import shutil
import subprocess
import sys
import tempfile

HERE = os.path.dirname(os.path.abspath(__file__))
EXAMPLES = os.path.join(HERE, "..", "examples")
PROGRAM = os.path.join(HERE, "..", "crates", "meteragg", "out", "meteragg")


def run(options, room, words):
    """The status of the program on these words, and what it printed."""
    ended = subprocess.run([options.program, *words.split()], cwd=room, stdin=subprocess.DEVNULL, capture_output=True, text=True)
    return ended.returncode, ended.stdout


def done(options, room, words):
    status, printed = run(options, room, words)
    if status != 0:
        raise SystemExit(f"bills: {words} ended with status {status} in {room}")
    return printed


def places_of(room):
    """The places of a readings file that have a reading, and how many rounds there are."""
    places, groups, rounds = [], [], 0
    with open(os.path.join(room, "readings.csv")) as file:
        for line in file:
            name, round_, *fields = line.rstrip("\n").split(",")
            if name not in groups:
                groups.append(name)
            places += [(groups.index(name), int(round_), meter) for meter, field in enumerate(fields) if field]
            rounds = max(rounds, int(round_) + 1)
    return places, rounds


def count(options, room):
    example = os.path.join(EXAMPLES, options.count[0])
    for name in ("plan.csv", "readings.csv"):
        shutil.copy(os.path.join(example, name), room)
    done(options, room, "run plan.csv readings.csv report.csv t.txt")
    places, rounds = places_of(room)

    def is_alone(place, length):
        group, round_, meter = place
        first = round_ - round_ % length
        last = min(first + length, rounds)
        other = os.path.join(room, f"{group}-{round_}-{meter}-{length}")
        status, _ = run(options, room, f"hide plan.csv readings.csv t.txt {first} {last} {group} {round_} {meter} {other}")
        if status not in (0, 11):
            raise SystemExit(f"bills: the place {place} ended with status {status}")
        if status == 0:
            os.remove(other)
        return status == 11

    for length in map(int, options.count[1:]):
        with concurrent.futures.ThreadPoolExecutor(options.jobs) as pool:
            alone = sum(pool.map(lambda place: is_alone(place, length), places))
        print(f"{options.count[0]}: periods of {length} rounds, {len(places)} readings, {alone} without a partner", flush=True)


def try_run(options, room, draw):
    """Hides a place of a drawn run: whether it has a partner."""
    groups, meters, rounds = draw.randint(1, 3), draw.randint(2, 6), draw.randint(1, 5)
    done(options, room, f"make {draw.randrange(1 << 64)} {groups} {meters} {rounds} plan.csv readings.csv")
    with open(os.path.join(room, "plan.csv")) as file:
        rows = [line for line in file if not line.startswith("lane")]
    last = rounds - 1 + 2 + 4 + 32
    rows.append(f"lane,seeded,{draw.randrange(1 << 64)}:{draw.choice((0, 20, 200))}:20:3,0,{last}\n")
    with open(os.path.join(room, "plan.csv"), "w") as file:
        file.writelines(rows)
    done(options, room, "run plan.csv readings.csv report.csv t.txt")
    group, round_, meter = draw.randrange(groups), draw.randrange(rounds), draw.randrange(meters)
    status, _ = run(options, room, f"hide plan.csv readings.csv t.txt 0 {rounds} {group} {round_} {meter} other.csv")
    if status == 11:
        return False
    if status != 0:
        raise SystemExit(f"bills: hide ended with status {status} in {room}")
    if "moved=0" in done(options, room, "twin plan.csv readings.csv other.csv t.txt masks.txt"):
        raise SystemExit(f"bills: no word moves in {room}")
    bills = []
    for table in ("readings.csv", "other.csv"):
        done(options, room, f"bill plan.csv {table} 0 {rounds} bills.csv")
        with open(os.path.join(room, "bills.csv")) as file:
            bills.append(file.read())
    if bills[0] != bills[1]:
        raise SystemExit(f"bills: the bills are others in {room}")
    return True


def try_runs(options):
    def one(number):
        room = tempfile.mkdtemp(prefix="bills-")
        hidden = try_run(options, room, random.Random(f"{options.seed}:{number}"))
        shutil.rmtree(room)
        return hidden

    with concurrent.futures.ThreadPoolExecutor(options.jobs) as pool:
        hidden = sum(pool.map(one, range(options.runs)))
    print(f"bills: runs={options.runs} hidden={hidden} seed={options.seed}")
    if 2 * hidden < options.runs:
        raise SystemExit("bills: too few readings have a partner to say anything")


def main():
    parser = argparse.ArgumentParser(description="Looks for readings without a partner, and tries what `hide` writes.")
    parser.add_argument("--program", default=PROGRAM)
    parser.add_argument("--jobs", type=int, default=os.cpu_count())
    parser.add_argument("--count", nargs="+", metavar=("EXAMPLE", "LENGTH"))
    parser.add_argument("--runs", type=int, default=100)
    parser.add_argument("--seed", type=int, default=1)
    options = parser.parse_args()
    options.program = os.path.abspath(options.program)
    if options.count:
        with tempfile.TemporaryDirectory(prefix="bills-") as room:
            count(options, room)
    else:
        try_runs(options)
    return 0


if __name__ == "__main__":
    sys.exit(main())
