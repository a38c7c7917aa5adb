#!/usr/bin/env python3
"""Changes files and words at random, runs the built program on them, and looks for a run that ends as none may.

    tests/fuzz.py [--seconds S] [--seed N] [--jobs N] [--case N] [--quiet] [--program PROGRAM]

Each case has a number, and its seed and number make the whole of it: --case does one of them again, and keeps its folder.
A run is a finding where it

- ends by a signal, with a status that its command doesn't have, after ten seconds of processor time, or not within a
  minute;
- changes a file that it reads, puts a file at another status than 0, 1 and 4, or leaves a file that it doesn't name;
- prints at another status than 0, 1 and 4, or lacks a complaint in its form at another status than 0, or has one at 0.

The exit status is 0 where there is no finding, and 1 where there is one.
"""
import argparse
import collections
import concurrent.futures
import os
import random
import re
import shutil
import subprocess
import sys
import tempfile
import time

HERE = os.path.dirname(os.path.abspath(__file__))
EXAMPLES = os.path.join(HERE, "..", "examples")
PROGRAM = os.path.join(HERE, "..", "crates", "meteragg", "out", "meteragg")
MOST_SECONDS = 60
MOST_PROCESSOR_SECONDS = 10
MAY_PUT = {0, 1, 4}

# Each command with its words and the statuses that it may end with. <NAME is a file that it reads, >NAME one that it puts, and +NAME a
# journal that it goes on with; for `parts`, what the names of the files begin with. A command that the program doesn't have is left out.
COMMANDS = [
    ("run <plan <readings >report >transcript", {0, 1, 2, 3, 4, 5, 6, 10}),
    ("run <plan <readings >report >transcript 3", {0, 1, 2, 3, 4, 5, 6, 10}),
    ("twin <plan <readings <other <transcript >masks", {0, 1, 2, 3, 4, 5, 6, 7, 8}),
    ("ring <plan <readings 2 >report >transcript", {0, 1, 2, 3, 4, 5, 6, 10}),
    ("resume <plan <readings <cut >report >transcript", {0, 1, 2, 3, 4, 5, 6, 7, 10}),
    ("ringtwin <plan <readings <other 2 <ringed >masks", {0, 1, 2, 3, 4, 5, 6, 7, 8}),
    ("pooled 0.1+0.2 <plan <readings <other <transcript >masks", {0, 1, 2, 3, 4, 5, 6, 7, 8}),
    ("audit <transcript <report", {0, 1, 2, 3, 4, 7, 9}),
    ("convert <old >transcript", {0, 1, 2, 3, 4, 7}),
    ("public <plan >public", {0, 1, 2, 3, 4, 5}),
    ("parts <plan 0 >m", {0, 1, 2, 3, 4, 5}),
    ("collect <public +journal >report", {0, 1, 2, 3, 4, 5, 7}),
    ("meter <part +noted", {0, 1, 2, 3, 4, 5, 7}),
    ("inspect <public <transcript <report", {0, 1, 2, 3, 4, 5, 7, 9}),
    ("registers 2 <plan <tables >report >transcript >words", {0, 1, 2, 3, 4, 5, 6, 10}),
    ("bill <plan <readings 0 1 >bills", {0, 1, 2, 3, 4, 5, 6}),
    ("hide <plan <readings <transcript 0 96 0 0 0 >hidden", {0, 1, 2, 3, 4, 5, 6, 7, 11}),
    ("make 7 2 3 4 >plan >readings", {0, 1, 2, 4}),
    ("load 7 2 3 4 2", {0, 1, 2, 4}),
    ("load 7 2 3 4 2 >transcript", {0, 1, 2, 4}),
    ("help", {0, 1, 2, 4}),
    ("version", {0, 1, 2, 4}),
]

# Fields that readers of numbers, names, sets, fates and arguments have to judge.
FIELDS = (
    "0 1 2 3 9 00 01 -0 -1 +1 255 256 257 4095 4096 4097 65535 65536 131072 4294967295 4294967296 1099511627775 "
    "1099511627776 18446744073709551615 18446744073709551616 99999999999999999999999999 - + * 0+1 1+0 1+1 0+0 16 17 1+2+3 "
    "1+2+3+4 a north ABCDEFGHIJKLMNOP ABCDEFGHIJKLMNOPQ plan group own pair lane member begin end s t c e r m fresh again "
    "late void announced thin already total none open notclosed clear rules seeded every burst *.*.*.*=1 0.0.r.0=- "
    "1:5:10:2 1:1 2:1+3 0:0 10+1 10+ +10 10+1099511627776 0.0 0.1+0.0 0.0+0.3 0.255+255.0 00.1 0.256"
).split() + ["", " ", "\t", '"', '""', '"1"', "\r", "\0", "\ufeff", "é", "x" * 300, "9" * 300]


# Rows of the plan file that the small example lacks.
ROWS = b"""lane,rules,0.0.r.2=2;*.*.a.0=1+1,0,3
lane,seeded,1:5:10:2,0,2
lane,every,2:1+3,1,3
lane,burst,3:1,0,3
lane,clear,,0,0
member,0,1,0,1
"""


# A text behind its head is read in pieces of so many bytes, which are cut at the ends of lines.
PIECE = 64 * 1024


def pick_place(draw, data):
    """A place in the bytes: in a text of several pieces mostly one near a cut."""
    begin = data.find(b"begin\n") + len(b"begin\n")
    cuts = range(begin + PIECE, len(data), PIECE)
    if begin < len(b"begin\n") or not cuts or draw.random() < 0.25:
        return draw.randrange(len(data) + 1)
    return min(len(data), draw.choice(cuts) + draw.randrange(-300, 300))


def pick_span(draw, data):
    start = pick_place(draw, data)
    return start, min(len(data), start + draw.choice((1, 1, 2, 5, 40)))


def changed_bytes(draw, data):
    """The bytes with one small change."""
    start, stop = pick_span(draw, data)
    some = data[start:stop]
    return draw.choice((
        lambda: data[:start] + bytes(byte ^ 1 << draw.randrange(8) for byte in some) + data[stop:],
        lambda: data[:start] + data[stop:],
        lambda: data[:start] + some + some + data[stop:],
        lambda: data[:start] + draw.randbytes(draw.choice((1, 1, 4))) + data[start:],
        lambda: data[:start] + draw.choice((b"\n", b"\r\n", b"\r", b",", b'"', b"+", b"\0")) + data[start:],
        lambda: data[:start],
        lambda: data[start:],
    ))()


def changed_field(draw, line):
    """The line with one field changed, gone, doubled or moved."""
    fields = line.split(b",")
    at = draw.randrange(len(fields))
    what = draw.randrange(5)
    if what < 2:
        fields[at] = draw.choice(FIELDS).encode()
    elif what == 2:
        del fields[at]
    elif what == 3:
        fields.insert(at, draw.choice((fields[at], draw.choice(FIELDS).encode())))
    else:
        other = draw.randrange(len(fields))
        fields[at], fields[other] = fields[other], fields[at]
    return b",".join(fields)


def changed_lines(draw, data):
    """The bytes with one line changed, gone, doubled or moved."""
    lines = data.split(b"\n")
    at = draw.randrange(len(lines)) if len(data) < PIECE else data.count(b"\n", 0, pick_place(draw, data))
    what = draw.randrange(8)
    if what < 5:
        lines[at] = changed_field(draw, lines[at])
    elif what == 5:
        del lines[at]
    elif what == 6:
        lines.insert(at, lines[draw.randrange(len(lines))])
    else:
        other = draw.randrange(len(lines))
        lines[at], lines[other] = lines[other], lines[at]
    return b"\n".join(lines)


def changed(draw, data):
    for _ in range(draw.choice((1, 1, 1, 2, 4))):
        data = draw.choice((changed_bytes, changed_lines, changed_lines))(draw, data)
    return data


def changed_words(draw, words):
    """The words with one changed, gone, doubled or moved."""
    words = list(words)
    at = draw.randrange(len(words))
    what = draw.randrange(5)
    if what < 2:
        words[at] = draw.choice([field for field in FIELDS if "\0" not in field] + ["/dev/null", ".", "absent/x", "plan", "./plan", "./readings"])
    elif what == 2:
        del words[at]
    elif what == 3:
        words.insert(at, draw.choice(words))
    else:
        other = draw.randrange(len(words))
        words[at], words[other] = words[other], words[at]
    return words


def old_line(line):
    """A transcript's line as version 1 has it."""
    fields = line.split(b",")
    if len(fields) == 8 and len(fields[7]) == 104:
        frame = fields[7]
        fields[7] = b"4d01" + frame[4:24] + frame[72:]
    return b",".join(fields)


def old_text(transcript):
    head, rest = transcript.split(b"\n", 1)
    return b"\n".join([head.replace(b" 2", b" 1")] + [old_line(line) for line in rest.split(b"\n")])


def public_text(plan):
    """A plan file's public plan."""
    rows = [row for row in plan.splitlines(keepends=True) if not row.startswith((b"own,", b"pair,", b"lane,"))]
    return b"".join([b"public,1\n"] + rows[1:])


def two_registers(readings):
    """A readings file with a second register, which has a third of the first one."""
    rows = [row.split(b",") for row in readings.splitlines()]
    return b"".join(b",".join(row[:2] + [field and b"%s+%d" % (field, int(field) // 3) for field in row[2:]]) + b"\n" for row in rows)


def names_in(command, marks):
    return [word[1:] for word in command.split() if word[0] in marks]


def names_put(words):
    """The files at the places of these words at which some form of their command puts one or goes on with one."""
    forms = [command.split() for command, _ in COMMANDS if command.split()[:1] == words[:1]]
    return {os.path.normpath(word) for form in forms for word, place in zip(words, form) if place[0] in ">+"}


def words_of(command):
    return [word.lstrip("<>+") for word in command.split()]


def journal_of(program, room, transcript):
    """The journal of a head end that took each reading of a transcript, and then let all ticks pass."""
    readings = (b"frame," + line.split(b",")[7] for line in transcript.split(b"\n") if re.match(rb"\d+,s,.*,r,.*,4d02", line))
    given = b"\n".join([*readings, *(b"tick,%d" % tick for tick in range(200)), b""])
    subprocess.run([program, "collect", "public", "journal", "report"], cwd=room, input=given, capture_output=True)


def write_files(room, files):
    for name, data in files.items():
        with open(os.path.join(room, name), "wb") as file:
            file.write(data)


def files_in(room):
    found = {}
    for name in sorted(os.listdir(room)):
        with open(os.path.join(room, name), "rb") as file:
            found[name] = file.read()
    return found


def run_in(room, program, words):
    limited = ["sh", "-c", f'ulimit -t {MOST_PROCESSOR_SECONDS}; exec "$0" "$@"', program, *words]
    return subprocess.run(limited, cwd=room, stdin=subprocess.DEVNULL, capture_output=True, timeout=MOST_SECONDS)


def is_part(name, words):
    """Whether `parts` with these words puts a file of this name."""
    prefixes = [os.path.normpath(word) for word in words[1:]]
    return words[:1] == ["parts"] and any(
        name.startswith(prefix) and re.fullmatch(r"[0-9]+\.(csv|journal)", name[len(prefix) :]) for prefix in prefixes
    )


def fault_of(ended, words, statuses, before, after, named):
    """What is wrong with a run that ended so, or None."""
    status, complaint = ended.returncode, ended.stderr
    if status not in statuses:
        return f"ended with {status}"
    if any(after.get(name) != data for name, data in before.items() if name not in named):
        return "changed a file that it reads"
    if any(name not in before and name not in named and not is_part(name, words) for name in after):
        return "left another file"
    if status not in MAY_PUT and after != before:
        return f"put a file with status {status}"
    if status not in MAY_PUT and ended.stdout:
        return f"printed with status {status}"
    if status == 0 and complaint:
        return "complained with status 0"
    if status != 0 and not (complaint.startswith(b"meteragg: ") and complaint.endswith(b"\n")):
        return f"complained in another form with status {status}"
    return None


def sample_files(program, room):
    """Sets of files that the program accepts, each with what the program makes of them: the two examples, and the small
    one with lanes and spans of members."""
    sets = []
    for example, rows in (("north", b""), ("street", b""), ("north", ROWS)):
        for name in ("plan", "readings"):
            shutil.copy(os.path.join(EXAMPLES, example, name + ".csv"), os.path.join(room, name))
        with open(os.path.join(room, "plan"), "ab") as file:
            file.write(rows)
        run_in(room, program, "ring plan readings 2 report ringed 1".split())
        ended = run_in(room, program, "run plan readings report transcript 1".split())
        if ended.returncode != 0:
            sys.exit(f"fuzz: the example {example} ended with status {ended.returncode}")
        files = files_in(room)
        files["other"] = files["readings"]
        files.setdefault("ringed", b"")
        add_roles(program, room, files)
        files["public"] = public_text(files["plan"])
        files["tables"] = two_registers(files["readings"])
        files["old"] = old_text(files["transcript"])
        files["cut"] = files["transcript"][: len(files["transcript"]) * 2 // 3]
        sets.append(files)
    return sets


def add_roles(program, room, files):
    """Adds what a head end and a meter have, each with a journal; nothing where the program has none."""
    with tempfile.TemporaryDirectory(prefix="fuzz-") as other:
        write_files(other, {"plan": files["plan"], "public": public_text(files["plan"])})
        run_in(other, program, "parts plan 0 m".split())
        journal_of(program, other, files["transcript"])
        made = files_in(other)
    files["journal"], files["part"] = made.get("journal", b""), made.get("m1.csv", b"")
    files["noted"] = made.get("m1.journal", b"") + b"r,0,5\ns,0,-\n"


def known_commands(program, room, files):
    """The commands that the program has: on sample files each of them is done, or looks in vain."""
    known = []
    for command, statuses in COMMANDS:
        write_files(room, {name: files[name] for name in names_in(command, "<+")})
        ended = run_in(room, program, words_of(command))
        if ended.returncode in (0, 11):
            known.append((command, statuses))
        elif ended.returncode != 2:
            sys.exit(f"fuzz: the sample files of {command} ended with status {ended.returncode}")
    return known


def one_case(draw, known, sets, room):
    """Writes the files of a case, and gives its command, words and statuses."""
    command, statuses = draw.choice(known)
    # A small example is as good as the large one for most changes, and much faster.
    files = sets[draw.choice((0, 0, 0, 1, 1, 2, 2, 2))]
    read = names_in(command, "<+")
    files = {name: files[name] for name in read}
    words = words_of(command)
    if read and draw.random() < 0.95:
        name = draw.choice(read)
        files[name] = changed(draw, files[name])
    else:
        words = changed_words(draw, words)
    write_files(room, files)
    return command, words, statuses, files


def try_case(options, known, sets, number):
    """Runs a case: its status, its seconds, and what is wrong with it."""
    draw = random.Random(f"{options.seed}:{number}")
    room = tempfile.mkdtemp(prefix="fuzz-")
    command, words, statuses, before = one_case(draw, known, sets, room)
    named = names_put(words)
    if words != words_of(command):
        # Changed words may be another command, and each of them may be the name of a new file.
        statuses = set(range(12))
        named |= {path for path in map(os.path.normpath, words) if path not in before}
    started = time.monotonic()
    try:
        ended = run_in(room, options.program, words)
        fault = fault_of(ended, words, statuses, before, files_in(room), named)
        status = ended.returncode
    except subprocess.TimeoutExpired:
        status, fault = "late", f"had not ended after {MOST_SECONDS} s"
    seconds = time.monotonic() - started
    if fault or options.case is not None:
        print(f"case {number} of seed {options.seed} in {room}: {words} {fault or 'ended with ' + str(status)}", flush=True)
    else:
        shutil.rmtree(room)
    return command.split()[0], status, seconds, fault


def cases(options, known, sets):
    """Runs cases until the time is up, and gives what came of each."""
    if options.case is not None:
        yield try_case(options, known, sets, options.case)
        return
    stop = time.monotonic() + options.seconds

    def some(first):
        ended = []
        number = first
        while time.monotonic() < stop:
            ended.append(try_case(options, known, sets, number))
            number += options.jobs
        return ended

    with concurrent.futures.ThreadPoolExecutor(options.jobs) as pool:
        for ended in pool.map(some, range(options.jobs)):
            yield from ended


def main():
    parser = argparse.ArgumentParser(description="Runs the program on files and words that were changed at random.")
    parser.add_argument("--seconds", type=float, default=60)
    parser.add_argument("--seed", type=int, default=1)
    parser.add_argument("--jobs", type=int, default=1)
    parser.add_argument("--case", type=int)
    parser.add_argument("--quiet", action="store_true", help="print findings alone")
    parser.add_argument("--program", default=PROGRAM)
    options = parser.parse_args()
    options.program = os.path.abspath(options.program)
    with tempfile.TemporaryDirectory(prefix="fuzz-") as room:
        sets = sample_files(options.program, room)
    with tempfile.TemporaryDirectory(prefix="fuzz-") as room:
        known = known_commands(options.program, room, sets[0])
    statuses = collections.Counter()
    findings, slowest = 0, 0.0
    for name, status, seconds, fault in cases(options, known, sets):
        statuses[name, status] += 1
        findings += fault is not None
        slowest = max(slowest, seconds)
    if not options.quiet:
        for (name, status), count in sorted(statuses.items(), key=str):
            print(f"{name} status {status}: {count} runs")
        print(f"runs={sum(statuses.values())} findings={findings} slowest={slowest:.2f}s seed={options.seed}")
    return 1 if findings else 0


if __name__ == "__main__":
    sys.exit(main())
