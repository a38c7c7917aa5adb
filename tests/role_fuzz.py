#!/usr/bin/env python3
"""Feeds the head end and the meter that stand apart, and compares all that they say and keep with a model of them.

    tests/role_fuzz.py [--seconds S] [--seed N] [--case N] [--every] [--quiet] [--program PROGRAM]

`tests/role_model.py` is the model. Each case has a number, and its seed and number make the whole of it: a plan, a journal that earlier
lines left, perhaps cut or changed, and lines: right ones, right ones with bytes changed, frames of rounds that are over, far ahead or of
another plan, ticks, lines of a megabyte, and others. The program has to end with the model's status, say byte by byte what the model says,
and leave the model's journal and report. --case does one of them again, and keeps its folder.

Before these come courses that are the same each time:

- ten thousand repeats of a frame, lines of a megabyte with and without newline, and each byte of each kind of line changed;
- a journal cut at bytes of it, with --every at each: the start says what the rest gives, and from then on the same answers;
- a journal of another plan, one that is locked, one that isn't there, and one that is a folder;
- a disk that is full behind so many bytes of the journal, and an output that is closed: all that was said is in the journal.

The exit status is 0 where all is so, and else 1, with a line for each that ended otherwise.
"""
import argparse
import fcntl
import os
import random
import resource
import shutil
import signal
import subprocess
import sys
import tempfile
import time

import role_model as model
from fuzz import PROGRAM

MOST_SECONDS = 60
MEGABYTE = 1 << 20
REPEATS = 10000
PLANS = 40
HEADING = "plan,1\nrounds,{}\nwindows,{},{}\n"


def key(draw):
    return draw.randbytes(32).hex()


def plan_text(draw):
    """A small plan file."""
    rounds, groups = draw.randint(1, 4), draw.randint(1, 2)
    sizes = [draw.randint(2, 4) for _ in range(groups)]
    text = HEADING.format(rounds, draw.randint(1, 2), draw.randint(2, 3))
    text += "".join(f"group,g{group},{size},{draw.randint(2, size)}\n" for group, size in enumerate(sizes))
    for group, size in enumerate(sizes):
        text += "".join(f"own,{group},{meter},{key(draw)}\n" for meter in range(size))
        text += "".join(f"pair,{group},{low},{high},{key(draw)}\n" for high in range(size) for low in range(high))
        if rounds > 1 and draw.random() < 0.5:
            text += f"member,{group},{draw.randrange(size)},{draw.randint(0, 1)},{rounds}\n"
    return text


class Room:
    """A folder with the files of a plan: the public plan, and what each meter has, as the program writes them."""

    def __init__(self, program, text):
        self.program, self.path = program, tempfile.mkdtemp(prefix="role-fuzz-")
        self.put("plan", text.encode())
        self.plan = model.Plan(text)
        self.places = [(group, meter) for group, (_, size, _) in enumerate(self.plan.groups) for meter in range(size)]
        self.call("public", "plan", "public")
        for group in range(len(self.plan.groups)):
            self.call("parts", "plan", str(group), f"g{group}m")

    def put(self, name, data):
        with open(os.path.join(self.path, name), "wb") as file:
            file.write(data)

    def get(self, name):
        if not os.path.exists(os.path.join(self.path, name)):
            return None
        with open(os.path.join(self.path, name), "rb") as file:
            return file.read()

    def remove(self, *names):
        for name in names:
            if os.path.exists(os.path.join(self.path, name)):
                os.remove(os.path.join(self.path, name))

    def call(self, *words):
        ended = subprocess.run([self.program, *words], cwd=self.path, capture_output=True)
        if ended.returncode:
            sys.exit(f"role_fuzz: {' '.join(words)} ended with status {ended.returncode} in {self.path}")

    def words(self, place):
        """The command of the head end, or of the meter of a place, with its journal."""
        if place is None:
            return ["collect", "public", "journal", "report"], "journal"
        name = "g{}m{}".format(*place)
        return ["meter", name + ".csv", name + ".journal"], name + ".journal"

    def role(self, place):
        """The model of it."""
        return model.HeadEnd(self.plan) if place is None else model.Meter(self.get("g{}m{}.csv".format(*place)).decode())

    def end(self):
        shutil.rmtree(self.path)


def run(room, words, given, limit=None, output=subprocess.PIPE):
    """How the program ends with this input, where a file may have at most so many bytes."""

    def limited():
        # As a shell that ignores it, so that a file that is too long fails and doesn't kill.
        signal.signal(signal.SIGXFSZ, signal.SIG_IGN)
        if limit is not None:
            resource.setrlimit(resource.RLIMIT_FSIZE, (limit, limit))

    return subprocess.run(
        [room.program, *words], cwd=room.path, input=given, stdout=output, stderr=subprocess.PIPE, timeout=MOST_SECONDS, preexec_fn=limited
    )


def run_to(room, given, output):
    """How a head end ends without a journal whose output goes there: its status, its complaint, and that it can complain."""
    words, name = room.words(None)
    room.remove("report", name)
    ended = run(room, words, given, output=output)
    return ended.returncode, ended.stderr, True


def run_closed(room, given, streams):
    """The same where a shell closes streams, as `>&-` does."""
    words, name = room.words(None)
    room.remove("report", name)
    script = f'exec "$0" "$@" {streams}'
    ended = subprocess.run(["sh", "-c", script, room.program, *words], cwd=room.path, input=given, capture_output=True, timeout=MOST_SECONDS)
    return ended.returncode, ended.stderr, "2>" not in streams


def wanted(role, name, journal, given):
    """What the model comes to: the status, what is said, the complaint, the journal, and the report where there is one."""
    wrong = model.begin(role, journal) if journal is not None else None
    if wrong is not None:
        return 7, b"", f"meteragg: {name} line {wrong[0]}: {wrong[1]}\n".encode(), journal, None
    said = model.said(role, given)
    report = None
    if isinstance(role, model.HeadEnd):
        said += role.summary() + b"\n"
        report = role.report()
    return 0, said, b"", model.kept(role), report


def differences(room, place, journal, given):
    """In what a run of the program differs from the model, with this journal and this input."""
    words, name = room.words(place)
    room.remove("report", name)
    if journal is not None:
        room.put(name, journal)
    ended = run(room, words, given)
    status, said, complaint, kept, report = wanted(room.role(place), name, journal, given)
    wrong = []
    if ended.returncode != status:
        wrong.append(f"status {ended.returncode} in place of {status}")
    if ended.stdout != said:
        wrong.append(f"it says {first_difference(ended.stdout, said)}")
    if ended.stderr != complaint:
        wrong.append(f"it complains {ended.stderr!r} in place of {complaint!r}")
    if room.get(name) != kept:
        wrong.append(f"the journal has {first_difference(room.get(name), kept)}")
    if room.get("report") != report:
        wrong.append("another report")
    return wrong


def first_difference(found, expected):
    """The first line that differs, of two texts."""
    if found is None or expected is None:
        return f"{found!r} in place of {expected!r}"
    pairs = enumerate(zip(found.split(b"\n") + [None], expected.split(b"\n") + [None]), 1)
    at, (one, other) = next(((at, pair) for at, pair in pairs if pair[0] != pair[1]), (0, (b"", b"")))
    return f"{one!r:.200} in place of {other!r:.200} in line {at}"


class Lines:
    """Draws lines that a head end, or the meter of a place, may hear: those of a course of the plan, and what comes of changing them."""

    def __init__(self, draw, room, place):
        self.draw, self.room, self.plan, self.to = draw, room, room.plan, place
        self.meters = {place: room.role(place) for place in room.places}
        self.head = model.HeadEnd(self.plan)

    def place(self):
        """A place, mostly one of the plan, and of the meter that hears."""
        draw = self.draw
        group, meter = draw.choice([self.to or draw.choice(self.room.places)] * 9 + [draw.choice(self.room.places)])
        round_ = draw.choice([draw.randrange(self.plan.rounds)] * 40 + [self.plan.rounds, 4096, (1 << 32) - 1])
        return draw.choice([group] * 40 + [len(self.plan.groups), 65535]), round_, draw.choice([meter] * 40 + [255])

    def reading(self):
        group, round_, meter = self.place()
        value = self.draw.choice([1] * 12 + [2, 0, (1 << 40) - 1, 1 << 40, (1 << 64) - 1])
        return (group, meter), b"reading,%d,%d" % (round_, value)

    def missing(self, group, round_, meter):
        """A missing set: mostly that of the course so far, or one of a few."""
        if not self.plan.has(group, round_, meter):
            return set()
        known = self.head.missing(group, round_) if self.to is None else self.draw.choice((set(), {0, 1, 2} - {meter}))
        return self.draw.choice([known] * 12 + [set(), {self.draw.randrange(4)}, {255}, known ^ {meter}])

    def frame(self):
        """A frame of drawn fields."""
        draw = self.draw
        group, round_, meter = self.place()
        kinds = (model.READING, model.ANSWER) if self.to is None else (model.ANNOUNCEMENT,)
        kind = draw.choice(kinds * 8 + (model.READING, model.ANNOUNCEMENT, model.ANSWER))
        is_odd = draw.random() < 0.03
        word = draw.choice((1, 1, 1, 1, 0, model.MODULUS - 1)) if kind != model.ANNOUNCEMENT or is_odd else 0
        missing = self.missing(group, round_, meter) if kind != model.READING or is_odd else set()
        return model.Frame(kind, group, round_, meter, missing, word).text()

    def said_frame(self):
        """A frame that a meter says in the course so far."""
        (group, meter), line = self.reading()
        if (group, meter) not in self.meters:
            return self.frame()
        said = model.answers(self.meters[group, meter], line)[0]
        return said[len(b"frame,") :] if said.startswith(b"frame,") else self.frame()

    def right(self):
        """A line as one comes in a course."""
        draw = self.draw
        if self.to is not None:
            return draw.choice((lambda: self.reading()[1], lambda: b"frame," + self.frame()))()
        tick = draw.choice([self.head.ticks] * 8 + [self.head.ticks + 1, draw.randrange(self.plan.ticks + 2)])
        frames = [b"frame," + self.said_frame()] * 8 + [b"frame," + self.frame()] * 12
        line = draw.choice([b"tick,%d" % tick] * 2 + frames + [draw.choice((b"again", b"report"))])
        model.answers(self.head, line)
        return line

    def changed(self, line):
        """The line with a byte or a field changed, or another one."""
        draw = self.draw
        at = draw.randrange(len(line) + 1)
        fields = line.split(b",")
        other = draw.choice([*model.ANSWERS, b"tick", b"frame", b"reading", b"again", b"report", b"", b"01", b"-1", b"+1", b" 1"])
        fields[draw.randrange(len(fields))] = other
        return draw.choice((
            lambda: line[:at] + bytes([draw.randrange(256)]) + line[at + 1 :],
            lambda: line[:at] + line[at + 1 :],
            lambda: line[:at] + draw.randbytes(1) + line[at:],
            lambda: line[:at],
            lambda: line.upper(),
            lambda: line[:6] + line[6:].upper(),
            lambda: line + b"\r",
            lambda: line + b",",
            lambda: b",".join(fields),
            lambda: draw.choice(model.ANSWERS),
            lambda: draw.choice(model.ANSWERS) + b",1",
            lambda: draw.randbytes(draw.choice((1, 5, 40))),
            lambda: b"x" * draw.choice((4095, 4096, 4097, 70000)),
            lambda: line + b" " * (4096 - len(line) + draw.randint(0, 1)),
        ))()

    def some(self, count):
        """Bytes of so many lines, perhaps with a rest behind them."""
        draw = self.draw
        lines = [self.right() for _ in range(count)]
        lines = [self.changed(line) if draw.random() < 0.15 else line for line in lines]
        rest = draw.choice((b"", b"", b"tick,0", b"again", b"frame," + self.frame()))
        return b"".join(line + b"\n" for line in lines) + rest


def changed_journal(draw, journal):
    """A journal that is cut or changed, or whole."""
    if not journal or draw.random() < 0.4:
        return journal
    at = draw.randrange(len(journal))
    lines = journal.split(b"\n")
    one, other = draw.randrange(len(lines)), draw.randrange(len(lines))
    doubled = b"\n".join(lines[:one] + [lines[other]] + lines[one:])
    flipped = journal[:at] + bytes([journal[at] ^ 1 << draw.randrange(8)]) + journal[at + 1 :]
    return draw.choice((journal[:at], journal[:at], journal[:at], flipped, doubled, journal + draw.choice((b"t\n", b"x\n", b"\n", b"f,"))))


def try_case(options, number, rooms):
    """Runs a case: what is wrong with it. Its plan is one of a few."""
    draw = random.Random(f"{options.seed}:{number}")
    plan = number % PLANS
    if plan not in rooms:
        rooms[plan] = Room(options.program, plan_text(random.Random(f"{options.seed}:plan {plan}")))
    room = rooms[plan]
    place = draw.choice([None, None, draw.choice(room.places)])
    lines = Lines(draw, room, place)
    # What an earlier course left.
    before = room.role(place)
    model.said(before, lines.some(draw.randrange(60)))
    journal = changed_journal(draw, model.kept(before))
    if place is None and draw.random() < 0.2:
        journal = None
    if place is not None and journal is None:
        journal = before.head()
    wrong = differences(room, place, journal, lines.some(draw.randrange(60)))
    if wrong or options.case is not None:
        print(f"case {number} of seed {options.seed} in {room.path}: {'; '.join(wrong) or 'as it has to be'}", flush=True)
        del rooms[plan]
    return wrong


class Courses:
    """The courses that are the same each time, on one small plan, and how many went wrong."""

    def __init__(self, options):
        self.options, self.wrong = options, 0
        draw = random.Random(7)
        self.room = Room(options.program, HEADING.format(2, 1, 2) + self.rows(draw))
        self.lines = Lines(draw, self.room, None)
        self.given = self.course()
        head = self.room.role(None)
        model.said(head, self.given)
        self.journal = model.kept(head)

    def rows(self, draw):
        own = "".join(f"own,0,{meter},{key(draw)}\n" for meter in range(3))
        pairs = "".join(f"pair,0,{low},{high},{key(draw)}\n" for low, high in ((0, 1), (0, 2), (1, 2)))
        return "group,north,3,2\n" + own + pairs

    def course(self):
        """What a head end is given in a course of all rounds: meter 2 is missing in round 1, and is late."""
        head, given = self.room.role(None), []

        def give(line):
            given.append(line)
            return model.answers(head, line)

        for tick in range(self.room.plan.ticks):
            for place in self.room.places if tick < 2 else ():
                line = model.answers(self.lines.meters[place], b"reading,%d,%d" % (tick, 10 + place[1]))[0]
                if (tick, place[1]) != (1, 2):
                    give(line)
            for line in give(b"tick,%d" % tick):
                if line.startswith(b"frame,"):
                    frame = model.frame_of(line[len(b"frame,") :])
                    given += model.answers(self.lines.meters[frame.group, frame.meter], line)
                    model.answers(head, given[-1])
        return b"".join(line + b"\n" for line in given)

    def tell(self, name, wrong):
        if wrong:
            self.wrong += 1
            print(f"{name}: {'; '.join(wrong)} in {self.room.path}", flush=True)

    def compare(self, name, place, journal, given):
        self.tell(name, differences(self.room, place, journal, given))

    def repeats(self):
        frame = self.given.split(b"\n")[0]
        self.compare("ten thousand repeats", None, None, (frame + b"\n") * REPEATS + b"tick,0\n")
        meter = b"reading,0,5\n" * REPEATS
        self.compare("ten thousand readings", (0, 0), self.room.role((0, 0)).head(), meter)
        self.compare("ten thousand ticks", None, None, b"tick,0\n" * REPEATS)

    def long_lines(self):
        for size in (4096, 4097, 65535, 65536, 65537, MEGABYTE):
            for rest in (b"", b"\n", b"\n" + self.given):
                self.compare(f"a line of {size} bytes", None, None, b"tick,0\n" + b"f" * size + rest)
        self.compare("a rest", None, None, self.given + b"tick,1")
        self.compare("no input", None, None, b"")
        self.compare("zeros and carriage returns", None, None, b"\0\n\r\ntick,0\r\n" + self.given.replace(b"\n", b"\r\n"))

    def numbers(self):
        """Numbers at the edges: those of 2^64 or more are none."""
        for number in (b"4294967296", b"18446744073709551615", b"18446744073709551616", b"9" * 4000):
            self.compare(f"tick {number[:30]}", None, None, b"tick," + number + b"\n")
            self.compare(f"round {number[:30]}", (0, 0), self.room.role((0, 0)).head(), b"reading," + number + b",1\n")
            self.compare(f"reading {number[:30]}", (0, 0), self.room.role((0, 0)).head(), b"reading,0," + number + b"\n")

    def bytes(self):
        """Each byte of each kind of line is another one, or gone."""
        frames = [line for line in self.given.split(b"\n") if line.startswith(b"frame,")]
        announcement = b"frame," + model.Frame(model.ANNOUNCEMENT, 0, 0, 0, {1}).text()
        for place, journal, lines in (
            (None, None, [frames[0], b"tick,0", b"again", b"report", frames[-1], announcement]),
            (None, self.journal[: len(self.journal) * 2 // 3], [frames[-1], b"tick,1", b"tick,10"]),
            ((0, 0), self.room.role((0, 0)).head() + b"r,0,10\n", [b"reading,0,10", b"reading,1,1099511627775", announcement]),
        ):
            for line in lines:
                others = (b"", b"0", b"9", b"F", b",", b"\0", b"\xff")
                some = [line[:at] + other + line[at + 1 :] for at in range(len(line)) for other in others]
                some += [line[:at] + bytes([line[at] ^ 1]) + line[at + 1 :] for at in range(len(line))]
                given = b"".join(it + b"\n" for it in some if b"\n" not in it)
                self.compare(f"changes of {line[:20]}", place, journal, given)

    def cuts(self):
        """Starts with a journal that is cut, and gives all once more."""
        sizes = set(range(len(self.journal) + 1))
        if not self.options.every:
            ends = [at for at in sizes if self.journal[at - 1 : at] == b"\n"]
            near = {at + by for at in ends[::3] for by in (-1, 0, 1)} & sizes
            sizes = near | set(random.Random(1).sample(sorted(sizes), 20))
        for size in sorted(sizes):
            self.compare(f"a journal cut behind {size} bytes", None, self.journal[:size], b"again\n" + self.given)
        meter, (_, name) = self.room.role((0, 0)), self.room.words((0, 0))
        given = b"reading,0,10\nreading,1,20\nframe," + model.Frame(model.ANNOUNCEMENT, 0, 1, 0, {2}).text() + b"\n"
        model.said(meter, given)
        journal, other = model.kept(meter), b"frame," + model.Frame(model.ANNOUNCEMENT, 0, 1, 0, {1}).text() + b"\nreading,0,11\n"
        for size in range(0, len(journal) + 1, 1 if self.options.every else 3):
            self.compare(f"{name} cut behind {size} bytes", (0, 0), journal[:size], other + given)

    def others(self):
        """Journals that are of another plan, locked, or none."""
        other = self.journal.replace(b"windows,1,2", b"windows,1,3")
        self.compare("a journal of another plan", None, other, self.given)
        self.compare("a journal of another meter", (0, 0), self.room.role((0, 1)).head(), b"reading,0,1\n")
        self.compare("a meter's journal with a head end", None, self.room.role((0, 1)).head(), self.given)
        words, name = self.room.words(None)
        self.room.remove("report")
        self.room.put(name, self.journal)
        with open(os.path.join(self.room.path, name), "rb") as held:
            fcntl.flock(held, fcntl.LOCK_EX)
            self.refused("a locked journal", words, 3, f"cannot read {name}")
        self.two_at_once()
        self.plan_gone()
        self.room.remove(name)
        os.mkdir(os.path.join(self.room.path, name))
        self.refused("a folder in place of a journal", words, 3, f"cannot read {name}")
        os.rmdir(os.path.join(self.room.path, name))
        words, name = self.room.words((0, 0))
        self.room.remove(name)
        self.refused("no journal of a meter", words, 3, f"cannot read {name}")
        if self.room.get(name) is not None:
            self.tell("no journal of a meter", ["there is one now"])

    def two_at_once(self):
        """A second head end on the journal of one that runs, and one more when that has ended."""
        words, name = self.room.words(None)
        first = subprocess.Popen([self.room.program, *words], cwd=self.room.path, stdin=subprocess.PIPE, stdout=subprocess.PIPE)
        first.stdout.readline()
        first.stdout.readline()
        self.refused("a second head end", words, 3, f"cannot read {name}")
        first.stdin.close()
        first.stdout.read()
        first.stdout.close()
        if first.wait() != 0 or self.room.get(name) != self.journal:
            self.tell("two head ends", ["the first one is hurt"])
        self.compare("a head end after another", None, self.journal, b"again\n")

    def plan_gone(self):
        """The public plan is removed while a head end runs, and the report is put again and again: it may get the plan's inode."""
        words, name = self.room.words(None)
        self.room.remove("report", name)
        plan = self.room.get("public")
        head = subprocess.Popen([self.room.program, *words], cwd=self.room.path, stdin=subprocess.PIPE, stdout=subprocess.PIPE)
        head.stdout.readline()
        head.stdout.readline()
        self.room.remove("public")
        said, _ = head.communicate(b"report\n" * 6, timeout=MOST_SECONDS)
        self.room.put("public", plan)
        if head.returncode != 0 or said.count(b"reported\n") != 6:
            self.tell("a plan that is gone", [f"status {head.returncode}, {said!r}"])

    def refused(self, name, words, status, complaint):
        ended = run(self.room, words, self.given)
        if (ended.returncode, ended.stdout, ended.stderr) != (status, b"", f"meteragg: {complaint}\n".encode()):
            self.tell(name, [f"status {ended.returncode}, {ended.stdout!r:.100}, {ended.stderr!r}"])

    def full_disk(self):
        """The journal can have so many bytes and no more: all that was said is in it, and a start without the limit goes on."""
        words, name = self.room.words(None)
        whole = wanted(self.room.role(None), name, None, self.given)[1]
        sizes = range(0, len(self.journal), 1 if self.options.every else 37)
        for size in sizes:
            self.room.remove("report", name)
            ended = run(self.room, words, self.given, limit=size)
            wrong = []
            if ended.returncode != 4 or ended.stderr != f"meteragg: cannot write {name}\n".encode():
                wrong.append(f"status {ended.returncode}, {ended.stderr!r}")
            wrong += self.unbacked(name, ended.stdout, whole)
            self.tell(f"a disk full behind {size} bytes", wrong)
            left = self.room.get(name)
            self.compare(f"going on from a disk full behind {size} bytes", None, left, self.given)

    def unbacked(self, name, said, whole):
        """Whether something was said that isn't in the journal, or that isn't the beginning of what is to be said."""
        role = self.room.role(None)
        if not whole.startswith(said):
            return [f"it says {first_difference(said, whole)}"]
        if model.begin(role, self.room.get(name) or b"") is not None:
            return ["the journal isn't one"]
        fresh, ticks = said.count(b"fresh\n"), said.count(b"\nticked,")
        if fresh > sum(line != b"t" for line in role.journal) or ticks > role.ticks:
            return [f"{fresh} fresh frames and {ticks} ticks were said, and the journal lacks some"]
        return []

    def no_output(self):
        """Nobody reads what it says, or the output takes nothing, or isn't open."""
        reader, writer = os.pipe()
        os.close(reader)
        with open("/dev/full", "wb") as full, os.fdopen(writer, "wb") as unread:
            for name, output in (("full", full), ("unread", unread)):
                self.unsaid(f"an output that is {name}", *run_to(self.room, self.given, output))
        for streams in (">&-", "<&- >&-", ">&- 2>&-", "<&- >&- 2>&-"):
            self.unsaid(f"streams closed by {streams}", *run_closed(self.room, self.given, streams))
        # An input that is closed is empty.
        status, _, _ = run_closed(self.room, b"", "<&- 2>&-")
        if status != 0 or self.room.get("journal") != self.room.role(None).head():
            self.tell("a closed input", [f"status {status}"])

    def unsaid(self, name, status, complaint, is_open):
        """A head end that can't say anything has a journal with its head, and puts no report."""
        if status != 4 or (is_open and complaint != b"meteragg: cannot print\n"):
            self.tell(name, [f"status {status}, {complaint!r}"])
        if self.room.get("journal") != self.room.role(None).head() or self.room.get("report") is not None:
            self.tell(name, ["the journal or a report"])

    def all(self):
        for course in (self.repeats, self.long_lines, self.numbers, self.bytes, self.cuts, self.others, self.full_disk, self.no_output):
            course()
        self.compare("a whole course", None, None, self.given)
        if not self.wrong:
            self.room.end()
        return self.wrong


def main():
    heading, _, rest = __doc__.partition("\n\n")
    parser = argparse.ArgumentParser(description=heading, epilog=rest, formatter_class=argparse.RawDescriptionHelpFormatter)
    parser.add_argument("--seconds", type=float, default=20)
    parser.add_argument("--seed", type=int, default=1)
    parser.add_argument("--case", type=int)
    parser.add_argument("--every", action="store_true", help="cut the journals at each byte")
    parser.add_argument("--quiet", action="store_true", help="print findings alone")
    parser.add_argument("--program", default=PROGRAM)
    options = parser.parse_args()
    options.program = os.path.abspath(options.program)
    if options.case is not None:
        return 1 if try_case(options, options.case, {}) else 0
    wrong = Courses(options).all()
    stop, number, rooms = time.monotonic() + options.seconds, 0, {}
    while time.monotonic() < stop:
        wrong += bool(try_case(options, number, rooms))
        number += 1
    for room in rooms.values():
        room.end()
    if not options.quiet:
        print(f"runs={number} findings={wrong} seed={options.seed}")
    return 1 if wrong else 0


if __name__ == "__main__":
    sys.exit(main())
