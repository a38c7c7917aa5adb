#!/usr/bin/env python3
"""Refuses calls of a head end and of a meter in turn, and looks at each moment whether what they said is on the disk.

    tests/role_disk.py [--kind KIND ..] [--program PROGRAM]

A head end is given a small course, and a meter its readings and announcements. Two libraries are compiled by cc and put before the C library.

The first one writes down the order of writes, cuts and flushes. At each moment at which something was said, the power could fail: then the
journal has at least what was flushed, and perhaps a beginning of what came after. A model that starts with such a journal has to say the same
again: the lines of each tick that was answered, with all frames that were called fresh before it, and each frame that a meter said.

The second one is that of `tests/refused_calls.py`: it refuses call number N of a kind, for N = 1, 2, 3 and so on. The program has to end with a
status that the kind has. What was said is the beginning of what is said else, and it is in the journal; and a start without refused calls
goes on from there as the model does.

The exit status is 0 where all is so, and else 1, with a line for each moment and each call that went wrong.
"""
import argparse
import collections
import itertools
import os
import subprocess
import sys
import tempfile

import role_model as model
from fuzz import PROGRAM
from refused_calls import compiled_shim
from role_fuzz import Courses, Room, first_difference, wanted

RECORDER = r"""
#define _GNU_SOURCE
#include <fcntl.h>
#include <limits.h>
#include <stdio.h>
#include <stdlib.h>
#include <string.h>
#include <sys/syscall.h>
#include <unistd.h>

// A line: what was done to which file, and how many bytes, or the size.
static void note(const char *what, int fd, long size) {
    char link[64], path[PATH_MAX], line[PATH_MAX + 64];
    snprintf(link, sizeof link, "/proc/self/fd/%d", fd);
    long got = syscall(SYS_readlink, link, path, sizeof path - 1);
    path[got < 0 ? 0 : got] = 0;
    const char *name = fd == 1 ? "said" : strrchr(path, '/') ? strrchr(path, '/') + 1 : path;
    int size_of_line = snprintf(line, sizeof line, "%s %s %ld\n", what, name, size);
    int log = syscall(SYS_open, getenv("ROLE_LOG"), O_WRONLY | O_APPEND | O_CREAT, 0600);
    syscall(SYS_write, log, line, size_of_line);
    syscall(SYS_close, log);
}

ssize_t write(int fd, const void *buffer, size_t n) {
    long done = syscall(SYS_write, fd, buffer, n);
    note("write", fd, done);
    return done;
}

int fsync(int fd) { int done = syscall(SYS_fsync, fd); note("flush", fd, 0); return done; }
int fdatasync(int fd) { int done = syscall(SYS_fdatasync, fd); note("flush", fd, 0); return done; }
int ftruncate(int fd, off_t size) { int done = syscall(SYS_ftruncate, fd, size); note("cut", fd, size); return done; }
int ftruncate64(int fd, off_t size) { int done = syscall(SYS_ftruncate, fd, size); note("cut", fd, size); return done; }
"""

# The statuses of a run of which a call of this kind is refused, beside 0 for a call that it can do without.
STATUSES = {
    "memory": {0, 1},
    "open": {0, 3, 4},
    "read": {3},
    "write": {4},
    "fsync": {4},
    "fdatasync": {4},
    "handle": {3},
    "lock": {0, 3},
    "rename": {4},
    "short": {0},
}

Course = collections.namedtuple("Course", "name place journal given")


def compiled_recorder(folder):
    source, library = os.path.join(folder, "recorder.c"), os.path.join(folder, "recorder.so")
    with open(source, "w") as file:
        file.write(RECORDER)
    subprocess.run(["cc", "-O1", "-shared", "-fPIC", "-fno-builtin", "-o", library, source], check=True)
    return library


def run(room, course, **environment):
    """Runs a course from its journal, with these words in the environment: its status, and what it said."""
    words, name = room.words(course.place)
    room.remove("report", name)
    if course.journal is not None:
        room.put(name, course.journal)
    all_words = {**os.environ, **environment}
    ended = subprocess.run([room.program, *words], cwd=room.path, env=all_words, input=course.given, capture_output=True, timeout=120)
    return ended.returncode, ended.stdout


def courses_of(all_courses):
    """The courses: a head end from no journal and from one with a rest, and a meter."""
    room, whole = all_courses.room, all_courses.journal
    announcement = b"frame," + model.Frame(model.ANNOUNCEMENT, 0, 1, 0, {2}).text() + b"\n"
    given = b"reading,0,10\nreading,0,11\nreading,1,20\n" + announcement * 2
    cut = whole[: len(whole) // 2]
    return [
        Course("a head end", None, None, all_courses.given + b"again\n"),
        Course("a head end that starts again", None, cut, all_courses.given + b"report\n"),
        Course("a meter", (0, 0), room.role((0, 0)).head() + b"r,0,1", given),
    ]


def moments(log, journal_name, before):
    """How much was said, and how much of the journal was flushed, at each write of the output; and whether its folder was."""
    size = flushed = before
    said, is_named = 0, False
    for line in log.splitlines():
        what, name, number = line.rsplit(" ", 2)
        if name == journal_name:
            size = {"write": size + int(number), "cut": int(number), "flush": size}[what]
            flushed = {"write": flushed, "cut": min(flushed, size), "flush": size}[what]
        elif what == "flush":
            is_named = True
        elif name == "said":
            said += int(number)
            yield said, flushed, is_named


def head_end_lost(role, lines):
    """What a head end that starts with a journal doesn't have of what was said: the lines of each tick, with all that it took fresh before."""
    for at, line in enumerate(lines):
        if line.startswith(b"ticked,"):
            tick = int(line[len(b"ticked,") :])
            if tick >= role.ticks and tick < role.plan.ticks:
                return f"tick {tick}"
            again = [*role.tick_lines(tick), line]
            if lines[at + 1 - len(again) : at + 1] != again:
                return f"the lines of tick {tick}"
    return None


def frames_lost(role, given, lines):
    """Which frame that was called fresh before the last tick that was answered isn't in the journal."""
    ticks = [at for at, line in enumerate(lines) if line.startswith(b"ticked,")]
    words = (b"fresh", b"again", b"late", b"void", b"differs", b"refused")
    verdicts = [(at, line) for at, line in enumerate(lines) if line.split(b",")[0] in words]
    frames = [line for line in given.split(b"\n") if line.startswith(b"frame,")]
    for (at, verdict), line in zip(verdicts, frames):
        frame = model.frame_of(line[len(b"frame,") :])
        taken = role.readings if frame.kind == model.READING else role.answers
        if verdict == b"fresh" and ticks and at < ticks[-1] and taken.get(frame.place) != frame.word:
            return line
    return None


def meter_lost(role, given, lines):
    """Which frame that a meter said it would not say again, or with another line in its journal."""
    before = list(role.journal)
    answers = [answer for line in given.split(b"\n")[:-1] for answer in model.answers(role, line)]
    said = [line for line in lines if line.startswith(b"frame,")]
    if [answer for answer in answers if answer.startswith(b"frame,")][: len(said)] != said:
        return "another frame"
    return None if len(before) >= len(set(said)) else "a frame that isn't in the journal"


def try_moments(room, course, recorder):
    """Looks at each moment of a course whether a loss of power takes what was said."""
    log = os.path.join(room.path, "log")
    room.remove("log")
    status, said = run(room, course, LD_PRELOAD=recorder, ROLE_LOG=log)
    if status:
        yield f"status {status}"
        return
    _, name = room.words(course.place)
    journal, count = room.get(name), 0
    with open(log) as file:
        text = file.read()
    for until, flushed, is_named in moments(text, name, len(course.journal or b"")):
        count += 1
        lines = said[:until].split(b"\n")[:-1]
        if not is_named:
            yield f"behind {until} bytes the journal's name isn't on the disk"
        # Of what wasn't flushed, nothing or a beginning is there.
        for size in {flushed, min(flushed + 50, len(journal)), len(journal)}:
            role = room.role(course.place)
            wrong = model.begin(role, journal[:size]) or (None if journal[:size].startswith(role.head()) else "no head")
            if course.place is None:
                wrong = wrong or head_end_lost(role, lines) or frames_lost(role, course.given, lines)
            else:
                wrong = wrong or meter_lost(role, course.given, lines)
            if wrong:
                yield f"behind {until} bytes, with {size} bytes of the journal: {wrong}"
    if count < 5:
        yield "the recorder saw nothing"


def left_wrong(room, course, said, whole):
    """What is wrong with what was said, the journal, and the next start from it."""
    _, name = room.words(course.place)
    if not whole.startswith(said):
        yield f"it says {first_difference(said, whole)}"
    left = room.get(name)
    if left is None and course.place is not None:
        yield "the journal is gone"
        return
    role = room.role(course.place)
    if model.begin(role, left or b""):
        yield "the journal is none"
        return
    lines = said.split(b"\n")[:-1]
    lost = head_end_lost(role, lines) or frames_lost(role, course.given, lines) if course.place is None else meter_lost(role, course.given, lines)
    if lost:
        yield f"the journal lacks {lost}"
    role = room.role(course.place)
    status, says = run(room, course._replace(journal=left))
    expected = wanted(role, name, left, course.given)
    if (status, says, room.get(name)) != (expected[0], expected[1], expected[3]):
        yield f"going on, it says {first_difference(says, expected[1])}"


def try_refused(room, course, shim, kinds):
    """Refuses the calls of a course, one after another."""
    status, whole = run(room, course)
    if status:
        yield f"status {status}"
    told = os.path.join(room.path, "told")
    for kind in kinds:
        number, was_refused = 0, True
        while was_refused:
            number += 1
            room.remove("told")
            status, said = run(room, course, LD_PRELOAD=shim, REFUSE_KIND=kind, REFUSE_CALL=str(number), REFUSE_TOLD=told)
            was_refused = os.path.exists(told)
            if was_refused and status not in STATUSES[kind]:
                yield f"{kind} {number}: status {status}"
            elif was_refused:
                yield from (f"{kind} {number}: {wrong}" for wrong in left_wrong(room, course, said, whole))


def main():
    heading, _, rest = __doc__.partition("\n\n")
    parser = argparse.ArgumentParser(description=heading, epilog=rest, formatter_class=argparse.RawDescriptionHelpFormatter)
    parser.add_argument("--kind", choices=STATUSES, action="append", help="refuse calls of this kind alone; may stand several times")
    parser.add_argument("--program", default=PROGRAM)
    options = parser.parse_args()
    options.program = os.path.abspath(options.program)
    kinds, count = options.kind or STATUSES, 0
    with tempfile.TemporaryDirectory(prefix="role-disk-") as folder:
        recorder, shim = compiled_recorder(folder), compiled_shim(folder)
        all_courses = Courses(options)
        for course in courses_of(all_courses):
            for wrong in itertools.chain(try_moments(all_courses.room, course, recorder), try_refused(all_courses.room, course, shim, kinds)):
                count += 1
                print(f"{course.name}: {wrong}", flush=True)
        all_courses.room.end()
    return 1 if count else 0


if __name__ == "__main__":
    sys.exit(main())
