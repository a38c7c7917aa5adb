#!/usr/bin/env python3
"""Refuses each call for memory, on a file and for a thread, in turn, in short runs of the built program.

    tests/refused_calls.py [--kind KIND] [--most N] [--program PROGRAM]

A small library is compiled by cc and put before the C library by LD_PRELOAD. It refuses call number N of one kind, and the
program is run with N = 1, 2, 3 .. until a run makes fewer calls. The kinds are

    memory   malloc, calloc, realloc and aligned_alloc find none
    open, read, write, fsync, fdatasync, rename     the call fails
    handle   the call for a second handle of a file fails
    lock     the call for the lock of a file fails
    thread   the call for a new thread fails
    threads  this call for a new thread and all later ones fail
    short    a read or write moves one byte in place of several

One line of a table is printed for each command and kind: how many runs, how they ended, and how many left something wrong:
another file than the command's own; a file that is neither what was there nor what the command puts; one of two new files without
the other, but where memory or a rename was refused; or, at the command's own status, other files or another output than where
nothing is refused. The exit status is 0 where each run ended with a
status that the kind has (memory: 1 or the command's own; short, handle, lock, thread and threads: the command's own; fsync,
fdatasync and rename: 4; the others: 3, 4 or the command's own) and left nothing wrong, and else 1.
"""
import argparse
import collections
import os
import subprocess
import sys
import tempfile

from fuzz import EXAMPLES, PROGRAM, files_in, names_in, sample_files, words_of, write_files

# Each command with the status that it ends with where nothing is refused. One worker, so that each run makes the same calls of a
# kind in the same order.
COMMANDS = [
    ("run <plan <readings >report >transcript 1", 0),
    ("run <plan <readings_with_a_fault >report >transcript 1", 6),
    ("twin <late_plan <readings <late_other <late_transcript >masks", 0),
    ("audit <transcript <report", 0),
    ("audit <transcript <report_of_61", 9),
    ("audit <made_transcript <made_report", 0),
    ("inspect <public <transcript <report", 0),
    ("convert <old >transcript", 0),
    ("make 1 1 2 1 >plan >readings", 0),
    ("load 1 4 8 2 1 >transcript", 0),
]

# A command whose transcript of 6 MB is written ahead in many parts: memory isn't refused, since it asks for it too often.
LARGE_COMMAND = ("load 1 8 20 96 1 >transcript", 0)
LARGE_KINDS = ("open", "write", "fsync", "fdatasync", "handle", "lock", "rename", "thread", "threads")

Usual = collections.namedtuple("Usual", "status printed files")

KINDS = ("memory", "open", "read", "write", "fsync", "fdatasync", "handle", "lock", "rename", "short", "thread", "threads")

SHIM = r"""
#define _GNU_SOURCE
#include <dlfcn.h>
#include <errno.h>
#include <fcntl.h>
#include <pthread.h>
#include <stdarg.h>
#include <stdatomic.h>
#include <stdlib.h>
#include <string.h>
#include <sys/syscall.h>
#include <unistd.h>

extern void *__libc_malloc(size_t), *__libc_calloc(size_t, size_t), *__libc_realloc(void *, size_t);
extern void *__libc_memalign(size_t, size_t);

static const char *kind;
static long refused;
static atomic_long calls;

__attribute__((constructor)) static void begin(void) {
    const char *number = getenv("REFUSE_CALL");
    kind = getenv("REFUSE_KIND");
    refused = number ? atol(number) : 0;
}

static int is_refused(const char *what) {
    if (!kind || strcmp(kind, what)) return 0;
    long number = atomic_fetch_add(&calls, 1) + 1;
    if (strcmp(what, "threads") ? number != refused : number < refused) return 0;
    syscall(SYS_close, syscall(SYS_open, getenv("REFUSE_TOLD"), O_CREAT | O_WRONLY, 0600));
    errno = strcmp(what, "memory") ? EIO : ENOMEM;
    return 1;
}

void *malloc(size_t n) { return is_refused("memory") ? 0 : __libc_malloc(n); }
void *calloc(size_t n, size_t m) { return is_refused("memory") ? 0 : __libc_calloc(n, m); }
void *realloc(void *p, size_t n) { return is_refused("memory") ? 0 : __libc_realloc(p, n); }
void *aligned_alloc(size_t a, size_t n) { return is_refused("memory") ? 0 : __libc_memalign(a, n); }

int open(const char *path, int flags, ...) {
    va_list rest;
    va_start(rest, flags);
    int mode = va_arg(rest, int);
    va_end(rest);
    return is_refused("open") ? -1 : syscall(SYS_open, path, flags, mode);
}

ssize_t read(int fd, void *buffer, size_t n) {
    if (is_refused("read")) return -1;
    return syscall(SYS_read, fd, buffer, n > 1 && is_refused("short") ? 1 : n);
}

ssize_t write(int fd, const void *buffer, size_t n) {
    if (is_refused("write")) return -1;
    return syscall(SYS_write, fd, buffer, n > 1 && is_refused("short") ? 1 : n);
}

int fcntl(int fd, int command, ...) {
    va_list rest;
    va_start(rest, command);
    long value = va_arg(rest, long);
    va_end(rest);
    return command == F_DUPFD_CLOEXEC && is_refused("handle") ? -1 : syscall(SYS_fcntl, fd, command, value);
}

int flock(int fd, int operation) {
    if (!is_refused("lock")) return syscall(SYS_flock, fd, operation);
    errno = ENOLCK;
    return -1;
}

int pthread_create(pthread_t *thread, const pthread_attr_t *how, void *(*work)(void *), void *given) {
    int (*real)(pthread_t *, const pthread_attr_t *, void *(*)(void *), void *) = dlsym(RTLD_NEXT, "pthread_create");
    return is_refused("thread") || is_refused("threads") ? EAGAIN : real(thread, how, work, given);
}

int fsync(int fd) { return is_refused("fsync") ? -1 : syscall(SYS_fsync, fd); }
int fdatasync(int fd) { return is_refused("fdatasync") ? -1 : syscall(SYS_fdatasync, fd); }
int rename(const char *from, const char *to) { return is_refused("rename") ? -1 : syscall(SYS_rename, from, to); }
"""


def compiled_shim(folder):
    source, shim = os.path.join(folder, "shim.c"), os.path.join(folder, "shim.so")
    with open(source, "w") as file:
        file.write(SHIM)
    subprocess.run(["cc", "-O1", "-shared", "-fPIC", "-fno-builtin", "-o", shim, source, "-ldl"], check=True)
    return shim


def run_with(program, words, room, told, shim=None, kind=None, number=0):
    """Runs the program, and tells its status, what it prints, and whether a call was refused."""
    environment = dict(os.environ)
    if shim:
        environment.update(LD_PRELOAD=shim, REFUSE_KIND=kind, REFUSE_CALL=str(number), REFUSE_TOLD=told)
    ended = subprocess.run(
        [program, *words], cwd=room, env=environment, stdin=subprocess.DEVNULL, capture_output=True, timeout=120
    )
    was_refused = os.path.exists(told)
    if was_refused:
        os.remove(told)
    return ended.returncode, ended.stdout, was_refused


def case_files(files, command):
    """What the command reads, and what stands under the names that it puts."""
    before = {name: files[name] for name in names_in(command, "<")}
    before.update((name, b"old\n") for name in names_in(command, ">"))
    return before


def allowed(kind, usual):
    """The statuses of a run in which a call of this kind is refused. What isn't on the disk is never put."""
    if kind in ("fsync", "fdatasync", "rename"):
        return {4}
    if kind in ("short", "handle", "lock", "thread", "threads"):
        return {usual}
    return {1, usual} if kind == "memory" else {3, 4, usual}


def is_wrong(kind, usual, status, printed, before, after):
    """Whether a run left something wrong, where `usual` is the run in which nothing is refused."""
    if status == usual.status:
        return after != usual.files or printed != usual.printed
    if not before.keys() <= after.keys():
        return True
    put = {name for name, data in after.items() if data != before.get(name)}
    all_put = {name for name, data in usual.files.items() if data != before.get(name)}
    if put and put != all_put and kind not in ("memory", "rename"):
        return True
    return any(after[name] != usual.files.get(name) for name in put)


def try_kind(options, shim, command, usual, kind, files):
    """Prints the line of the table for one command and kind, and tells whether all was as it has to be."""
    ended = collections.Counter()
    wrong = 0
    before = case_files(files, command)
    with tempfile.TemporaryDirectory(prefix="refused-") as folder:
        room, told = os.path.join(folder, "room"), os.path.join(folder, "told")
        os.mkdir(room)
        for number in range(1, options.most + 1):
            write_files(room, before)
            status, printed, was_refused = run_with(options.program, words_of(command), room, told, shim, kind, number)
            if not was_refused:
                break
            ended[status] += 1
            after = files_in(room)
            wrong += is_wrong(kind, usual, status, printed, before, after)
            for name in after.keys() - before.keys():
                os.remove(os.path.join(room, name))
    how = ", ".join(f"{count} with {status}" for status, count in sorted(ended.items()))
    name = f"`{' '.join(words_of(command))}` ends with {usual.status}"
    print(f"| {name} | {kind} | {sum(ended.values())} | {how} | {wrong} |", flush=True)
    return wrong == 0 and set(ended) <= allowed(kind, usual.status)


def run_whole(program, room, command):
    """Runs a command that has to end with status 0."""
    status, _, _ = run_with(program, command.split(), room, os.path.join(room, "told"))
    if status != 0:
        sys.exit(f"refused_calls: {command} ended with status {status}")


def made_files(program):
    """The files of the example `north`, and some that a command refuses; those of a run in which the reading of meter 2 comes
    late, with another table that agrees; and those of a made run of 4 groups of 8 meters."""
    with tempfile.TemporaryDirectory(prefix="refused-") as room:
        files = sample_files(program, room)[0]
    files["readings_with_a_fault"] = files["readings"].replace(b"30", b"03x")
    files["report_of_61"] = files["report"].replace(b"60", b"61")
    files["late_plan"] = files["plan"] + b"lane,rules,0.0.r.2=2,0,0\n"
    files["late_other"] = b"north,0,15,15,0\n"
    with tempfile.TemporaryDirectory(prefix="refused-") as room:
        write_files(room, {name: files[name] for name in ("late_plan", "readings")})
        run_whole(program, room, "run late_plan readings late_report late_transcript 1")
        run_whole(program, room, "make 1 4 8 2 made_plan made_readings")
        run_whole(program, room, "run made_plan made_readings made_report made_transcript 1")
        files.update(files_in(room))
    return files


def usual_run(program, command, files):
    """How the command ends where nothing is refused."""
    with tempfile.TemporaryDirectory(prefix="refused-") as folder:
        room = os.path.join(folder, "room")
        os.mkdir(room)
        write_files(room, case_files(files, command))
        status, printed, _ = run_with(program, words_of(command), room, os.path.join(folder, "told"))
        return Usual(status, printed, files_in(room))


def main():
    parser = argparse.ArgumentParser(description="Refuses calls in turn in runs of the program.")
    parser.add_argument("--kind", choices=KINDS, action="append")
    parser.add_argument("--most", type=int, default=100000, help="how many calls of a kind are refused at most")
    parser.add_argument("--program", default=PROGRAM)
    options = parser.parse_args()
    options.program = os.path.abspath(options.program)
    files = made_files(options.program)
    good = True
    print("| Run | Refused | Runs | Ended | Wrong |\n|---|---|---|---|---|")
    with tempfile.TemporaryDirectory(prefix="refused-") as folder:
        shim = compiled_shim(folder)
        for command, status, kinds in [(*command, KINDS) for command in COMMANDS] + [(*LARGE_COMMAND, LARGE_KINDS)]:
            usual = usual_run(options.program, command, files)
            # A command that the program doesn't have.
            if usual.status == 2:
                continue
            if usual.status != status:
                sys.exit(f"refused_calls: {command} ended with status {usual.status}")
            for kind in kinds:
                if kind in (options.kind or KINDS):
                    good &= try_kind(options, shim, command, usual, kind, files)
    return 0 if good else 1


if __name__ == "__main__":
    sys.exit(main())
