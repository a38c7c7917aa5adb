"""What the scripts that measure runs of the program share: how they fail, find the program and call it, draw, and read numbers."""
import argparse
import os
import subprocess
import sys

HERE = os.path.dirname(os.path.realpath(__file__))
NAME = os.path.basename(sys.argv[0])
MOST_READINGS = 131072
COLORS = ("#1f4e79", "#b03a2e", "#1e8449", "#b9770e", "#6c3483", "#17808a", "#555555", "#a0527a")


def plain(text):
    """The text with each control byte as \\x and two digits."""
    return "".join(f"\\x{ord(it):02x}" if it < " " or it == "\x7f" else it for it in text)


def fail(text):
    sys.exit(f"{NAME}: {plain(text)}")


def call(*words):
    """What the program says, which has to end with 0."""
    ran = subprocess.run(words, stdout=subprocess.PIPE, stderr=subprocess.PIPE, text=True, errors="replace")
    if ran.returncode:
        fail(f"{words[1]} ended with status {ran.returncode}: {ran.stderr.strip()}")
    return ran.stdout


def draw(text, folder):
    """Has gnuplot draw a text's pictures into a folder."""
    ran = subprocess.run(["gnuplot"], input=text, text=True, cwd=folder, stderr=subprocess.PIPE)
    if ran.returncode:
        fail(f"gnuplot could not draw the picture: {ran.stderr.strip()}")


def program_named():
    """The program that METERAGG names, or the one of this checkout or archive."""
    built = f"{HERE}/../crates/meteragg/out/meteragg" if os.path.isdir(f"{HERE}/../crates") else f"{HERE}/../meteragg"
    named = os.environ.get("METERAGG") or built
    if named == "--unproved":
        ran = subprocess.run([f"{HERE}/../meteragg", "--unproved", "--program"], stdout=subprocess.PIPE, text=True)
        if ran.returncode:
            sys.exit(ran.returncode)
        named = ran.stdout.rstrip("\n")
    if not os.access(named, os.X_OK):
        fail("there is no program; the first ./meteragg run builds it")
    return os.path.realpath(named)


def number(low, high):
    """A reader of numbers in these bounds, for argparse."""

    def read(text):
        if not text.isascii() or not text.isdigit() or not low <= int(text) <= high:
            raise argparse.ArgumentTypeError(f"'{plain(text)}' is no number from {low} to {high}")
        return int(text)

    return read


def parser_of(heading):
    """A reader of words whose help is a script's heading: its first line, and what comes after it."""
    first, _, rest = heading.partition("\n\n")
    how = argparse.RawDescriptionHelpFormatter
    return argparse.ArgumentParser(prog=f"examples/{NAME}", description=first, epilog=rest, formatter_class=how)
