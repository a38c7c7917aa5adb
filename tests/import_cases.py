#!/usr/bin/env python3
"""Tries examples/import and examples/report on tables of readings: what each fault is told as, and what good tables become.

    tests/import_cases.py               all cases, in a second or two
    tests/import_cases.py --million     a table of a million lines too, which has to be read within 20 seconds

Expected lines and files were written by hand. One line is printed for each case that goes wrong, and then how many there were.
The exit status is 0 where none does, and else 1.
"""
import contextlib
import errno
import io
import os
import re
import stat
import subprocess
import sys
import tempfile
import time
from dataclasses import dataclass
from typing import Dict, List, Tuple

TOP = os.path.dirname(os.path.dirname(os.path.abspath(__file__)))
EXAMPLES = os.path.join(TOP, "examples")
sys.path.insert(0, EXAMPLES)
sys.dont_write_bytecode = True

from importer.command import main as import_pilot  # noqa: E402
from importer.districts import Group, districts_of  # noqa: E402
from importer.files import make_folder  # noqa: E402
from importer.meters import Meter, Span  # noqa: E402
from importer.tables import Refused  # noqa: E402
from importer.times import Clock  # noqa: E402

USUAL = ["readings.csv", "out", "--round", "30", "--group-size", "2"]
BY_TABLE = ["readings.csv", "out", "--round", "30", "--groups", "groups.csv"]
KWH = [*USUAL, "--unit", "kwh"]
TWO = "meter,group\na,north\nb,north\n"


@dataclass
class Case:
    """Some lines of a table below its heading, and what comes of it: the complaint where it is refused, or files."""

    name: str
    lines: str
    told: str
    words: List[str]
    groups: str = ""


def refused(name: str, lines: str, told: str, words: List[str] = USUAL, groups: str = "") -> Case:
    return Case(name, lines, told, words, groups)


# The lines that stand below `meter,time,reading`, and what is told of them.
REFUSED_LINES = [
    refused("a second reading, at once", "a,2012-10-12T05:00,1\na,2012-10-12T05:00,1\n",
            "readings.csv line 3: a has a second reading for 2012-10-12T05:00:00; the other is in line 2\n"),
    refused("a second reading, much later and written otherwise",
            "a,2012-10-12T05:00:00Z,1\nb,2012-10-12T05:30:00Z,1\na,1350021600,2\na,2012-10-12T07:00:00+02:00,2\n",
            "readings.csv line 5: a has a second reading for 2012-10-12T05:00:00+00:00; the other is in line 2\n"),
    refused("a third reading", "a,2012-10-12T05:00,1\na,2012-10-12T05:00,2\na,2012-10-12T05:00,3\n",
            "readings.csv line 3: a has a second reading for 2012-10-12T05:00:00; the other is in line 2\n"
            "readings.csv line 4: a has a second reading for 2012-10-12T05:00:00; the other is in line 3\n"),
    refused("negative", "a,2012-10-12T05:00,-1\n", "readings.csv line 2: the reading -1 is negative\n"),
    refused("negative, a part of a watt-hour", "a,2012-10-12T05:00,-0.0001\n",
            "readings.csv line 2: the reading -0.0001 is negative\n", KWH),
    refused("text", "a,2012-10-12T05:00,Null\n", "readings.csv line 2: the reading 'Null' is no number\n"),
    refused("an exponent", "a,2012-10-12T05:00,1e3\n", "readings.csv line 2: the reading '1e3' is no number\n", KWH),
    refused("a sign", "a,2012-10-12T05:00,+1\n", "readings.csv line 2: the reading '+1' is no number\n"),
    refused("a point alone", "a,2012-10-12T05:00,.\n", "readings.csv line 2: the reading '.' is no number\n", KWH),
    refused("other digits", "a,2012-10-12T05:00,\u0661\n", "readings.csv line 2: the reading '\u0661' is no number\n"),
    refused("an underscore", "a,2012-10-12T05:00,1_0\n", "readings.csv line 2: the reading '1_0' is no number\n"),
    refused("a part of a watt-hour", "a,2012-10-12T05:00,0.1435\n",
            "readings.csv line 2: the reading 0.1435 has more than three decimals\n", KWH),
    refused("watt-hours with a part", "a,2012-10-12T05:00,1.5\n", "readings.csv line 2: the reading '1.5' is no number\n"),
    refused("2^40 watt-hours", "a,2012-10-12T05:00,1099511627776\n",
            "readings.csv line 2: the reading 1099511627776 is too large: it has to be below 2^40 watt-hours\n"),
    refused("2^40 watt-hours in kilowatt-hours", "a,2012-10-12T05:00,1099511627.776\n",
            "readings.csv line 2: the reading 1099511627.776 is too large: it has to be below 2^40 watt-hours\n", KWH),
    refused("a long number", f"a,2012-10-12T05:00,{'9' * 5000}\n",
            f"readings.csv line 2: the reading {'9' * 200}... is too large: it has to be below 2^40 watt-hours\n"),
    refused("ten minutes past", "a,2012-10-12T05:10,1\n",
            "readings.csv line 2: the time 2012-10-12T05:10 isn't on the edge of a round of 30 minutes\n"),
    refused("a second past", "a,2012-10-12T05:00,1\na,2012-10-12 05:30:01,1\n",
            "readings.csv line 3: the time 2012-10-12 05:30:01 isn't on the edge of a round of 30 minutes\n"),
    refused("a part of a second past", "a,2012-10-12 05:30:00.0000001,1\n",
            "readings.csv line 2: the time 2012-10-12 05:30:00.0000001 isn't on the edge of a round, since it has a part of a second\n"),
    refused("another offset than whole rounds", "a,2012-10-12T05:00+00:00,1\nb,2012-10-12T05:00+05:45,1\n",
            "readings.csv line 3: the time 2012-10-12T05:00+05:45 isn't on the edge of a round of 30 minutes\n"),
    refused("no time", "a,noon,1\n", "readings.csv line 2: 'noon' is no time\n"),
    refused("an empty time", "a,,1\n", "readings.csv line 2: '' is no time\n"),
    refused("a time of another order", "a,12/10/2012 05:00,1\n", "readings.csv line 2: '12/10/2012 05:00' is no time\n"),
    refused("a half-basic time", "a,2012-1012T05:00,1\n", "readings.csv line 2: '2012-1012T05:00' is no time\n"),
    refused("milliseconds since 1970", "a,1350018000000,1\n", "readings.csv line 2: '1350018000000' is no time\n"),
    refused("a day that isn't", "a,2013-02-29T05:00,1\n", "readings.csv line 2: there is no time 2013-02-29T05:00\n"),
    refused("an hour that isn't", "a,2013-02-28T24:30,1\n", "readings.csv line 2: there is no time 2013-02-28T24:30\n"),
    refused("an offset that isn't", "a,2013-02-28T05:00+24:00,1\n",
            "readings.csv line 2: '2013-02-28T05:00+24:00' is no time\n"),
    refused("with and without an offset", "a,2012-10-12T05:00,1\na,2012-10-12T05:30Z,1\n",
            "readings.csv line 3: the time 2012-10-12T05:30Z has an offset, unlike 2012-10-12T05:00, which was read first\n"),
    refused("without an offset after seconds since 1970", "a,1350018000,1\na,2012-10-12T05:30,1\n",
            "readings.csv line 3: the time 2012-10-12T05:30 has no offset, unlike 1350018000, which was read first\n"),
    refused("25 hours without an offset", "a,2012-10-28T00:30,1\na,2012-10-28T01:00,1\na,2012-10-28T01:30,1\n"
            "a,2012-10-28T01:00,1\na,2012-10-28T01:30,1\na,2012-10-28T02:00,1\n",
            "readings.csv line 5: a has a second reading for 2012-10-28T01:00:00; the other is in line 3."
            " If this day has 25 hours, the times need an offset\n"
            "readings.csv line 6: a has a second reading for 2012-10-28T01:30:00; the other is in line 4."
            " If this day has 25 hours, the times need an offset\n"),
    refused("23 hours without an offset", "a,2013-03-31T00:30,1\nb,2013-03-31T00:30,1\nb,2013-03-31T02:00,1\na,2013-03-31T02:00,1\n",
            "readings.csv line 4: nobody has a reading in the hour before, from 2013-03-31T01:00:00 on."
            " If this day has 23 hours, the times need an offset; else say which offset all have, by --offset\n"),
    refused("no meter", ",2012-10-12T05:00,1\n", "readings.csv line 2: it has no meter\n"),
    refused("too few fields", "a,2012-10-12T05:00\n", "readings.csv line 2: it has another number of fields, 2, than the heading, 3\n"),
    refused("too many fields", "a,2012-10-12T05:00,1,\n", "readings.csv line 2: it has another number of fields, 4, than the heading, 3\n"),
    refused("a decimal comma", "a,2012-10-12T05:00,0,143\n", "readings.csv line 2: it has another number of fields, 4, than the heading, 3\n", KWH),
    refused("lines of different length are counted as lines", "\n\n\"a\n\",2012-10-12T05:00,1\n\nb,2012-10-12T05:00,x\n",
            "readings.csv line 7: the reading 'x' is no number\n"),
    refused("carriage returns alone", "a,2012-10-12T05:00,1\rb,2012-10-12T05:00,x\r", "readings.csv line 3: the reading 'x' is no number\n"),
    refused("bytes that a terminal obeys", "a,\x1b[2J\u202e,1\n", "readings.csv line 2: '\\x1b[2J\\u202e' is no time\n"),
    refused("no reading", "a,2012-10-12T05:00,\n", "readings.csv has no reading\n"),
    refused("no line", "", "readings.csv has no reading\n"),
    refused("two faults", "a,2012-10-12T05:00,x\na,noon,1\n",
            "readings.csv line 2: the reading 'x' is no number\nreadings.csv line 3: 'noon' is no time\n"),
    refused("ten faults", "a,2012-10-12T05:00,x\n" * 10,
            "".join(f"readings.csv line {line}: the reading 'x' is no number\n" for line in range(2, 12))),
    refused("eleven faults", "a,2012-10-12T05:00,x\n" * 11,
            "".join(f"readings.csv line {line}: the reading 'x' is no number\n" for line in range(2, 12)) + "there are 11 faults\n"),
    refused("a thousand faults", "a,2012-10-12T05:00,x\n" * 2000,
            "".join(f"readings.csv line {line}: the reading 'x' is no number\n" for line in range(2, 12))
            + "there are at least 1000 faults\n"),
    refused("a year that is wrong", "a,2012-10-12T05:00,1\nb,2012-10-12T05:00,1\nb,2112-10-12T05:00,1\n",
            "readings.csv reaches from 2012-10-12T05:00:00 (line 2) to 2112-10-12T05:00:00 (line 4), over more than 400000 rounds\n"),
    refused("a group of one", "a,2012-10-12T05:00,1\nb,2012-10-12T05:00,1\nc,2012-10-12T05:00,1\n",
            "a group has 2 to 256 meters, and g1 has 1 with readings\n"),
    refused("a floor above a group", "a,2012-10-12T05:00,1\nb,2012-10-12T05:00,1\n",
            "the floor of g1 is 3, and it has 2 meters with readings\n", [*USUAL, "--floor", "3"]),
    refused("an unknown meter", "a,2012-10-12T05:00,1\nc,2012-10-12T05:00,1\n",
            "readings.csv line 3: the meter c is unknown: the table of groups doesn't have it\n", BY_TABLE, TWO),
    refused("an unknown meter's gap", "c,2012-10-12T05:00,\n",
            "readings.csv line 2: the meter c is unknown: the table of groups doesn't have it\n", BY_TABLE, TWO),
    refused("a meter in two groups", "", "groups.csv line 4: the meter a stands in line 2 too\n", BY_TABLE, TWO + "a,south\n"),
    refused("a group's name", "", "groups.csv line 4: 'no th' is no name of a group, which has 1 to 16 letters, digits, _ or -\n",
            BY_TABLE, TWO + "c,no th\n"),
    refused("a group's long name", "",
            "groups.csv line 4: 'abcdefghijklmnopq' is no name of a group, which has 1 to 16 letters, digits, _ or -\n",
            BY_TABLE, TWO + "c,abcdefghijklmnopq\n"),
    refused("a meter without a name", "", "groups.csv line 4: it has no meter\n", BY_TABLE, TWO + ",north\n"),
    refused("a group without readings", "a,2012-10-12T05:00,1\nb,2012-10-12T05:00,1\n",
            "meters without a reading, which are left out: 1, first c\na group has 2 to 256 meters, and south has 0 with readings\n",
            BY_TABLE, TWO + "c,south\n"),
    refused("a member that leaves as it joins", "", "groups.csv line 2: 2012-10-12T05:00, until which a is a member,"
            " isn't after 2012-10-12T05:00, from which it is one\n",
            BY_TABLE, "meter,group,from,until\na,north,2012-10-12T05:00,2012-10-12T05:00\n"),
    refused("a reading before its meter joins", "a,2012-10-12T05:00,1\nb,2012-10-12T05:00,1\nb,2012-10-12T05:30,1\na,2012-10-12T05:30,1\n",
            "readings.csv line 3: b is no member of its group at 2012-10-12T05:00:00\n",
            BY_TABLE, "meter,group,from\na,north,\nb,north,2012-10-12T05:30\n"),
    refused("a reading after its meter left", "a,2012-10-12T05:00,1\nb,2012-10-12T05:00,1\nb,2012-10-12T05:30,1\n",
            "readings.csv line 4: b is no member of its group at 2012-10-12T05:30:00\n",
            BY_TABLE, "meter,group,until\na,north,\nb,north,2012-10-12T05:30\n"),
    refused("--from without an offset", "a,2012-10-12T05:00Z,1\n",
            "readings.csv line 2: the time 2012-10-12T05:00Z has an offset, unlike 2012-10-12, which was read first\n",
            [*USUAL, "--from", "2012-10-12"]),
    refused("--until within a round", "", "--until: the time 2012-10-12T05:10 isn't on the edge of a round of 30 minutes\n",
            [*USUAL, "--until", "2012-10-12T05:10"]),
]

# Tables whose heading or file is at fault.
REFUSED_TABLES = [
    refused("an empty file", "", "readings.csv line 1: the column 'meter' isn't there; the heading is \n"),
    refused("another heading", "id,time,reading\n", "readings.csv line 1: the column 'meter' isn't there; the heading is id, time, reading\n"),
    refused("semicolons", "meter;time;reading\n",
            "readings.csv line 1: the column 'meter' isn't there; the heading is meter;time;reading\n"),
    refused("a column twice", "meter,time,time,reading\n",
            "readings.csv line 1: the column 'time' stands twice; the heading is meter, time, time, reading\n"),
    refused("a quote that isn't closed", 'meter,time,reading\na,2012-10-12T05:00,1\nb,2012-10-12T05:00,"1\n' + "x" * 140_000,
            "readings.csv line 3: it can't be split into fields: field larger than field limit (131072)\n"),
    refused("no table of groups", "meter,time,reading\n", "cannot read groups.csv: No such file or directory\n", BY_TABLE),
]

# Words that are none, and how the last line of what is told of them begins.
WRONG_WORDS = [
    ([], "the following arguments are required: READINGS, FOLDER, --round"),
    (["r", "out", "--round", "30"], "one of the arguments --groups --group-size is required"),
    ([*USUAL, "--groups", "g"], "argument --groups: not allowed with argument --group-size"),
    ([*USUAL, "--round", "7"], "argument --round: a day has to be a whole number of rounds, as it is of 1, 5, 15, 30, 60 or 1440 minutes"),
    ([*USUAL, "--round", "0"], "argument --round: a day has to be a whole number of rounds, as it is of 1, 5, 15, 30, 60 or 1440 minutes"),
    ([*USUAL, "--group-size", "1"], "argument --group-size: '1' is no number from 2 to 256"),
    ([*USUAL, "--group-size", "257"], "argument --group-size: '257' is no number from 2 to 256"),
    ([*USUAL, "--floor", "1"], "argument --floor: '1' is no number from 2 to 256"),
    ([*USUAL, "--windows", "2"], "argument --windows: two numbers are wanted, as 2,4"),
    ([*USUAL, "--windows", "17,4"], "argument --windows: '17' is no number from 1 to 16"),
    ([*USUAL, "--windows", "2,1"], "argument --windows: '1' is no number from 2 to 32"),
    ([*USUAL, "--lane", "lossy,1"],
     "argument --lane: a lane is NAME,ARGUMENT, and its name one of clear, rules, seeded, every, burst"),
    ([*USUAL, "--lane", "burst,1,2"],
     "argument --lane: a lane is NAME,ARGUMENT, and its name one of clear, rules, seeded, every, burst"),
    ([*USUAL, *["--lane", "clear"] * 5], "argument --lane: a plan has at most 4 lanes of one name"),
    ([*USUAL, "--offset", "1"], "argument --offset: '1' is no offset, such as Z or +01:00"),
    ([*USUAL, "--unit", "mwh"], "argument --unit: invalid choice: 'mwh'"),
]


class Wrong(Exception):
    """A case went otherwise than it has to."""


def expect(what: str, found: object, wanted: object) -> None:
    if found != wanted:
        raise Wrong(f"{what} is\n{found}\nin place of\n{wanted}")


def run(words: List[str]) -> Tuple[int, str, str]:
    """The status of the importer on these words, and what it prints and complains of."""
    printed, told = io.StringIO(), io.StringIO()
    with contextlib.redirect_stdout(printed), contextlib.redirect_stderr(told):
        try:
            status = import_pilot(words)
        except SystemExit as ended:
            status = ended.code
    return status, printed.getvalue(), told.getvalue()


def write(name: str, text: str) -> None:
    with open(name, "w", encoding="utf-8", errors="surrogateescape", newline="") as file:
        file.write(text)


def read(name: str) -> str:
    with open(name, encoding="utf-8", errors="surrogateescape", newline="") as file:
        return file.read()


def try_refused(case: Case, heading: str) -> None:
    write("readings.csv", heading + case.lines)
    if case.groups:
        write("groups.csv", case.groups)
    before = sorted(os.listdir())
    status, printed, told = run(case.words)
    wanted = "".join(f"import: {line}\n" for line in [*case.told.splitlines(), "nothing is written"])
    expect("what is told", told, wanted)
    expect("the status", (status, printed), (1, ""))
    expect("what lies in the folder", sorted(os.listdir()), before)


def try_wrong_words(words: List[str], cause: str) -> None:
    status, printed, told = run(words)
    wanted = f"examples/import: error: {cause}"
    expect("what is told", told.splitlines()[-1][: len(wanted)], wanted)
    expect("the status", (status, printed), (2, ""))
    expect("what lies in the folder", os.listdir(), [])


@dataclass
class Made:
    """A good table, and the files that it becomes. In the plan, `?` stands for each key."""

    name: str
    words: List[str]
    tables: Dict[str, str]
    said: str
    files: Dict[str, str]
    told: str = ""


def keys_of(plan: str) -> List[str]:
    return re.findall(r"^(?:own|pair),.*,([0-9a-f]{64})$", plan, re.MULTILINE)


def without_keys(plan: str) -> str:
    return re.sub(r"[0-9a-f]{64}$", "?", plan, flags=re.MULTILINE)


PAIR_OF_KEYS = "own,0,0,?\nown,0,1,?\npair,0,0,1,?\n"

MADE = [
    Made("watt-hours, a gap, and a meter that joins",
         ["readings.csv", "out", "--round", "15", "--group-size", "3", "--floor", "2", "--windows", "3,5", "--lane", "burst,9:1",
          "--lane", "clear"],
         {"readings.csv": "meter,time,reading\nb,2012-10-12T05:00,20\nb,2012-10-12T05:30,21\na,2012-10-12T05:00,10\n"
                          "a,2012-10-12T05:15,11\na,2012-10-12T05:30,1099511627775\nc,2012-10-12T05:15,0\nc,2012-10-12T05:30,\n"},
         "meters=3 groups=1 rounds=3 readings=6 districts=1 first=2012-10-12T05:00:00 last=2012-10-12T05:30:00\n",
         {"plan.csv": "plan,1\nrounds,3\nwindows,3,5\ngroup,g1,3,2\nown,0,0,?\nown,0,1,?\nown,0,2,?\n"
                      "pair,0,0,1,?\npair,0,0,2,?\npair,0,1,2,?\nlane,burst,9:1,0,42\nlane,clear,,0,42\nmember,0,2,1,2\n",
          "readings.csv": "g1,0,10,20,\ng1,1,11,,0\ng1,2,1099511627775,21,\n",
          "meters.csv": "group,number,meter\ng1,0,a\ng1,1,b\ng1,2,c\n",
          "rounds.csv": "round,time\n0,2012-10-12T05:00:00\n1,2012-10-12T05:15:00\n2,2012-10-12T05:30:00\n"}),
    Made("kilowatt-hours, exactly, with the columns of a trial, blanks, a byte order mark and carriage returns",
         ["readings.csv", "out", "--round", "30", "--group-size", "2", "--unit", "kwh", "--meter", "LCLid", "--time", "DateTime",
          "--reading", "KWH/hh (per half hour) ", "--absent", "Null"],
         {"readings.csv": "\ufeffLCLid,stdorToU,DateTime,KWH/hh (per half hour) \r\n"
                          "MAC2,Std,2012-10-12 23:30:00.0000000, 0.143 \r\nMAC2,Std,2012-10-13 00:00:00.0000000, 1 \r\n"
                          "MAC3,ToU,2012-10-12 23:30:00.0000000, .5 \r\nMAC3,ToU,2012-10-13 00:00:00.0000000,1.2900000\r\n"
                          "MAC3,ToU,2012-10-13 00:30:00.0000000,0.07\r\nMAC2,Std,2012-10-13 00:31:07.0000000,Null\r\n"},
         "meters=2 groups=1 rounds=3 readings=5 districts=1 first=2012-10-12T23:30:00 last=2012-10-13T00:30:00\n",
         {"plan.csv": f"plan,1\nrounds,3\nwindows,2,4\ngroup,g1,2,2\n{PAIR_OF_KEYS}member,0,0,0,2\n",
          "readings.csv": "g1,0,143,500\ng1,1,1000,1290\ng1,2,,70\n",
          "meters.csv": "group,number,meter\ng1,0,MAC2\ng1,1,MAC3\n",
          "rounds.csv": "round,time\n0,2012-10-12T23:30:00\n1,2012-10-13T00:00:00\n2,2012-10-13T00:30:00\n"}),
    Made("a day of 23 hours with offsets", [*USUAL[:3], "60", *USUAL[4:]],
         {"readings.csv": "meter,time,reading\na,2013-03-31T00:00:00+00:00,1\na,2013-03-31T02:00:00+01:00,2\na,2013-03-31T03:00+0100,3\n"
                          "b,2013-03-31 00:00Z,4\nb,20130331T0100Z,5\nb,2013-03-31 02:00:00 +00,6\n"},
         "meters=2 groups=1 rounds=3 readings=6 districts=1 first=2013-03-31T00:00:00+00:00 last=2013-03-31T03:00:00+01:00\n",
         {"plan.csv": f"plan,1\nrounds,3\nwindows,2,4\ngroup,g1,2,2\n{PAIR_OF_KEYS}",
          "readings.csv": "g1,0,1,4\ng1,1,2,5\ng1,2,3,6\n",
          "rounds.csv": "round,time\n0,2013-03-31T00:00:00+00:00\n1,2013-03-31T02:00:00+01:00\n2,2013-03-31T03:00:00+01:00\n"}),
    Made("a day of 25 hours with offsets, and a round that no line has", [*USUAL[:3], "60", *USUAL[4:]],
         {"readings.csv": "meter,time,reading\na,2012-10-28T01:00:00+01:00,1\na,2012-10-28T01:00:00+00:00,2\na,2012-10-28T03:00:00Z,3\n"
                          "b,2012-10-28T01:00:00+01:00,4\nb,2012-10-28T01:00:00+00:00,5\nb,2012-10-28T03:00:00Z,6\n"},
         "meters=2 groups=1 rounds=4 readings=6 districts=1 first=2012-10-28T01:00:00+01:00 last=2012-10-28T03:00:00+00:00\n",
         {"readings.csv": "g1,0,1,4\ng1,1,2,5\ng1,2,,\ng1,3,3,6\n",
          "rounds.csv": "round,time\n0,2012-10-28T01:00:00+01:00\n1,2012-10-28T01:00:00+00:00\n"
                        "2,2012-10-28T02:00:00+00:00\n3,2012-10-28T03:00:00+00:00\n"}),
    Made("a gap of an hour at night, of a clock whose offset is given", [*USUAL, "--offset=-05:00"],
         {"readings.csv": "meter,time,reading\na,2013-03-31T00:30,1\nb,2013-03-31T00:30,1\nb,2013-03-31T02:00,1\na,2013-03-31T02:00,1\n"},
         "meters=2 groups=1 rounds=4 readings=4 districts=1 first=2013-03-31T00:30:00-05:00 last=2013-03-31T02:00:00-05:00\n",
         {"readings.csv": "g1,0,1,1\ng1,1,,\ng1,2,,\ng1,3,1,1\n"}),
    Made("a gap of an hour at night whose lines are there", USUAL,
         {"readings.csv": "meter,time,reading\na,2013-03-31T00:30,1\nb,2013-03-31T00:30,1\nb,2013-03-31T01:00,\nb,2013-03-31T02:00,1\n"
                          "a,2013-03-31T02:00,1\n"},
         "meters=2 groups=1 rounds=4 readings=4 districts=1 first=2013-03-31T00:30:00 last=2013-03-31T02:00:00\n",
         {"readings.csv": "g1,0,1,1\ng1,1,,\ng1,2,,\ng1,3,1,1\n"}),
    Made("gaps at night that no clock makes: from half past on, and of two hours; and a meter without a reading", USUAL,
         {"readings.csv": "meter,time,reading\na,2013-03-31T00:00,1\nb,2013-03-31T01:00,1\na,2013-03-31T02:30,1\nb,2013-03-31T05:00,1\n"
                          "A,2013-03-31T05:00,\n"},
         "meters=2 groups=1 rounds=11 readings=4 districts=1 first=2013-03-31T00:00:00 last=2013-03-31T05:00:00\n",
         {"plan.csv": f"plan,1\nrounds,11\nwindows,2,4\ngroup,g1,2,2\n{PAIR_OF_KEYS}member,0,0,0,6\nmember,0,1,2,11\n",
          "readings.csv": "g1,0,1,\ng1,1,,\ng1,2,,1\ng1,3,,\ng1,4,,\ng1,5,1,\n" + "".join(f"g1,{r},,\n" for r in range(6, 10))
                          + "g1,10,,1\n"},
         "import: meters without a reading, which are left out: 1, first A\n"),
    Made("seconds since 1970, and days of 24 hours by ISO 8601", [*USUAL[:3], "1440", *USUAL[4:]],
         {"readings.csv": "meter,time,reading\na,1349913600,1\na,2012-10-11T24:00:00Z,2\nb,1349913600.0,3\nb,1350000000,4\n"},
         "meters=2 groups=1 rounds=2 readings=4 districts=1 first=2012-10-11T00:00:00+00:00 last=2012-10-12T00:00:00+00:00\n",
         {"readings.csv": "g1,0,1,3\ng1,1,2,4\n",
          "rounds.csv": "round,time\n0,2012-10-11T00:00:00+00:00\n1,2012-10-12T00:00:00+00:00\n"}),
    Made("rounds of an hour, of a clock that is five and three quarter hours ahead of UTC, and names in other letters",
         [*USUAL[:3], "60", *USUAL[4:]],
         {"readings.csv": "meter,time,reading\n\udce9,2012-10-12T05:00+05:45,1\nK\u00f6ln,2012-10-12T05:00+05:45,2\n"
                          "K\u00f6ln,2012-10-12T06:00+05:45,3\n"},
         "meters=2 groups=1 rounds=2 readings=3 districts=1 first=2012-10-12T05:00:00+05:45 last=2012-10-12T06:00:00+05:45\n",
         {"readings.csv": "g1,0,2,1\ng1,1,3,\n", "meters.csv": "group,number,meter\ng1,0,K\u00f6ln\ng1,1,\udce9\n"}),
    Made("dates alone, and a part of the table", [*USUAL[:3], "1440", *USUAL[4:], "--from", "2012-10-12", "--until", "2012-10-14"],
         {"readings.csv": "meter,time,reading\n" + "".join(f"{m},2012-10-{d},{d}\n" for m in "ab" for d in range(10, 20))},
         "meters=2 groups=1 rounds=2 readings=4 districts=1 first=2012-10-12T00:00:00 last=2012-10-13T00:00:00\n",
         {"readings.csv": "g1,0,12,12\ng1,1,13,13\n"}),
    Made("groups by a table, with times of members, in its order", [*BY_TABLE[:-2], "--groups", "groups.csv", "--group", "street"],
         {"groups.csv": "street,until,meter,from\nsouth,,d,\nnorth,,b,2012-10-12T05:30\nsouth,2012-10-12T06:00,c,\nnorth,,a,\nnorth,,e,\n",
          "readings.csv": "time,meter,reading\n" + "".join(f"2012-10-12T0{t},{m},{v}\n" for t, m, v in [
              ("6:00", "a", 1), ("5:30", "c", 2), ("5:00", "d", 3), ("5:00", "a", 4), ("5:30", "b", 5)])},
         "meters=4 groups=2 rounds=3 readings=5 districts=1 first=2012-10-12T05:00:00 last=2012-10-12T06:00:00\n",
         {"plan.csv": "plan,1\nrounds,3\nwindows,2,4\ngroup,south,2,2\ngroup,north,2,2\n" + PAIR_OF_KEYS +
                      "own,1,0,?\nown,1,1,?\npair,1,0,1,?\nmember,0,0,0,1\nmember,0,1,0,2\nmember,1,0,1,3\n",
          "readings.csv": "south,0,3,\nsouth,1,,2\nsouth,2,,\nnorth,0,,4\nnorth,1,5,\nnorth,2,,1\n",
          "meters.csv": "group,number,meter\nsouth,0,d\nsouth,1,c\nnorth,0,b\nnorth,1,a\n"},
         "import: meters without a reading, which are left out: 1, first e\n"),
    Made("a floor of half the meters, rounded up", ["readings.csv", "out", "--round", "1", "--group-size", "5"],
         {"readings.csv": "meter,time,reading\n" + "".join(f"m{n},2012-10-12,{n}\n" for n in range(5))},
         "meters=5 groups=1 rounds=1 readings=5 districts=1 first=2012-10-12T00:00:00 last=2012-10-12T00:00:00\n",
         {"plan.csv": "plan,1\nrounds,1\nwindows,2,4\ngroup,g1,5,3\n" + "".join(f"own,0,{i},?\n" for i in range(5))
                      + "".join(f"pair,0,{i},{j},?\n" for i in range(5) for j in range(i + 1, 5))}),
    Made("groups as even as they can be", ["readings.csv", "out", "--round", "1", "--group-size", "4"],
         {"readings.csv": "meter,time,reading\n" + "".join(f"m{n},2012-10-12,{n}\n" for n in range(9))},
         "meters=9 groups=3 rounds=1 readings=9 districts=1 first=2012-10-12T00:00:00 last=2012-10-12T00:00:00\n",
         {"readings.csv": "g1,0,0,1,2\ng2,0,3,4,5\ng3,0,6,7,8\n"}),
]


def try_made(made: Made) -> None:
    for name, text in made.tables.items():
        write(name, text)
    status, printed, told = run(made.words)
    expect("what is told", told, made.told)
    expect("the status", (status, printed), (0, made.said))
    expect("the files", sorted(os.listdir("out")), ["meters.csv", "plan.csv", "readings.csv", "rounds.csv"])
    expect("what else lies there", sorted(os.listdir()), sorted([*made.tables, "out"]))
    for name, text in made.files.items():
        found = read(f"out/{name}")
        expect(name, without_keys(found) if name == "plan.csv" else found, text)
    modes = {stat.S_IMODE(os.stat(f"out/{name}").st_mode) for name in os.listdir("out")}
    expect("the modes of the files", modes, {0o600})
    keys = keys_of(read("out/plan.csv"))
    expect("the number of different keys", len(set(keys)), without_keys(read("out/plan.csv")).count("?"))
    expect("the status of a second import", run(made.words)[0], 1)
    expect("the keys after a second import", keys_of(read("out/plan.csv")), keys)


def table_of(meters: int, rounds: int) -> str:
    """Readings of meters over half hours: meter m has reading 10 * m + r in round r."""
    times = [f"2012-10-{12 + r // 48:02}T{r // 2 % 24:02}:{r % 2 * 30:02}" for r in range(rounds)]
    return "meter,time,reading\n" + "".join(f"m{m:03},{times[r]},{10 * m + r}\n" for m in range(meters) for r in range(rounds))


# How many groups of how many meters over how many rounds, and the groups and rounds of each district.
DISTRICTS = [
    ((256, 2, 1), [(256, 1)]),
    ((257, 2, 1), [(256, 1), (1, 1)]),
    ((32, 256, 1), [(32, 1)]),
    ((33, 256, 1), [(32, 1), (1, 1)]),
    ((127, 129, 1), [(127, 1)]),
    ((128, 129, 1), [(127, 1), (1, 1)]),
    ((1, 2, 4096), [(1, 4096)]),
    ((1, 2, 4097), [(1, 2048), (1, 2049)]),
    ((1, 256, 512), [(1, 512)]),
    ((2, 256, 513), [(2, 256), (1, 257), (1, 257)]),
    ((2, 32, 2048), [(2, 2048)]),
    ((2, 32, 2049), [(1, 2049), (1, 2049)]),
]


def try_districts(counts: Tuple[int, int, int], wanted: List[Tuple[int, int]]) -> None:
    groups, meters, rounds = counts
    meter = Meter("m", joins=0)
    whole = Span(0, rounds)
    districts = districts_of([Group(f"g{number}", 2, [meter] * meters) for number in range(groups)], whole, Clock(30, None))
    expect("the districts", [(len(district.groups), len(district.span)) for district in districts], wanted)


def try_files_of_districts() -> None:
    """256 meters of one group over 600 rounds take two periods. In the second one two meters have left, and have no number there;
    another group is below its floor there, so it is left out."""
    lines = table_of(258, 600).splitlines(keepends=True)
    gone = {"m001", "m255", "m256"}
    write("readings.csv", "".join(line for at, line in enumerate(lines) if at == 0 or (at - 1) % 600 < 300 or line[:4] not in gone))
    write("groups.csv", "meter,group\n" + "".join(f"m{m:03},{'west' if m > 255 else 'east'}\n" for m in range(258)))
    status, printed, told = run([*BY_TABLE, "--floor", "2"])
    expect("what is told", told,
           "import: west is left out in the 300 rounds from 2012-10-18T06:00:00 on: it has 1 meters there, and its floor is 2\n")
    expect("the status", status, 0)
    expect("what is said", printed, "meters=258 groups=2 rounds=600 readings=153900 districts=2"
                                    " first=2012-10-12T00:00:00 last=2012-10-24T11:30:00\n")
    plans = [read(f"out/{name}/plan.csv") for name in ("d1", "d2")]
    expect("the groups", [re.findall("^(?:rounds|group|member),.*$", plan, re.MULTILINE) for plan in plans],
           [["rounds,300", "group,east,256,2", "group,west,2,2"], ["rounds,300", "group,east,254,2"]])
    keys = [set(keys_of(plan)) for plan in plans]
    expect("the keys of both", len(keys[0] & keys[1]), 0)
    expect("the first row of d2", read("out/d2/readings.csv").splitlines()[0],
           "east,0," + ",".join(str(10 * m + 300) for m in range(255) if m != 1))
    expect("the second meter of d2", read("out/d2/meters.csv").splitlines()[2], "east,1,m002")
    expect("the first round of d2", read("out/d2/rounds.csv").splitlines()[1], "0,2012-10-18T06:00:00")
    expect("the meters of all", read("out/meters.csv").splitlines()[::257], ["district,group,number,meter", "d1,west,0,m256"])
    expect("the rounds of all", read("out/rounds.csv").splitlines()[::300],
           ["district,round,time", "d1,299,2012-10-18T05:30:00", "d2,299,2012-10-24T11:30:00"])


def try_folder_there() -> None:
    """Nothing is written into a folder that has something, and an empty one is taken."""
    write("readings.csv", "meter,time,reading\na,2012-10-12T05:00,1\nb,2012-10-12T05:00,1\n")
    os.mkdir("out")
    write("out/plan.csv", "old\n")
    status, _, told = run(USUAL)
    expect("what is told", (status, told), (1, "import: out is there already, and may hold keys\nimport: nothing is written\n"))
    expect("the old plan", read("out/plan.csv"), "old\n")
    os.remove("out/plan.csv")
    expect("the status", run(USUAL)[0], 0)
    status, _, told = run(["readings.csv", "no/out", *USUAL[2:]])
    expect("what is told", (status, told), (1, "import: cannot write no/out: No such file or directory\nimport: nothing is written\n"))


def try_half_folder() -> None:
    """Where the disk is full half-way, nothing stays."""

    def write_half(room: str) -> None:
        write(os.path.join(room, "plan.csv"), "plan,1\n")
        raise OSError(errno.ENOSPC, os.strerror(errno.ENOSPC))

    try:
        make_folder("out", write_half)
    except Refused as refused:
        expect("what is told", refused.args, ("cannot write out: No space left on device",))
    expect("what lies in the folder", os.listdir(), [])


# Reports


ROUNDS = "round,time\n0,2012-10-28T01:30:00+01:00\n1,2012-10-28T01:00:00+00:00\n"
REPORT = ("group,round,survivors,missing,outcome,total\n"
          "north,0,8,-,total,283\nnorth,1,6,2+5,none,\nmill,0,2,0+3,thin,\nmill,1,3,1,total,18446744073709551615\n")
CITY_ROUNDS = "district,round,time\nd1,0,2012-10-12T00:00:00\nd1,1,2012-10-12T00:30:00\nd2,0,2012-10-12T00:30:00\n"
CITY_REPORT = ("district,group,round,survivors,missing,outcome,total\n"
               "d1,north,0,8,-,total,283\nd1,north,1,7,2,total,251\nd2,mill,0,3,-,total,9\n")

JOINED = [
    ("a report", REPORT, ROUNDS, [],
     "time,group,round,survivors,missing,outcome,total\n2012-10-28T01:30:00+01:00,north,0,8,-,total,283\n"
     "2012-10-28T01:00:00+00:00,north,1,6,2+5,none,\n2012-10-28T01:30:00+01:00,mill,0,2,0+3,thin,\n"
     "2012-10-28T01:00:00+00:00,mill,1,3,1,total,18446744073709551615\n"),
    ("its sums", REPORT, ROUNDS, ["--sum"],
     "time,groups,of_groups,homes,of_homes,total\n2012-10-28T01:30:00+01:00,1,2,8,12,283\n"
     "2012-10-28T01:00:00+00:00,1,2,3,12,18446744073709551615\n"),
    ("districts", CITY_REPORT, CITY_ROUNDS, [],
     "time,district,group,round,survivors,missing,outcome,total\n2012-10-12T00:00:00,d1,north,0,8,-,total,283\n"
     "2012-10-12T00:30:00,d1,north,1,7,2,total,251\n2012-10-12T00:30:00,d2,mill,0,3,-,total,9\n"),
    ("the sums of districts", CITY_REPORT, CITY_ROUNDS, ["--sum"],
     "time,groups,of_groups,homes,of_homes,total\n2012-10-12T00:00:00,1,1,8,8,283\n2012-10-12T00:30:00,2,2,10,11,260\n"),
    ("a time without a total", REPORT.replace("total,283", "none,"), ROUNDS, ["--sum"],
     "time,groups,of_groups,homes,of_homes,total\n2012-10-28T01:30:00+01:00,0,2,0,12,\n"
     "2012-10-28T01:00:00+00:00,1,2,3,12,18446744073709551615\n"),
]

REFUSED_REPORTS = [
    ("a report of another form", "a\n", ROUNDS,
     "report line 1: it isn't the heading group,round,survivors,missing,outcome,total, with or without district before it"),
    ("an empty table of rounds", REPORT, "", "rounds line 1: it isn't the heading round,time, with or without district before it"),
    ("a faulty set", REPORT.replace("2+5", "2+"), ROUNDS, "report line 3: it isn't of the table's form"),
    ("a total that isn't there", REPORT.replace("total,283", "total,"), ROUNDS, "report line 2: it isn't of the table's form"),
    ("a total of none", REPORT.replace("none,", "none,1"), ROUNDS, "report line 3: it isn't of the table's form"),
    ("too many fields", REPORT.replace("none,", "none,,"), ROUNDS, "report line 3: it isn't of the table's form"),
    ("carriage returns", REPORT.replace("none,", "none,\r"), ROUNDS, "report line 3: it isn't of the table's form"),
    ("a cut report", REPORT[:-1], ROUNDS, "report line 5: it has no newline, so the file isn't whole"),
    ("a row twice", REPORT.replace("mill,0", "north,1"), ROUNDS, "report line 4: round 2 of its group is due"),
    ("a row that is left out", REPORT.replace("mill,0,2,0+3,thin,\n", ""), ROUNDS, "report line 4: round 0 of its group is due"),
    ("a group twice", REPORT + "north,0,8,-,total,283\n", ROUNDS, "report line 6: its group stands further up already"),
    ("a round without a time", REPORT, ROUNDS[:39], "report line 3: the table of rounds has no time for its round"),
    ("a round of a district without a time", CITY_REPORT.replace("d2", "d3"), CITY_ROUNDS,
     "report line 4: the table of rounds has no time for its round"),
    ("no time", REPORT, ROUNDS.replace("T01:30", " 01:30"), "rounds line 2: it isn't of the table's form"),
    ("no round", REPORT, ROUNDS.replace("\n0,", "\n00,"), "rounds line 2: it isn't of the table's form"),
    ("a round twice", REPORT, ROUNDS.replace("\n1,", "\n0,"), "rounds line 3: its round has a time already"),
    ("districts in the report alone", CITY_REPORT, ROUNDS, "one of the two tables has districts, and the other one has none"),
    ("districts in the rounds alone", REPORT, CITY_ROUNDS, "one of the two tables has districts, and the other one has none"),
]


def run_report(report: str, rounds: str, words: List[str]) -> "subprocess.CompletedProcess[str]":
    write("report", report)
    write("rounds", rounds)
    return subprocess.run([f"{EXAMPLES}/report", "report", "rounds", *words], capture_output=True, encoding="utf-8")


def try_joined(report: str, rounds: str, words: List[str], printed: str) -> None:
    ended = run_report(report, rounds, words)
    expect("what is told", ended.stderr, "")
    expect("the status and the table", (ended.returncode, ended.stdout), (0, printed))


def try_refused_report(report: str, rounds: str, told: str) -> None:
    ended = run_report(report, rounds, [])
    expect("what is told", ended.stderr, f"report: {told}\n")
    expect("the status", ended.returncode, 1)


def try_million() -> None:
    """A thousand meters over a thousand half hours, by time and then by meter, as a trial's table."""
    with open("readings.csv", "w", encoding="utf-8") as file:
        file.write("LCLid,stdorToU,DateTime,KWH/hh (per half hour) \n")
        for r in range(1000):
            when = f"2012-10-{1 + r // 48:02} {r // 2 % 24:02}:{r % 2 * 30:02}:00.0000000"
            file.writelines(f"MAC{m:06},Std,{when}, {(m * 7 + r * 11) % 3000 / 1000} \n" for m in range(1000))
    words = ["readings.csv", "out", "--meter", "LCLid", "--time", "DateTime", "--reading", "KWH/hh (per half hour)", "--unit", "kwh",
             "--round", "30", "--group-size", "16"]
    began = time.monotonic()
    ended = subprocess.run([f"{EXAMPLES}/import", *words], capture_output=True, encoding="utf-8")
    took = time.monotonic() - began
    expect("what is said", (ended.stderr, ended.stdout.split(" first")[0]),
           ("", "meters=1000 groups=63 rounds=1000 readings=1000000 districts=8"))
    found = 0
    for number in range(1, 9):
        for line in read(f"out/d{number}/readings.csv").splitlines():
            found += sum(map(int, line.split(",")[2:]))
    expect("the sum of all readings", found, sum((m * 7 + r * 11) % 3000 for m in range(1000) for r in range(1000)))
    print(f"a million lines in {took:.1f} s")
    expect("whether it took less than 20 seconds", took < 20, True)


def all_cases(words: List[str]):
    """Each case: its name, and the call that tries it."""
    for case in REFUSED_LINES:
        yield case.name, try_refused, (case, "meter,time,reading\n")
    for case in REFUSED_TABLES:
        yield case.name, try_refused, (case, "")
    for words_of_case, told in WRONG_WORDS:
        yield " ".join(words_of_case), try_wrong_words, (words_of_case, told)
    for made in MADE:
        yield made.name, try_made, (made,)
    for counts, wanted in DISTRICTS:
        yield "districts of %s groups, %s meters, %s rounds" % counts, try_districts, (counts, wanted)
    yield "the files of districts", try_files_of_districts, ()
    yield "a folder that is there", try_folder_there, ()
    yield "half a folder", try_half_folder, ()
    for name, *rest in JOINED:
        yield name, try_joined, rest
    for name, *rest in REFUSED_REPORTS:
        yield name, try_refused_report, rest
    if words == ["--million"]:
        yield "a million lines", try_million, ()


def main(words: List[str]) -> int:
    if words not in ([], ["--million"]):
        sys.exit("usage: tests/import_cases.py [--million]")
    count = wrong = 0
    for name, call, arguments in all_cases(words):
        count += 1
        with tempfile.TemporaryDirectory(prefix="import-") as room:
            os.chdir(room)
            try:
                call(*arguments)
            except Wrong as what:
                wrong += 1
                print(f"{name}: {what}")
            os.chdir(TOP)
    print(f"import: {count} cases, {wrong} wrong")
    return 1 if wrong else 0


if __name__ == "__main__":
    sys.exit(main(sys.argv[1:]))
