"""The words of examples/import, and what it does with them."""
import argparse
import re
import signal
import sys
from typing import Callable, List, Optional, Tuple

from importer.districts import LEAST_METERS, MOST_METERS, District, Group, districts_of, even_groups, groups_of
from importer.files import Link, is_free, make_folder, write_district, write_districts
from importer.meters import Pilot, Span, read_members
from importer.tables import Refused, note, shown
from importer.times import DAY, MINUTE, Clock, offset_of

LANES = ("clear", "rules", "seeded", "every", "burst")
MOST_LANES_OF_A_KIND = 4

DESCRIPTION = "Makes a plan with fresh keys, and its readings, from a table with a heading and a line for each meter and time."
EPILOG = """\
FOLDER gets plan.csv and readings.csv, for `meteragg run`, meters.csv, which says which meter has which number in its group,
and rounds.csv, which says when each round is. What is more than one plan may hold becomes districts d1, d2 and so on in FOLDER,
each with such files, for `examples/districts run FOLDER`. If a table has faults, they are named with their lines, and nothing
is written. Keys and readings are secrets: only you may read the files.

Times are those of ISO 8601, with or without an offset, as 2012-10-12T00:30:00+01:00 or 2012-10-12 00:30:00.0000000, or seconds
since 1970. A meter without a line for a time has a gap there.

An example, after which pilot/plan.csv and pilot/readings.csv can be run:

  examples/import examples/pilot/readings.csv pilot --meter LCLid --time DateTime --reading 'KWH/hh (per half hour)' \\
      --unit kwh --absent Null --round 30 --group-size 8
"""


def round_minutes(text: str) -> int:
    if not re.fullmatch(r"[1-9][0-9]{0,3}", text) or DAY // MINUTE % int(text):
        raise argparse.ArgumentTypeError("a day has to be a whole number of rounds, as it is of 1, 5, 15, 30, 60 or 1440 minutes")
    return int(text)


def number_in(low: int, high: int) -> Callable[[str], int]:
    def number(text: str) -> int:
        if not re.fullmatch(r"[0-9]{1,4}", text) or not low <= int(text) <= high:
            raise argparse.ArgumentTypeError(f"'{shown(text)}' is no number from {low} to {high}")
        return int(text)

    return number


def windows(text: str) -> Tuple[int, int]:
    first, comma, second = text.partition(",")
    if not comma:
        raise argparse.ArgumentTypeError("two numbers are wanted, as 2,4")
    return number_in(1, 16)(first), number_in(2, 32)(second)


def lane(text: str) -> Tuple[str, str]:
    name, _, argument = text.partition(",")
    if name not in LANES or not re.fullmatch(r'[!#-+\--~]*', argument):
        raise argparse.ArgumentTypeError(f"a lane is NAME,ARGUMENT, and its name one of {', '.join(LANES)}")
    return name, argument


def offset(text: str) -> int:
    try:
        return offset_of(text)
    except ValueError as fault:
        raise argparse.ArgumentTypeError(str(fault)) from None


def add_table_words(parser: argparse.ArgumentParser) -> None:
    words = parser.add_argument_group("the table of readings")
    words.add_argument("--meter", metavar="COLUMN", default="meter", help="the column with the meter's name (meter)")
    words.add_argument("--time", metavar="COLUMN", default="time", help="the column with the time (time)")
    words.add_argument("--reading", metavar="COLUMN", default="reading", help="the column with the reading (reading)")
    words.add_argument("--unit", choices=("wh", "kwh"), default="wh",
                       help="watt-hours, or kilowatt-hours with up to three decimals, which are read exactly (wh)")
    words.add_argument("--absent", metavar="TEXT", help="the text of a reading that is absent; an empty field is absent in any case")
    words.add_argument("--round", metavar="MINUTES", type=round_minutes, required=True,
                       help="the length of a round; each time has to be a whole number of rounds after midnight")
    words.add_argument("--offset", metavar="OFFSET", type=offset,
                       help="the offset of the times that have none, and whose clock is never set, as Z or +01:00"
                       " (--offset=-05:00 where it begins with -)")
    words.add_argument("--from", metavar="TIME", dest="first", help="leave out what is before this time")
    words.add_argument("--until", metavar="TIME", help="leave out what is at this time or after it")


def add_group_words(parser: argparse.ArgumentParser) -> None:
    words = parser.add_argument_group("the groups")
    way = words.add_mutually_exclusive_group(required=True)
    way.add_argument("--groups", metavar="TABLE",
                     help="who is in which group: a table with the meter's column and one for the group. Columns from and"
                     " until, if it has them, are the time from which the meter is a member and that from which it no longer"
                     " is; without these, it is a member from its first reading to its last")
    way.add_argument("--group-size", metavar="METERS", type=number_in(LEAST_METERS, MOST_METERS),
                     help="make groups of at most METERS meters, in the order of their names")
    words.add_argument("--group", metavar="COLUMN", default="group", help="the column of TABLE with the group's name (group)")
    words.add_argument("--floor", metavar="METERS", type=number_in(LEAST_METERS, MOST_METERS),
                       help="of how many homes a total has to be at least (half of the group's meters)")


def add_link_words(parser: argparse.ArgumentParser) -> None:
    words = parser.add_argument_group("the link, as docs/FORMATS.md describes it")
    words.add_argument("--windows", metavar="W1,W2", type=windows, default=(2, 4),
                       help="the ticks for readings, and those for recovery (2,4)")
    words.add_argument("--lane", metavar="NAME,ARGUMENT", type=lane, action="append", default=[],
                       help="a lane that all frames pass, as seeded,101:5:10:2; may be given several times"
                       " (no lane: nothing is lost)")


def words() -> argparse.ArgumentParser:
    parser = argparse.ArgumentParser(
        prog="examples/import", description=DESCRIPTION, epilog=EPILOG, allow_abbrev=False,
        formatter_class=argparse.RawDescriptionHelpFormatter,
    )
    parser.add_argument("readings", metavar="READINGS", help="the table of readings; its fields are parted by commas")
    parser.add_argument("folder", metavar="FOLDER", help="the folder to make; where it is there already, it has to be empty")
    add_table_words(parser)
    add_group_words(parser)
    add_link_words(parser)
    return parser


def part_of(options: argparse.Namespace, clock: Clock) -> Span:
    """The rounds that --from and --until leave."""
    bounds = []
    for name, text, bound in (("--from", options.first, -sys.maxsize), ("--until", options.until, sys.maxsize)):
        try:
            bounds.append(bound if text is None else clock.round_of(text))
        except ValueError as fault:
            raise Refused(f"{name}: {fault}") from None
    return Span(*bounds)


def read_groups(options: argparse.Namespace, clock: Clock) -> Tuple[List[Group], Span]:
    """The groups with their meters and all readings, and the rounds from the first reading to the last."""
    part = part_of(options, clock)
    members = read_members(options.groups, (options.meter, options.group), clock) if options.groups else None
    pilot = Pilot(options.readings, clock, members)
    pilot.read((options.meter, options.time, options.reading), options.unit, options.absent, part)
    whole = pilot.judge()
    silent = [meter.name for meter in pilot.meters.values() if not meter.may_be_member]
    if silent:
        note(f"meters without a reading, which are left out: {len(silent)}, first {shown(silent[0])}")
    if members is None:
        members = even_groups(pilot.meters.values(), options.group_size)
    return groups_of(members, options.floor), whole


def import_pilot(options: argparse.Namespace) -> str:
    """Does it all, and says what was made."""
    if not is_free(options.folder):
        raise Refused(f"{shown(options.folder)} is there already, and may hold keys")
    clock = Clock(options.round, options.offset)
    groups, whole = read_groups(options, clock)
    districts = districts_of(groups, whole, clock)
    if not districts:
        raise Refused("no group reaches its floor in any district")
    link = Link(options.windows, options.lane)
    if len(districts) == 1:
        make_folder(options.folder, lambda room: write_district(room, districts[0], whole, link, clock))
    else:
        make_folder(options.folder, lambda room: write_districts(room, districts, whole, link, clock))
    return summary(groups, districts, whole, clock)


def summary(groups: List[Group], districts: List[District], whole: Span, clock: Clock) -> str:
    meters = [meter for group in groups for meter in group.meters]
    readings = sum(len(meter.rounds) for meter in meters)
    counts = f"meters={len(meters)} groups={len(groups)} rounds={len(whole)} readings={readings} districts={len(districts)}"
    return f"{counts} first={clock.at(whole.first)} last={clock.at(whole.after - 1)}"


def main(arguments: Optional[List[str]] = None) -> int:
    parser = words()
    options = parser.parse_args(arguments)
    names = [name for name, _ in options.lane]
    if any(names.count(name) > MOST_LANES_OF_A_KIND for name in names):
        parser.error(f"argument --lane: a plan has at most {MOST_LANES_OF_A_KIND} lanes of one name")
    try:
        print(import_pilot(options))
        return 0
    except Refused as refused:
        for line in refused.args:
            note(line)
        note("nothing is written")
        return 1


def run() -> None:
    # A folder that isn't whole is removed before the end.
    for number in (signal.SIGTERM, signal.SIGHUP):
        signal.signal(number, lambda number, _: sys.exit(128 + number))
    try:
        sys.exit(main())
    except KeyboardInterrupt:
        sys.exit(130)
