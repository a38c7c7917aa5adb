"""Tables with a heading, the faults that they may have, and the numbers in them."""
import csv
import re
import sys
from functools import lru_cache
from typing import Iterator, List, Sequence, Tuple

READING_BOUND = 2**40

# The number of faults at which reading stops, and how many of them are shown.
MOST_FAULTS = 1000
FAULTS_SHOWN = 10

# How many letters of a text a message shows.
MOST_SHOWN = 200

NUMBERS = {
    "wh": re.compile(r"(-?)(\d+)(?:\.(0*))?", re.ASCII),
    "kwh": re.compile(r"(-?)(\d*)(?:\.(\d*))?", re.ASCII),
}


class Refused(Exception):
    """Nothing is made, for the reasons in these lines."""


def shown(text: str) -> str:
    """The text as it can stand in a line of a terminal, and not too long."""
    data = text[:MOST_SHOWN].encode("utf-8", "surrogateescape").decode("utf-8", "backslashreplace")
    visible = "".join(char if char.isprintable() else char.encode("unicode_escape").decode() for char in data)
    return visible if len(text) <= MOST_SHOWN else visible + "..."


def note(text: str) -> None:
    """Tells the user in a line."""
    print(f"import: {text}", file=sys.stderr)


class Faults:
    """The faults of one table, each with its line."""

    def __init__(self, path: str):
        self.path = path
        self.found: List[Tuple[int, str]] = []

    def add(self, line: int, text: str) -> None:
        self.found.append((line, text))
        if len(self.found) == MOST_FAULTS:
            self.stop_if_any()

    def stop_if_any(self) -> None:
        """Refuses the table where it has faults."""
        if not self.found:
            return
        lines = [f"{shown(self.path)} line {line}: {text}" for line, text in sorted(self.found)[:FAULTS_SHOWN]]
        if len(self.found) > FAULTS_SHOWN:
            lines.append(f"there are {'at least ' * (len(self.found) == MOST_FAULTS)}{len(self.found)} faults")
        raise Refused(*lines)


def records(path: str, faults: Faults) -> Iterator[Tuple[int, List[str]]]:
    """The records of a table, each with the line on which it begins. Empty lines are none."""
    line = 1
    try:
        with open(path, encoding="utf-8-sig", errors="surrogateescape", newline="") as file:
            reader = csv.reader(file)
            for record in reader:
                if record:
                    yield line, record
                line = reader.line_num + 1
    except csv.Error as error:
        faults.add(line, f"it can't be split into fields: {error}")
    except OSError as error:
        raise Refused(f"cannot read {shown(path)}: {error.strerror}") from None


def place_of(column: str, heading: List[str]) -> int:
    """Where the heading has this column."""
    column = column.strip()
    if heading.count(column) == 1:
        return heading.index(column)
    fault = "stands twice" if column in heading else "isn't there"
    raise ValueError(f"the column '{shown(column)}' {fault}; the heading is {shown(', '.join(heading))}")


def columns_of(path: str, faults: Faults, columns: Sequence[str], others: Sequence[str] = ()) -> Iterator[Tuple[int, List[str]]]:
    """The fields of these columns in each line below the heading, without blanks around them. A column of `others` that the
    heading doesn't have is empty."""
    lines = records(path, faults)
    line, heading = next(lines, (1, []))
    heading = [name.strip() for name in heading]
    try:
        places = [place_of(name, heading) for name in columns]
        # A column that isn't there is the empty field that each line gets at its end.
        places += [place_of(name, heading) if name in heading else len(heading) for name in others]
    except ValueError as fault:
        faults.add(line, str(fault))
        return
    for line, record in lines:
        if len(record) != len(heading):
            faults.add(line, f"it has another number of fields, {len(record)}, than the heading, {len(heading)}")
        else:
            record.append("")
            yield line, [record[at].strip() for at in places]


@lru_cache(maxsize=65536)
def watt_hours(text: str, unit: str) -> int:
    """The watt-hours of a reading, exactly."""
    form = NUMBERS[unit].fullmatch(text)
    if not form or not (form[2] or form[3]):
        raise ValueError(f"the reading '{shown(text)}' is no number")
    minus, whole, decimals = form[1], form[2].lstrip("0"), (form[3] or "").rstrip("0")
    if minus:
        raise ValueError(f"the reading {shown(text)} is negative")
    if len(decimals) > 3:
        raise ValueError(f"the reading {shown(text)} has more than three decimals")
    # Where there are more digits, it is too large in any case.
    digits = int(whole[:14] or 0)
    reading = digits if unit == "wh" else digits * 1000 + int(decimals.ljust(3, "0"))
    if reading >= READING_BOUND:
        raise ValueError(f"the reading {shown(text)} is too large: it has to be below 2^40 watt-hours")
    return reading
