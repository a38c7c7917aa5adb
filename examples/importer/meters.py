"""Meters with their readings, and the two tables that they come from."""
import re
from array import array
from bisect import bisect_left
from dataclasses import dataclass, field
from typing import Dict, List, Optional, Sequence

from importer.tables import Faults, Refused, columns_of, shown, watt_hours
from importer.times import HOUR, Clock

GROUP_NAME = re.compile(r"[A-Za-z0-9_-]{1,16}")

# More rounds than this between the first and the last reading are taken for a wrong time: eleven years of quarters of an hour.
MOST_ROUNDS_OF_A_TABLE = 400_000


@dataclass(frozen=True)
class Span:
    """The rounds from `first` up to the one before `after`."""

    first: int
    after: int

    def __len__(self) -> int:
        return max(0, self.after - self.first)

    def __contains__(self, number: int) -> bool:
        return self.first <= number < self.after

    def within(self, other: "Span") -> "Span":
        return Span(max(self.first, other.first), min(self.after, other.after))


@dataclass
class Meter:
    """A meter and its readings, each with its round and its line. `joins` and `leaves` are the first round in which it is a
    member and the one in which it no longer is, where a table says so."""

    name: str
    joins: Optional[int] = None
    leaves: Optional[int] = None
    rounds: array = field(default_factory=lambda: array("q"))
    readings: array = field(default_factory=lambda: array("q"))
    lines: array = field(default_factory=lambda: array("q"))

    @property
    def is_stated(self) -> bool:
        return self.joins is not None or self.leaves is not None

    @property
    def may_be_member(self) -> bool:
        """Whether anything is known of when it is a member."""
        return self.is_stated or len(self.rounds) > 0

    def put(self, line: int, number: int, reading: int) -> None:
        self.rounds.append(number)
        self.readings.append(reading)
        self.lines.append(line)

    def sort(self) -> None:
        """Puts the readings in the order of their rounds, and of the lines in each."""
        order = sorted(range(len(self.rounds)), key=self.rounds.__getitem__)
        self.rounds, self.readings, self.lines = (
            array("q", [values[at] for at in order]) for values in (self.rounds, self.readings, self.lines)
        )

    def span(self, whole: Span) -> Span:
        """The rounds in which it is a member: those that a table says, else those from its first reading to its last."""
        if not self.is_stated:
            return Span(self.rounds[0], self.rounds[-1] + 1)
        joins = whole.first if self.joins is None else self.joins
        return Span(joins, whole.after if self.leaves is None else self.leaves).within(whole)

    def fields(self, span: Span) -> List[str]:
        """A field for each round of the span: the reading, or nothing."""
        fields = [""] * len(span)
        for at in range(bisect_left(self.rounds, span.first), bisect_left(self.rounds, span.after)):
            fields[self.rounds[at] - span.first] = str(self.readings[at])
        return fields


def read_members(path: str, columns: Sequence[str], clock: Clock) -> Dict[str, List[Meter]]:
    """The meters of each group, by a table with the columns of meter and group. Its columns `from` and `until`, if it has them,
    say when a meter is a member."""
    faults = Faults(path)
    groups: Dict[str, List[Meter]] = {}
    seen: Dict[str, int] = {}
    for line, (name, group, joins, leaves) in columns_of(path, faults, columns, ("from", "until")):
        try:
            meter = member(name, joins, leaves, clock)
            if name in seen:
                raise ValueError(f"the meter {shown(name)} stands in line {seen[name]} too")
            if not GROUP_NAME.fullmatch(group):
                raise ValueError(f"'{shown(group)}' is no name of a group, which has 1 to 16 letters, digits, _ or -")
        except ValueError as fault:
            faults.add(line, str(fault))
            continue
        seen[name] = line
        groups.setdefault(group, []).append(meter)
    faults.stop_if_any()
    return groups


def member(name: str, joins: str, leaves: str, clock: Clock) -> Meter:
    if not name:
        raise ValueError("it has no meter")
    meter = Meter(name, clock.round_of(joins) if joins else None, clock.round_of(leaves) if leaves else None)
    if meter.joins is not None and meter.leaves is not None and meter.joins >= meter.leaves:
        raise ValueError(f"{leaves}, until which {shown(name)} is a member, isn't after {joins}, from which it is one")
    return meter


class Pilot:
    """The meters, and what their table of readings says, line by line."""

    def __init__(self, path: str, clock: Clock, members: Optional[Dict[str, List[Meter]]]):
        self.faults = Faults(path)
        self.clock = clock
        self.is_open = members is None
        self.meters = {meter.name: meter for meters in (members or {}).values() for meter in meters}
        # Of each round, the first line that has it.
        self.first_lines: Dict[int, int] = {}

    def read(self, columns: Sequence[str], unit: str, absent: Optional[str], part: Span) -> None:
        """Reads the table, whose columns are those of meter, time and reading, and leaves out what isn't in this part."""
        for line, (name, time, text) in columns_of(self.faults.path, self.faults, columns):
            try:
                meter = self.meters.get(name) or self.new_meter(name)
                if text == "" or text == absent:
                    self.note_gap(line, time)
                    continue
                number = self.clock.round_of(time)
                reading = watt_hours(text, unit)
            except ValueError as fault:
                self.faults.add(line, str(fault))
                continue
            if number in part:
                self.first_lines.setdefault(number, line)
                meter.put(line, number, reading)

    def new_meter(self, name: str) -> Meter:
        if not name:
            raise ValueError("it has no meter")
        if not self.is_open:
            raise ValueError(f"the meter {shown(name)} is unknown: the table of groups doesn't have it")
        return self.meters.setdefault(name, Meter(name))

    def note_gap(self, line: int, time: str) -> None:
        """A line without a reading is a gap, and its time may be any. If it is a round's, the clock has shown it."""
        try:
            self.first_lines.setdefault(self.clock.round_of(time), line)
        except ValueError:
            pass

    def judge(self) -> Span:
        """Looks for the faults that no single line shows, and gives the rounds from the first reading to the last."""
        for meter in self.meters.values():
            meter.sort()
            self.find_second_readings(meter)
        self.find_skipped_hours()
        self.faults.stop_if_any()
        whole = self.whole_span()
        for meter in self.meters.values():
            self.find_strange_readings(meter, whole)
        self.faults.stop_if_any()
        return whole

    def find_second_readings(self, meter: Meter) -> None:
        for at in range(1, len(meter.rounds)):
            number = meter.rounds[at]
            if number == meter.rounds[at - 1]:
                fault = f"{shown(meter.name)} has a second reading for {self.clock.at(number)}"
                fault += f"; the other is in line {meter.lines[at - 1]}"
                hint = ". If this day has 25 hours, the times need an offset" if self.clock.may_be_set(number) else ""
                self.faults.add(meter.lines[at], fault + hint)

    def find_skipped_hours(self) -> None:
        """An hour of a night in which nobody has a reading: where times have no offset, a clock that was set forward looks the
        same as a gap."""
        rounds_of_hour = HOUR // self.clock.length
        seen = sorted(self.first_lines)
        for before, number in zip(seen, seen[1:]):
            skipped = before + 1
            if number - skipped == rounds_of_hour and self.clock.may_be_set(skipped) and skipped % rounds_of_hour == 0:
                fault = f"nobody has a reading in the hour before, from {self.clock.at(skipped)} on"
                hint = "If this day has 23 hours, the times need an offset; else say which offset all have, by --offset"
                self.faults.add(self.first_lines[number], f"{fault}. {hint}")

    def whole_span(self) -> Span:
        path = shown(self.faults.path)
        with_readings = [meter for meter in self.meters.values() if meter.rounds]
        if not with_readings:
            raise Refused(f"{path} has no reading")
        first = min(meter.rounds[0] for meter in with_readings)
        last = max(meter.rounds[-1] for meter in with_readings)
        if last - first >= MOST_ROUNDS_OF_A_TABLE:
            begin, end = (f"{self.clock.at(number)} (line {self.first_lines[number]})" for number in (first, last))
            raise Refused(f"{path} reaches from {begin} to {end}, over more than {MOST_ROUNDS_OF_A_TABLE} rounds")
        return Span(first, last + 1)

    def find_strange_readings(self, meter: Meter, whole: Span) -> None:
        """Each reading has to be one of a member."""
        if meter.is_stated:
            span = meter.span(whole)
            for number, line in zip(meter.rounds, meter.lines):
                if number not in span:
                    self.faults.add(line, f"{shown(meter.name)} is no member of its group at {self.clock.at(number)}")
