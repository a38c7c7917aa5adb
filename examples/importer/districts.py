"""Groups of meters, and the districts that hold them: as many as it takes for each to be one plan."""
import math
from dataclasses import dataclass, replace
from typing import Dict, Iterable, List, Optional

from importer.meters import Meter, Span
from importer.tables import Refused, note
from importer.times import Clock

MOST_GROUPS = 256
LEAST_METERS, MOST_METERS = 2, 256
MOST_ROUNDS = 4096
MOST_READINGS = 131_072
MOST_PAIRS = 1_048_576


@dataclass(frozen=True)
class Group:
    name: str
    floor: int
    meters: List[Meter]

    @property
    def pairs(self) -> int:
        return len(self.meters) * (len(self.meters) - 1) // 2


@dataclass(frozen=True)
class District:
    """What one plan holds: some groups in a span of rounds."""

    groups: List[Group]
    span: Span


def even_groups(meters: Iterable[Meter], most: int) -> Dict[str, List[Meter]]:
    """Groups g1, g2 and so on of at most `most` meters, by the meters' names, as even as they can be."""
    ordered = sorted((meter for meter in meters if meter.may_be_member), key=lambda meter: meter.name)
    count = math.ceil(len(ordered) / most)
    bounds = [len(ordered) * at // count for at in range(count + 1)]
    return {f"g{at + 1}": ordered[bounds[at] : bounds[at + 1]] for at in range(count)}


def groups_of(members: Dict[str, List[Meter]], floor: Optional[int]) -> List[Group]:
    """The groups with this floor, or with half of their meters."""
    groups, faults = [], []
    for name, all_meters in members.items():
        meters = [meter for meter in all_meters if meter.may_be_member]
        size = len(meters)
        group = Group(name, floor or max(LEAST_METERS, math.ceil(size / 2)), meters)
        groups.append(group)
        if not LEAST_METERS <= size <= MOST_METERS:
            faults.append(f"a group has {LEAST_METERS} to {MOST_METERS} meters, and {name} has {size} with readings")
        elif group.floor > size:
            faults.append(f"the floor of {name} is {group.floor}, and it has {size} meters with readings")
    if faults:
        raise Refused(*faults)
    return groups


def districts_of(groups: List[Group], whole: Span, clock: Clock) -> List[District]:
    """Fills districts with the groups, in their order, period by period."""
    districts: List[District] = []
    for period in periods_of(groups, whole):
        filled: List[Group] = []
        for group in present(groups, period, whole, clock):
            if not filled or not fits([*filled, group], period):
                filled = []
                districts.append(District(filled, period))
            filled.append(group)
    return districts


def periods_of(groups: List[Group], whole: Span) -> List[Span]:
    """As few periods as will do, of about the same length, so that a plan can hold the largest group for one of them."""
    largest = max(len(group.meters) for group in groups)
    count = math.ceil(len(whole) / min(MOST_ROUNDS, MOST_READINGS // largest))
    bounds = [whole.first + len(whole) * at // count for at in range(count + 1)]
    return [Span(first, after) for first, after in zip(bounds, bounds[1:])]


def present(groups: List[Group], period: Span, whole: Span, clock: Clock) -> List[Group]:
    """The groups with those meters that are members in some round of the period. A group with fewer than its floor has no total
    there, so it is left out."""
    there = []
    for group in groups:
        meters = [meter for meter in group.meters if len(meter.span(whole).within(period))]
        if len(meters) >= group.floor:
            there.append(replace(group, meters=meters))
        else:
            rounds = f"the {len(period)} rounds from {clock.at(period.first)} on"
            note(f"{group.name} is left out in {rounds}: it has {len(meters)} meters there, and its floor is {group.floor}")
    return there


def fits(groups: List[Group], period: Span) -> bool:
    meters = sum(len(group.meters) for group in groups)
    pairs = sum(group.pairs for group in groups)
    return len(groups) <= MOST_GROUPS and meters * len(period) <= MOST_READINGS and pairs <= MOST_PAIRS
