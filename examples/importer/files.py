"""The files of a run, as they are written."""
import csv
import os
import shutil
import tempfile
from dataclasses import dataclass
from typing import Callable, Iterable, Iterator, List, TextIO, Tuple

from importer.districts import District
from importer.meters import Span
from importer.tables import Refused, shown
from importer.times import Clock

METERS_HEADING = ["group", "number", "meter"]
ROUNDS_HEADING = ["round", "time"]


@dataclass(frozen=True)
class Link:
    """The two windows in ticks, and the lanes: each a name and its argument."""

    windows: Tuple[int, int]
    lanes: List[Tuple[str, str]]


def fresh_keys(count: int) -> Iterator[str]:
    """Keys from the system's source of random bytes."""
    digits = os.urandom(32 * count).hex()
    return (digits[at : at + 64] for at in range(0, len(digits), 64))


def plan_lines(district: District, whole: Span, link: Link) -> Iterator[str]:
    rounds = len(district.span)
    yield "plan,1"
    yield f"rounds,{rounds}"
    yield f"windows,{link.windows[0]},{link.windows[1]}"
    for group in district.groups:
        yield f"group,{group.name},{len(group.meters)},{group.floor}"
    yield from key_lines(district)
    last_tick = rounds + sum(link.windows) + 31
    for name, argument in link.lanes:
        yield f"lane,{name},{argument},0,{last_tick}"
    yield from member_lines(district, whole)


def key_lines(district: District) -> Iterator[str]:
    for number, group in enumerate(district.groups):
        size = len(group.meters)
        for place, key in enumerate(fresh_keys(size)):
            yield f"own,{number},{place},{key}"
        pairs = ((low, high) for low in range(size) for high in range(low + 1, size))
        for (low, high), key in zip(pairs, fresh_keys(group.pairs)):
            yield f"pair,{number},{low},{high},{key}"


def member_lines(district: District, whole: Span) -> Iterator[str]:
    """A line for each meter that isn't a member in all rounds."""
    begin = district.span.first
    for number, group in enumerate(district.groups):
        for place, meter in enumerate(group.meters):
            span = meter.span(whole).within(district.span)
            if span != district.span:
                yield f"member,{number},{place},{span.first - begin},{span.after - begin}"


def reading_lines(district: District) -> Iterator[str]:
    for group in district.groups:
        columns = [meter.fields(district.span) for meter in group.meters]
        for number, fields in enumerate(zip(*columns)):
            yield f"{group.name},{number},{','.join(fields)}"


def meter_rows(district: District) -> Iterator[List[str]]:
    for group in district.groups:
        for place, meter in enumerate(group.meters):
            yield [group.name, str(place), meter.name]


def round_rows(district: District, clock: Clock) -> Iterator[List[str]]:
    for number, time in enumerate(clock.times(district.span.first, district.span.after)):
        yield [str(number), time]


def open_new(path: str) -> TextIO:
    """Makes a file that only its owner may read."""

    def opener(name: str, flags: int) -> int:
        return os.open(name, flags, 0o600)

    return open(path, "x", encoding="utf-8", errors="surrogateescape", newline="", opener=opener)


def write_lines(path: str, lines: Iterable[str]) -> None:
    with open_new(path) as file:
        file.writelines(f"{line}\n" for line in lines)


def write_table(path: str, heading: List[str], rows: Iterable[List[str]]) -> None:
    with open_new(path) as file:
        writer = csv.writer(file, lineterminator="\n")
        writer.writerow(heading)
        writer.writerows(rows)


def write_district(folder: str, district: District, whole: Span, link: Link, clock: Clock) -> None:
    write_lines(os.path.join(folder, "plan.csv"), plan_lines(district, whole, link))
    write_lines(os.path.join(folder, "readings.csv"), reading_lines(district))
    write_table(os.path.join(folder, "meters.csv"), METERS_HEADING, meter_rows(district))
    write_table(os.path.join(folder, "rounds.csv"), ROUNDS_HEADING, round_rows(district, clock))


def write_districts(folder: str, districts: List[District], whole: Span, link: Link, clock: Clock) -> None:
    """Writes a folder for each district, and what tells meters and rounds of all of them."""
    named = [(f"d{number}", district) for number, district in enumerate(districts, 1)]
    for name, district in named:
        os.mkdir(os.path.join(folder, name), 0o700)
        write_district(os.path.join(folder, name), district, whole, link, clock)
    meters = ([name, *row] for name, district in named for row in meter_rows(district))
    rounds = ([name, *row] for name, district in named for row in round_rows(district, clock))
    write_table(os.path.join(folder, "meters.csv"), ["district", *METERS_HEADING], meters)
    write_table(os.path.join(folder, "rounds.csv"), ["district", *ROUNDS_HEADING], rounds)


def is_free(folder: str) -> bool:
    """Whether nothing stands under this name, or an empty folder."""
    return not os.path.lexists(folder) or (os.path.isdir(folder) and not os.listdir(folder))


def make_folder(folder: str, write: Callable[[str], None]) -> None:
    """Makes the folder whole or not at all: it gets its name once all its files are there."""
    parent, name = os.path.split(os.path.abspath(folder))
    room = None
    try:
        room = tempfile.mkdtemp(prefix=f".{name}-", dir=parent)
        write(room)
        os.rename(room, folder)
    except OSError as error:
        raise Refused(f"cannot write {shown(folder)}: {error.strerror}") from None
    finally:
        if room:
            shutil.rmtree(room, ignore_errors=True)
