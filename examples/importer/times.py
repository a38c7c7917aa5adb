"""Times, and the rounds that begin at them."""
import re
from dataclasses import dataclass
from datetime import datetime, timedelta, timezone
from typing import Dict, Iterator, Optional

from importer.tables import shown

MINUTE = 60
HOUR = 60 * MINUTE
DAY = 24 * HOUR
EPOCH = datetime(1970, 1, 1)

OFFSET = re.compile(r"[Zz]|[+-](?:[01]\d|2[0-3])(?::?[0-5]\d)?", re.ASCII)
TIME = re.compile(
    r"(?P<date>\d{4}(-?)\d\d\2\d\d)"
    r"(?:[Tt ](?P<hour>\d\d)(:?)(?P<minute>\d\d)(?:\4(?P<second>\d\d)(?:[.,](?P<part>\d+))?)?)?"
    rf" ?(?P<offset>{OFFSET.pattern})?",
    re.ASCII,
)
SECONDS = re.compile(r"(\d{1,11})(?:\.(\d+))?", re.ASCII)


@dataclass(frozen=True)
class Moment:
    """A time: seconds since 1970, in UTC if its offset is known, else by the clock of the table. An offset is in seconds."""

    instant: int
    offset: Optional[int]

    @property
    def local(self) -> int:
        """Seconds since 1970 by the clock that shows this time."""
        return self.instant + (self.offset or 0)

    def __str__(self) -> str:
        shows = EPOCH + timedelta(seconds=self.local)
        if self.offset is None:
            return shows.isoformat()
        return shows.replace(tzinfo=timezone(timedelta(seconds=self.offset))).isoformat()


def offset_of(text: str) -> int:
    """The seconds of an offset such as Z, +01, +0100 or +01:00."""
    if not OFFSET.fullmatch(text):
        raise ValueError(f"'{shown(text)}' is no offset, such as Z or +01:00")
    if text in "Zz":
        return 0
    digits = text[1:].replace(":", "").ljust(4, "0")
    seconds = int(digits[:2]) * HOUR + int(digits[2:]) * MINUTE
    return -seconds if text[0] == "-" else seconds


def moment_of(text: str, assumed_offset: Optional[int]) -> Moment:
    """Reads a time of ISO 8601, or the seconds since 1970. A time without an offset has the assumed one, if there is one."""
    seconds, form = SECONDS.fullmatch(text), TIME.fullmatch(text)
    if seconds:
        moment, part = Moment(int(seconds[1]), 0), seconds[2]
    elif form:
        moment, part = dated_moment(form, assumed_offset), form["part"]
    else:
        raise ValueError(f"'{shown(text)}' is no time")
    if part and part.strip("0"):
        raise ValueError(f"the time {text} isn't on the edge of a round, since it has a part of a second")
    return moment


def dated_moment(form: "re.Match[str]", assumed_offset: Optional[int]) -> Moment:
    date = form["date"].replace("-", "")
    hour, minute, second = (int(form[name] or 0) for name in ("hour", "minute", "second"))
    is_end_of_day = (hour, minute, second) == (24, 0, 0)
    try:
        shows = datetime(int(date[:4]), int(date[4:6]), int(date[6:]), 0 if is_end_of_day else hour, minute, second)
    except ValueError:
        raise ValueError(f"there is no time {form[0]}") from None
    offset = offset_of(form["offset"]) if form["offset"] else assumed_offset
    passed = shows - EPOCH
    return Moment(passed.days * DAY + passed.seconds + (DAY if is_end_of_day else 0) - (offset or 0), offset)


class Clock:
    """Tells the round of a time. Rounds are counted from the midnight of the first time that it reads."""

    def __init__(self, minutes: int, assumed_offset: Optional[int]):
        self.length = minutes * MINUTE
        self.assumed_offset = assumed_offset
        self.midnight: Optional[int] = None
        self.first_text = ""
        self.usual_offset: Optional[int] = None
        self.rounds: Dict[str, int] = {}
        self.offsets: Dict[int, Optional[int]] = {}

    def round_of(self, text: str) -> int:
        """The round that begins at this time. A text that was read before is looked up."""
        known = self.rounds.get(text)
        return self.new_round(text) if known is None else known

    def new_round(self, text: str) -> int:
        moment = moment_of(text, self.assumed_offset)
        if self.midnight is None:
            self.first_text, self.usual_offset = text, moment.offset
            self.midnight = moment.instant - moment.local % DAY
        if (moment.offset is None) != (self.usual_offset is None):
            has = "has no offset" if moment.offset is None else "has an offset"
            raise ValueError(f"the time {text} {has}, unlike {self.first_text}, which was read first")
        number, rest = divmod(moment.instant - self.midnight, self.length)
        if rest:
            raise ValueError(f"the time {text} isn't on the edge of a round of {self.length // MINUTE} minutes")
        self.offsets.setdefault(number, moment.offset)
        self.rounds[text] = number
        return number

    def may_be_set(self, number: int) -> bool:
        """Whether a clock of these times may be set forward or back at this round: they have no offset, it is in the first four
        hours of a day, and rounds fit into an hour."""
        return self.usual_offset is None and HOUR % self.length == 0 and self.at(number).local % DAY < 4 * HOUR

    def at(self, number: int) -> Moment:
        """The time at which this round begins."""
        return Moment(self.midnight + number * self.length, self.offsets.get(number, self.usual_offset))

    def times(self, first: int, after: int) -> Iterator[str]:
        """The time of each round. One that no line has takes the offset of the round before it."""
        offset = self.usual_offset
        for number in range(first, after):
            offset = self.offsets.get(number, offset)
            yield str(Moment(self.midnight + number * self.length, offset))
