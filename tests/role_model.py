"""A head end and a meter that stand apart, written from their rules alone: what `collect` and `meter` have to say and to keep.

Nothing here comes from the program. Each line is judged by looking at all that was taken before it. `HeadEnd` and `Meter` answer lines
and gather the lines of their journal; `begin` gives the one or the other from the bytes of a journal, as a start does.
"""
import csv
import io
import struct

MASK = 0xFFFFFFFF
MODULUS = 1 << 64
MOST_LINE = 4096
READING, ANNOUNCEMENT, ANSWER = 1, 2, 3
# A line that begins with one of these is an answer, and has none.
ANSWERS = (b"fresh", b"again", b"differs", b"late", b"void", b"refused", b"closed", b"lacking", b"row", b"ticked", b"reported", b"ready")


class Refused(Exception):
    """A line or a journal is refused, with its cause."""


def rotate(word, count):
    return ((word << count) | (word >> (32 - count))) & MASK


def stream_word(key, stream):
    """The first 64 bits of a stream of ChaCha20 (RFC 8439), whose number stands in the last two words of the state."""
    start = [0x61707865, 0x3320646E, 0x79622D32, 0x6B206574, *struct.unpack("<8I", key), 0, 0, stream & MASK, stream >> 32]
    state = list(start)
    for _ in range(10):
        for offset in (0, 1, 2, 3, 4, 5, 6, 7):
            turn = offset // 4
            a, b, c, d = (offset % 4 if row == 0 else (offset % 4 + row * turn) % 4 + 4 * row for row in range(4))
            for x, y, z, count in ((a, b, d, 16), (c, d, b, 12), (a, b, d, 8), (c, d, b, 7)):
                state[x] = (state[x] + state[y]) & MASK
                state[z] = rotate(state[z] ^ state[x], count)
    return (state[0] + start[0] & MASK) + ((state[1] + start[1] & MASK) << 32)


def told_number(text):
    """The number that a text is, whatever its length."""
    if not text.isdigit() or (len(text) > 1 and text[:1] == b"0"):
        raise Refused("Line")
    return int(text)


def number_of(text):
    """The number below 2^64 that a text is."""
    number = told_number(text)
    if number >= MODULUS:
        raise Refused("Line")
    return number


def set_text(meters):
    return "+".join(map(str, sorted(meters))) or "-"


def set_of(text):
    """The set that a text is: its members, ascending."""
    meters = [] if text == b"-" else [number_of(part) for part in text.split(b"+")]
    if any(meter > 255 for meter in meters) or meters != sorted(set(meters)):
        raise Refused("Line")
    return frozenset(meters)


class Frame:
    """A frame: its kind and place, its set, and its word."""

    def __init__(self, kind, group, round_, meter, missing=frozenset(), word=0):
        self.kind, self.group, self.round, self.meter, self.missing, self.word = kind, group, round_, meter, frozenset(missing), word

    @property
    def place(self):
        return self.group, self.round, self.meter

    def text(self):
        """Its 104 digits."""
        bits = sum(1 << meter for meter in self.missing)
        head = struct.pack(">BBBBHHI", 0x4D, 2, self.kind, self.meter, self.group, 0, self.round)
        return (head + bits.to_bytes(32, "big") + struct.pack(">Q", self.word)).hex().encode()


def frame_of(digits):
    """The frame that 104 digits are, or the first rule that they break."""
    if len(digits) != 104 or any(byte not in b"0123456789abcdefABCDEF" for byte in digits):
        raise Refused("Line")
    data = bytes.fromhex(digits.decode())
    magic, version, kind, meter, group, reserved, round_ = struct.unpack(">BBBBHHI", data[:12])
    bits, word = int.from_bytes(data[12:44], "big"), struct.unpack(">Q", data[44:])[0]
    rules = (
        (magic == 0x4D, "Magic"),
        (version == 2, "Version"),
        (kind in (READING, ANNOUNCEMENT, ANSWER), "Kind"),
        (reserved == 0, "Reserved"),
        (kind != READING or bits == 0, "SetInReading"),
        (kind != ANNOUNCEMENT or word == 0, "WordInAnnouncement"),
    )
    for holds, name in rules:
        if not holds:
            raise Refused(name)
    return Frame(kind, group, round_, meter, {at for at in range(256) if bits >> at & 1}, word)


class Plan:
    """A plan as everybody may know it: of a plan file or a public plan, both right."""

    def __init__(self, text):
        rows = list(csv.reader(io.StringIO(text)))
        self.rounds, self.w1, self.w2 = int(rows[1][1]), int(rows[2][1]), int(rows[2][2])
        self.groups = [(row[1], int(row[2]), int(row[3])) for row in rows if row[0] == "group"]
        self.spans = {(int(row[1]), int(row[2])): (int(row[3]), int(row[4])) for row in rows if row[0] == "member"}
        self.ticks = self.rounds + self.w1 + self.w2

    def members(self, group, round_):
        spans = [self.spans.get((group, meter), (0, self.rounds)) for meter in range(self.groups[group][1])]
        return {meter for meter, (first, after) in enumerate(spans) if first <= round_ < after}

    def has(self, group, round_, meter):
        return group < len(self.groups) and round_ < self.rounds and meter in self.members(group, round_)

    def head(self):
        """The head of a head end's journal."""
        lines = ["meteragg journal 1", f"rounds,{self.rounds}", f"windows,{self.w1},{self.w2}"]
        lines += [f"group,{name},{meters},{floor}" for name, meters, floor in self.groups]
        spans = sorted((place, span) for place, span in self.spans.items() if span != (0, self.rounds))
        lines += [f"member,{group},{meter},{first},{after}" for (group, meter), (first, after) in spans]
        return "".join(line + "\n" for line in [*lines, "begin"]).encode()


class HeadEnd:
    """A head end: the words of the readings and answers that were taken, by place, and the ticks that have passed."""

    def __init__(self, plan):
        self.plan, self.ticks, self.readings, self.answers, self.journal = plan, 0, {}, {}, []
        self.reports = 0

    def head(self):
        return self.plan.head()

    def welcome(self):
        return b"ready,%d" % self.ticks

    def is_closed(self, round_):
        return round_ + self.plan.w1 < self.ticks

    def is_ended(self, round_):
        return round_ + self.plan.w1 + self.plan.w2 < self.ticks

    def survivors(self, group, round_):
        return {meter for meter in self.plan.members(group, round_) if (group, round_, meter) in self.readings}

    def missing(self, group, round_):
        return self.plan.members(group, round_) - self.survivors(group, round_)

    def lacking(self, group, round_):
        return {meter for meter in self.survivors(group, round_) if (group, round_, meter) not in self.answers}

    def is_announced(self, group, round_):
        return self.is_closed(round_) and len(self.survivors(group, round_)) >= self.plan.groups[group][2]

    def verdict(self, frame):
        """What is said of a frame: fresh where it is to be taken."""
        if frame.kind == ANNOUNCEMENT:
            raise Refused("Announcement")
        if not self.plan.has(*frame.place):
            raise Refused("Plan")
        group, round_, meter = frame.place
        if frame.kind == READING:
            taken, late = self.readings, self.is_closed(round_)
        else:
            announced = self.is_announced(group, round_)
            if announced and frame.missing != self.missing(group, round_):
                raise Refused("Set")
            if not announced or meter not in self.survivors(group, round_):
                return b"void"
            taken, late = self.answers, self.is_ended(round_)
        if frame.place in taken:
            return b"again" if taken[frame.place] == frame.word else b"differs"
        return b"late" if late else b"fresh"

    def take(self, frame):
        said = self.verdict(frame)
        if said == b"fresh":
            (self.readings if frame.kind == READING else self.answers)[frame.place] = frame.word
            self.journal.append(b"f," + frame.text())
        return said

    def pass_tick(self):
        self.ticks += 1
        self.journal.append(b"t")

    def row(self, group, round_):
        """The report's row of a round."""
        alive, total = self.survivors(group, round_), ""
        if not self.is_ended(round_):
            outcome = "open"
        elif not self.is_announced(group, round_):
            outcome = "thin"
        elif self.lacking(group, round_):
            outcome = "none"
        else:
            places = [(group, round_, meter) for meter in alive]
            outcome, total = "total", sum(self.readings[place] - self.answers[place] for place in places) % MODULUS
        return f"{self.plan.groups[group][0]},{round_},{len(alive)},{set_text(self.missing(group, round_))},{outcome},{total}"

    def rows(self):
        return [self.row(group, round_) for group in range(len(self.plan.groups)) for round_ in range(self.plan.rounds)]

    def report(self):
        return "".join(line + "\n" for line in ["group,round,survivors,missing,outcome,total", *self.rows()]).encode()

    def summary(self):
        outcomes = [row.split(",")[4] for row in self.rows()]
        words = {"totals": "total", "none": "none", "thin": "thin", "open": "open"}
        counts = " ".join(f"{name}={outcomes.count(word)}" for name, word in words.items())
        return f"rounds={len(outcomes)} {counts}".encode()

    def announcements(self, group, round_, meters):
        missing = self.missing(group, round_)
        return [b"frame," + Frame(ANNOUNCEMENT, group, round_, meter, missing).text() for meter in sorted(meters)]

    def tick_lines(self, tick):
        """The lines of a tick that has passed."""
        said, ended, closed = [], tick - self.plan.w1 - self.plan.w2, tick - self.plan.w1
        for group, (name, _, _) in enumerate(self.plan.groups):
            if 0 <= ended < self.plan.rounds:
                if self.is_announced(group, ended) and self.lacking(group, ended):
                    said.append(f"lacking,{name},{ended},{set_text(self.lacking(group, ended))}".encode())
                said.append(b"row," + self.row(group, ended).encode())
        for group, (name, _, _) in enumerate(self.plan.groups):
            if 0 <= closed < self.plan.rounds:
                alive, announced = self.survivors(group, closed), self.is_announced(group, closed)
                how = "announced" if announced else "thin"
                said.append(f"closed,{name},{closed},{len(alive)},{set_text(self.missing(group, closed))},{how}".encode())
                said += self.announcements(group, closed, alive) if announced else []
        return said

    def hear_tick(self, tick):
        if tick > self.ticks:
            raise Refused("Tick")
        if tick == self.ticks < self.plan.ticks:
            self.pass_tick()
        return [*self.tick_lines(tick), b"ticked,%d" % tick]

    def hear_again(self):
        said = []
        for round_ in range(self.plan.rounds):
            for group in range(len(self.plan.groups)):
                if self.is_announced(group, round_) and not self.is_ended(round_):
                    said += self.announcements(group, round_, self.lacking(group, round_))
        return [*said, self.welcome()]

    def hear(self, line):
        """The lines that answer one."""
        fields = line.split(b",")
        if line == b"again":
            return self.hear_again()
        if line == b"report":
            self.reports += 1
            return [b"reported"]
        if fields[0] == b"frame" and len(fields) == 2:
            return [self.take(frame_of(fields[1]))]
        if fields[0] == b"tick" and len(fields) == 2:
            return self.hear_tick(told_number(fields[1]))
        raise Refused("Line")

    def follow(self, line):
        """Goes on by a line of a journal."""
        if line == b"t" and self.ticks < self.plan.ticks:
            self.pass_tick()
            return
        if not line.startswith(b"f,") or line != line.lower() or self.take(frame_of(line[2:])) != b"fresh":
            raise Refused("Line")


class Meter:
    """A meter: the readings that were marked, and the sets that were kept, by round."""

    def __init__(self, text):
        rows = list(csv.reader(io.StringIO(text)))
        self.rounds, (_, group, self.name, meters, floor) = int(rows[1][1]), rows[2]
        self.group, self.meters, self.floor, self.me = int(group), int(meters), int(floor), int(rows[3][1])
        self.own = next(bytes.fromhex(row[1]) for row in rows if row[0] == "own")
        self.pairs = {int(row[1]): bytes.fromhex(row[2]) for row in rows if row[0] == "pair"}
        self.spans = {int(row[1]): (int(row[2]), int(row[3])) for row in rows if row[0] == "member"}
        self.readings, self.sets, self.journal = {}, {}, []

    def head(self):
        lines = ["meteragg meter journal 1", f"rounds,{self.rounds}", f"group,{self.group},{self.name},{self.meters},{self.floor}"]
        lines += [f"self,{self.me}", *(f"member,{meter},{first},{after}" for meter, (first, after) in sorted(self.spans.items()))]
        return "".join(line + "\n" for line in [*lines, "begin"]).encode()

    def welcome(self):
        return b"ready"

    def members(self, round_):
        spans = [self.spans.get(meter, (0, self.rounds)) for meter in range(self.meters)]
        return {meter for meter, (first, after) in enumerate(spans) if first <= round_ < after}

    def masks(self, round_, others):
        """The own word, and the pair words with these meters, each by its sign."""
        words = [stream_word(self.pairs[other], round_) * (1 if self.me < other else -1) for other in others]
        return stream_word(self.own, round_) + sum(words)

    def hear_reading(self, round_, reading):
        if round_ >= self.rounds or self.me not in self.members(round_):
            raise Refused("Round")
        if reading >= 1 << 40:
            raise Refused("Range")
        if self.readings.get(round_, reading) != reading:
            raise Refused("Twice")
        if round_ not in self.readings:
            self.readings[round_] = reading
            self.journal.append(b"r,%d,%d" % (round_, reading))
        word = (reading + self.masks(round_, self.members(round_) - {self.me})) % MODULUS
        return [b"frame," + Frame(READING, self.group, round_, self.me, (), word).text()]

    def keep_set(self, round_, missing):
        """Keeps the set of a round that is to be answered; whether it is a new one."""
        if round_ >= self.rounds or (round_ in self.readings and not missing <= self.members(round_)):
            raise Refused("OutOfPlan")
        if round_ not in self.readings:
            raise Refused("NotRead")
        if self.me in missing:
            raise Refused("SelfMissing")
        if len(self.members(round_)) - len(missing) < self.floor:
            raise Refused("Thin")
        if self.sets.get(round_, missing) != missing:
            raise Refused("OtherSet")
        if round_ in self.sets:
            return False
        self.sets[round_] = missing
        self.journal.append(b"s,%d,%s" % (round_, set_text(missing).encode()))
        return True

    def hear_frame(self, frame):
        if (frame.kind, frame.group, frame.meter) != (ANNOUNCEMENT, self.group, self.me):
            raise Refused("Tag")
        self.keep_set(frame.round, frame.missing)
        word = self.masks(frame.round, frame.missing) % MODULUS
        return [b"frame," + Frame(ANSWER, self.group, frame.round, self.me, frame.missing, word).text()]

    def hear(self, line):
        """The lines that answer one."""
        fields = line.split(b",")
        if fields[0] == b"reading" and len(fields) == 3:
            return self.hear_reading(told_number(fields[1]), told_number(fields[2]))
        if fields[0] == b"frame" and len(fields) == 2:
            return self.hear_frame(frame_of(fields[1]))
        raise Refused("Line")

    def follow(self, line):
        """Goes on by a line of a journal."""
        fields, before = line.split(b","), len(self.journal)
        if len(fields) == 3 and fields[0] == b"r":
            self.hear_reading(number_of(fields[1]), number_of(fields[2]))
        elif len(fields) == 3 and fields[0] == b"s":
            self.keep_set(number_of(fields[1]), set_of(fields[2]))
        if len(self.journal) == before:
            raise Refused("Line")


def answers(role, line):
    """What a head end or a meter answers to a line: no line, one or several."""
    if len(line) > MOST_LINE:
        return [b"refused,Line"]
    is_command = isinstance(role, HeadEnd) and line == b"again"
    if not line or (line.split(b",")[0] in ANSWERS and not is_command):
        return []
    try:
        return role.hear(line)
    except Refused as cause:
        return [b"refused," + str(cause).encode()]


def begin(role, journal):
    """Goes on by the bytes of a journal. Where they are none, the number of the line and `Head` or `Line`; else nothing."""
    head = role.head()
    if not journal.startswith(head):
        same = next((at for at, (one, other) in enumerate(zip(head, journal)) if one != other), len(journal))
        return None if same == len(journal) else (head[:same].count(b"\n") + 1, "Head")
    number = head.count(b"\n")
    for line in journal[len(head) :].split(b"\n")[:-1]:
        number += 1
        try:
            role.follow(line)
        except Refused:
            return number, "Line"
    return None


def kept(role):
    """The bytes of a role's journal."""
    return role.head() + b"".join(line + b"\n" for line in role.journal)


def said(role, given):
    """What a role says from its start to the end of what it is given, without a head end's summary."""
    lines = [b"", role.welcome()]
    for line in given.split(b"\n")[:-1]:
        lines += answers(role, line)
    return b"".join(line + b"\n" for line in lines)
