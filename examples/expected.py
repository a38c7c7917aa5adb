#!/usr/bin/env python3
"""Computes the report and the summary of a run from its two files, by another road than the program: no masks, no frames,
no threads, only which copies the lanes let through. The report goes to standard output, the summary to standard error.

    examples/expected.py PLAN READINGS
    examples/expected.py --inspect PLAN READINGS

The second form prints what `inspect` says of the run in their place.
"""
import csv
import struct
import sys

MASK = 0xFFFFFFFF


def rotate(word, count):
    return ((word << count) | (word >> (32 - count))) & MASK


def chacha_block(key, counter):
    """A block of ChaCha20 (RFC 8439, with a counter of 64 bits, and stream 0)."""
    start = [0x61707865, 0x3320646E, 0x79622D32, 0x6B206574]
    start += struct.unpack("<8I", key)
    start += [counter & MASK, counter >> 32, 0, 0]
    state = list(start)

    def quarter_round(a, b, c, d):
        for x, y, z, count in ((a, b, d, 16), (c, d, b, 12), (a, b, d, 8), (c, d, b, 7)):
            state[x] = (state[x] + state[y]) & MASK
            state[z] = rotate(state[z] ^ state[x], count)

    for _ in range(10):
        for column in range(4):
            quarter_round(column, column + 4, column + 8, column + 12)
        for diagonal in range(4):
            quarter_round(diagonal, (diagonal + 1) % 4 + 4, (diagonal + 2) % 4 + 8, (diagonal + 3) % 4 + 12)
    return [(a + b) & MASK for a, b in zip(state, start)]


def fate_of(text):
    return [] if text == "-" else [int(delay) for delay in text.split("+")]


def clear(argument):
    return lambda post, tag, coming: [1]


def rules(argument):
    parts = [rule.split("=") for rule in argument.split(";")]
    table = [(pattern.split("."), fate_of(fate)) for pattern, fate in parts]

    def answer(post, tag, coming):
        for pattern, fate in table:
            if all(part in ("*", str(value)) for part, value in zip(pattern, tag)):
                return fate
        return coming

    return answer


def seeded(argument):
    seed, loss, repeat, spread = map(int, argument.split(":"))
    key = struct.pack("<Q", seed) + bytes(24)

    def answer(post, tag, coming):
        lost, first, again, second = chacha_block(key, post // 4)[post % 4 * 4 :][:4]
        if not coming or lost % 1000 < loss:
            return []
        delay = 1 + first % spread
        return [delay, min(16, delay + second % spread)] if again % 1000 < repeat else [delay]

    return answer


def every(argument):
    count, fate = argument.split(":")
    return lambda post, tag, coming: fate_of(fate) if (post + 1) % int(count) == 0 else coming


def burst(argument):
    through, lost = map(int, argument.split(":"))
    return lambda post, tag, coming: [] if post % (through + lost) >= through else coming


class Lane:
    KINDS = {"clear": clear, "rules": rules, "seeded": seeded, "every": every, "burst": burst}

    def __init__(self, name, argument, first, last):
        self.answer = self.KINDS[name](argument)
        self.first, self.last, self.posts = int(first), int(last), 0

    def fate(self, tick, tag, coming):
        if not self.first <= tick <= self.last:
            return coming
        self.posts += 1
        return self.answer(self.posts - 1, tag, coming)


class Plan:
    def __init__(self, path):
        rows = list(csv.reader(open(path, newline="")))
        self.rounds, self.w1, self.w2 = int(rows[1][1]), int(rows[2][1]), int(rows[2][2])
        self.groups = [(row[1], int(row[2]), int(row[3])) for row in rows if row[0] == "group"]
        self.lanes = [Lane(*row[1:]) for row in rows if row[0] == "lane"]
        self.spans = {(int(row[1]), int(row[2])): (int(row[3]), int(row[4])) for row in rows if row[0] == "member"}

    def members(self, group, r):
        spans = [self.spans.get((group, meter), (0, self.rounds)) for meter in range(self.groups[group][1])]
        return [meter for meter, (first, until) in enumerate(spans) if first <= r < until]


def readings_of(plan, path):
    rows = iter(csv.reader(open(path, newline="")))
    found = {}
    for group in range(len(plan.groups)):
        for r in range(plan.rounds):
            for meter, reading in enumerate(next(rows)[2:]):
                if reading:
                    found[group, r, meter] = int(reading)
    return found


def run(plan, readings):
    """The fates of all Sends, by tick and tag, and the survivors of each round."""
    fates, due, survivors = {}, {}, {}
    for tick in range(plan.rounds + plan.w1 + plan.w2 + 32):
        came = due.pop(tick, [])
        asked = sorted({(group, r, meter) for group, r, kind, meter in came if kind == "m"})
        closed = tick - plan.w1
        for group, (_, _, floor) in enumerate(plan.groups):
            tags = [(g, r, "r", i) for g, r, i in sorted(readings) if (g, r) == (group, tick)]
            if 0 <= closed < plan.rounds:
                own = [(closed, (group, closed, "r", i)) for i in plan.members(group, closed)]
                alive = [tag[3] for at, tag in own if any(d <= plan.w1 for d in fates.get((at, tag), []))]
                survivors[group, closed] = alive
                if len(alive) >= floor:
                    tags += [(group, closed, "m", meter) for meter in alive]
            tags += [(g, r, "a", i) for g, r, i in asked if g == group]
            for tag in tags:
                fate = [1]
                for lane in plan.lanes:
                    fate = lane.fate(tick, tag, fate)
                fates[tick, tag] = fate
                for delay in fate:
                    due.setdefault(tick + delay, []).append(tag)
    return fates, survivors


def has_answered(plan, fates, group, r, meter):
    closed = r + plan.w1
    for told in fates[closed, (group, r, "m", meter)]:
        for answered in fates.get((closed + told, (group, r, "a", meter)), []):
            if told + answered <= plan.w2:
                return True
    return False


def opened_rounds(plan, fates, survivors):
    """The survivors of each opened round: it is announced, and every survivor sent its answer, at whatever tick."""
    sent = {tag for _, tag in fates}
    return {
        (group, r): alive
        for (group, r), alive in survivors.items()
        if len(alive) >= plan.groups[group][2] and all((group, r, "a", meter) in sent for meter in alive)
    }


def inspect(plan_path, readings_path):
    """Prints what `inspect` says of the run."""
    plan = Plan(plan_path)
    fates, survivors = run(plan, readings_of(plan, readings_path))
    opened = opened_rounds(plan, fates, survivors)
    totals = sum(all(has_answered(plan, fates, *place, meter) for meter in alive) for place, alive in opened.items())
    least = min((len(alive) for alive in opened.values()), default=0)
    print(f"inspect: rows={len(survivors)} totals={totals} opened={len(opened) - totals} least={least}")


def main(plan_path, readings_path):
    plan = Plan(plan_path)
    readings = readings_of(plan, readings_path)
    fates, survivors = run(plan, readings)
    counts = {"total": 0, "none": 0, "thin": 0}
    print("group,round,survivors,missing,outcome,total")
    for group, (name, _, floor) in enumerate(plan.groups):
        for r in range(plan.rounds):
            alive, total = survivors[group, r], ""
            missing = [str(meter) for meter in plan.members(group, r) if meter not in alive]
            if len(alive) < floor:
                outcome = "thin"
            elif all(has_answered(plan, fates, group, r, meter) for meter in alive):
                outcome, total = "total", sum(readings[group, r, meter] for meter in alive)
            else:
                outcome = "none"
            counts[outcome] += 1
            print(f"{name},{r},{len(alive)},{'+'.join(missing) or '-'},{outcome},{total}")
    takes = sum(len(fate) for fate in fates.values())
    outcomes = f"totals={counts['total']} none={counts['none']} thin={counts['thin']}"
    print(f"rounds={len(plan.groups) * plan.rounds} {outcomes} sends={len(fates)} takes={takes}", file=sys.stderr)


if __name__ == "__main__":
    if sys.argv[1] == "--inspect":
        inspect(*sys.argv[2:])
    else:
        main(*sys.argv[1:])
