#!/usr/bin/env python3
"""A second reader of multi-mode files, written from docs/FORMAT.md alone, to compare with.

    plain_reader.py FILE    what the program says to `farm check FILE`: one line, or one fault

Nothing here is shared with the service: no code, no tables.
"""
import re
import sys

MOST_BYTES = 1048576
# Whatever is counted or limited is far below this number, so that longer numbers are kept as this one.
HUGE = 10 ** 30
PRECEDENCE, REQUESTS, AMOUNTS = "PRECEDENCE RELATIONS", "REQUESTS/DURATIONS", "RESOURCEAVAILABILITIES"
TITLES = [b"PROJECTINFORMATION:", b"PRECEDENCERELATIONS:", b"REQUESTS/DURATIONS:", b"RESOURCEAVAILABILITIES:"]
LABELS = [b"projects", b"jobs(incl.supersource/sink)", b"-renewable", b"-nonrenewable", b"-doublyconstrained"]


class Fault(Exception):
    """The text of a fault, such as Number(14)."""


class Read:
    """What a text spells: of each job the durations, requests and consumptions of its modes, and its successors."""

    def __init__(self, modes, successors, capacities, stocks):
        self.modes, self.successors, self.capacities, self.stocks = modes, successors, capacities, stocks
        self.horizon = sum(max((m[0] for m in ms), default=0) for ms in modes)

    def summary(self):
        modes = sum(map(len, self.modes))
        return (f"activities {len(self.modes)} modes {modes} renewable {len(self.capacities)}"
                f" nonrenewable {len(self.stocks)} horizon {self.horizon}")


def words_of(line):
    return [w for w in re.split(b"[ \t]+", line) if w]


def closed_up(line):
    return re.sub(b"[ \t]", b"", line)


def number(word):
    """The number that a word writes, or None."""
    if not re.fullmatch(b"[0-9]+", word):
        return None
    digits = word.lstrip(b"0")
    return HUGE if len(digits) > 30 else int(digits or b"0")


def lines_of(text):
    """The lines with their dropped ends. What follows the last line feed has no word that the next line could not have."""
    text = text.split(b"\x1a", 1)[0]
    pieces = text.split(b"\n")
    return [p[:-1] if p.endswith(b"\r") else p for p in pieces]


def is_rule(line):
    return set(closed_up(line)) in ({ord("*")}, {ord("-")})


def is_skipped(line):
    return not closed_up(line) or is_rule(line)


def head_of(lines):
    """The five counts, in the order of LABELS."""
    values = {}
    for line in lines:
        if closed_up(line) in TITLES:
            break
        label, colon, rest = line.partition(b":")
        label = closed_up(label)
        if colon and label in LABELS and label not in values:
            values[label] = words_of(rest)
    counts = []
    for label, missing in zip(LABELS, [1, None, 0, 0, 0]):
        if label not in values:
            counts.append(missing)
        else:
            counts.append(number(values[label][0]) if values[label] else None)
    if None in counts:
        raise Fault("Header")
    if counts[0] != 1:
        raise Fault("Projects")
    if counts[4] != 0:
        raise Fault("Doubly")
    return counts[1:4]


def section_bounds(lines):
    """Where the three titles stand, counted from 0."""
    bounds, at = [], 0
    for name, title in zip([PRECEDENCE, REQUESTS, AMOUNTS], TITLES[1:]):
        while at < len(lines) and closed_up(lines[at]) != title:
            at += 1
        if at == len(lines):
            raise Fault(f"Section({name})")
        bounds.append(at)
        at += 1
    return bounds


def section(lines, first, end):
    """The words of a section with the numbers of their lines, below the heads of its columns."""
    counted = [(i + 1, lines[i]) for i in range(first + 1, end) if not is_skipped(lines[i])]
    return [(i, w) for i, line in counted[1:] for w in words_of(line)]


def numbers_of(words):
    for line, word in words:
        if number(word) is None:
            raise Fault(f"Number({line})")
    return [(line, number(word)) for line, word in words]


class Row:
    """Numbers taken from the front; where there are too few, the section's count is at fault."""

    def __init__(self, name, numbers):
        self.name, self.numbers, self.at = name, numbers, 0

    def take(self, many):
        if many > len(self.numbers) - self.at:
            raise Fault(f"Count({self.name})")
        self.at += many
        return self.numbers[self.at - many:self.at]

    def end(self):
        if self.at < len(self.numbers):
            raise Fault(f"Count({self.name})")


def precedence(numbers, jobs):
    """For each job: its number, the number of its modes, and its successors."""
    row, records = Row(PRECEDENCE, numbers), []
    while len(records) < jobs:
        job, modes, many = row.take(3)
        records.append((job, modes[1], row.take(many[1])))
    row.end()
    return records


def requests(numbers, modes_of, renewable, nonrenewable):
    """For each job: its number, and for each mode its number, duration, requests and consumptions."""
    row, records = Row(REQUESTS, numbers), []
    for modes in modes_of:
        job = row.take(1)[0]
        records.append((job, []))
        for _ in range(modes):
            records[-1][1].append(row.take(2 + renewable + nonrenewable))
    row.end()
    return records


def check_numbering(firsts, seconds):
    for records in (firsts, seconds):
        for place, record in enumerate(records, 1):
            if record[0][1] != place:
                raise Fault(f"Numbering({record[0][0]})")
            if records is seconds:
                for mode, numbers in enumerate(record[1], 1):
                    if numbers[0][1] != mode:
                        raise Fault(f"Numbering({numbers[0][0]})")


def check_successors(firsts):
    for job, (_, _, successors) in enumerate(firsts, 1):
        seen = set()
        for line, s in successors:
            if not job < s <= len(firsts) or s in seen:
                raise Fault(f"Successor({line})")
            seen.add(s)


def check_limits(read, renewable, nonrenewable):
    each = [m for ms in read.modes for m in ms]
    limits = [
        ("jobs", 1 <= len(read.modes) <= 202),
        ("modes", all(1 <= len(ms) <= 10 for ms in read.modes)),
        ("renewable", renewable <= 8),
        ("nonrenewable", nonrenewable <= 8),
        ("duration", all(d <= 1000 for d, _, _ in each)),
        ("request", all(q <= 1000000 for _, rs, ks in each for q in rs + ks)),
        ("capacity", all(c <= 1000000 for c in read.capacities + read.stocks)),
    ]
    for name, kept in limits:
        if not kept:
            raise Fault(f"Limit({name})")
    if read.horizon > 20000:
        raise Fault("Limit(horizon)")


def read(text):
    """What a text spells. Raises its first Fault."""
    if len(text) > MOST_BYTES:
        raise Fault("TooLong")
    lines = lines_of(text)
    jobs, renewable, nonrenewable = head_of(lines)
    a, b, c = section_bounds(lines)
    first, second = section(lines, a, b), section(lines, b, c)
    third = section(lines, c, len(lines))[:renewable + nonrenewable]
    # Of all words that are no numbers, the one of the first line is told; the sections stand in this order.
    numbers = [numbers_of(first), numbers_of(second), numbers_of(third)]
    firsts = precedence(numbers[0], jobs)
    seconds = requests(numbers[1], [modes for _, modes, _ in firsts], renewable, nonrenewable)
    amounts = [n for _, n in Row(AMOUNTS, numbers[2]).take(renewable + nonrenewable)]
    check_numbering(firsts, seconds)
    check_successors(firsts)
    cut = 2 + renewable
    values = [[[n for _, n in mode] for mode in modes] for _, modes in seconds]
    modes = [[(m[1], m[2:cut], m[cut:]) for m in ms] for ms in values]
    successors = [[s for _, s in ss] for _, _, ss in firsts]
    result = Read(modes, successors, amounts[:renewable], amounts[renewable:])
    check_limits(result, renewable, nonrenewable)
    return result


def answer(text):
    """The status, and the one line with its stream: 1 or 2."""
    try:
        return 0, read(text).summary()
    except Fault as fault:
        return 1, f"farm: no file {fault}"


if __name__ == "__main__":
    with open(sys.argv[1], "rb") as file:
        status, line = answer(file.read())
    print(line, file=sys.stderr if status else sys.stdout)
    sys.exit(status)
