#!/usr/bin/env python3
"""How many variables and clauses `there is a schedule of at most BOUND periods` has, written from docs/CERTIFICATES.md and the
definitions in crates/schedule_clauses/specs: a second program to compare with.

    plain_clauses.py FILE BOUND     prints the two numbers

A row is counted by its sums: two amounts that are left for its first levels are one node if no sum of choices lies between them.
The clauses on starts that prices bar are not counted: no prices are found here. Their form is read, and all short schedules of a small project can be gone over.
"""
import os
import sys
from bisect import bisect_right
from math import comb

sys.dont_write_bytecode = True
sys.path.insert(0, os.path.dirname(os.path.realpath(__file__)))
import plain_reader  # noqa: E402


class Windows:
    """The first and the last start of each activity, from 0, that chains of shortest durations leave."""

    def __init__(self, p, bound):
        self.size, self.bound = len(p.modes), bound
        self.least = [min(mode[0] for mode in own) for own in p.modes]
        self.first, tail = [0] * self.size, [0] * self.size
        for i, own in enumerate(p.successors):
            for j in own:
                self.first[j - 1] = max(self.first[j - 1], self.first[i] + self.least[i])
        for i in reversed(range(self.size)):
            tail[i] = max((self.least[j - 1] + tail[j - 1] for j in p.successors[i]), default=0)
        self.tail = tail
        # (where a chain is longer than the bound, a last start is no time; 0 stands for it)
        self.last = [max(0, bound - self.least[i] - tail[i]) for i in range(self.size)]

    def before(self, j):
        return max(self.first[j] - 1, 0)

    def known(self, j):
        """The times of which there is a variable: those of the window, and one before it."""
        return range(min(self.before(j), self.last[j]), max(self.before(j), self.last[j]) + 1)


def mode_counts(p):
    """Variables and clauses: exactly one mode each, and none that takes time and requests more than there is."""
    over = sum(own[0] > 0 and a > c for modes in p.modes for own in modes for a, c in zip(own[1], p.capacities))
    return sum(map(len, p.modes)), sum(1 + comb(len(own), 2) for own in p.modes) + over


def start_counts(p, w):
    """Variables and clauses of starts, ends, precedence and runs."""
    variables = sum(len(w.known(j)) for j in range(w.size))
    clauses = sum(len(w.known(j)) - 1 for j in range(w.size)) + w.size
    for j, own in enumerate(p.modes):
        clauses += sum(max(w.bound - mode[0] - w.tail[j], w.first[j] - 1) != w.last[j] for mode in own)
        runs = [mode[0] for mode in own if mode[0] and any(mode[1])]
        each = sum(max(0, min(w.last[j] + duration, w.bound) - w.first[j]) for duration in runs)
        variables, clauses = variables + each, clauses + each
    for i, after in enumerate(p.successors):
        durations = {w.least[i]: 1}
        for mode in p.modes[i]:
            if mode[0] != w.least[i]:
                durations[mode[0]] = durations.get(mode[0], 0) + 1
        for j in after:
            times = range(w.before(j - 1), w.last[j - 1] + 1)
            clauses += sum(many for duration, many in durations.items() for t in times if max(t - duration, w.first[i] - 1) < w.last[i])
    return variables, clauses


class Row:
    """A row: levels of amounts, of which one at most is taken of each level, are at most the capacity."""

    def __init__(self, levels, capacity):
        self.levels, self.capacity = levels, capacity
        sums = [{0}]
        for level in levels:
            sums.append({a + b for a in sums[-1] for b in [0, *level]})
        self.sums = [sorted(it) for it in sums]

    def node(self, level, amount):
        """The greatest amount in which the same choices of the first levels fit, or None if all do."""
        above = bisect_right(self.sums[level], amount)
        return self.sums[level][above] - 1 if above < len(self.sums[level]) else None

    def counts(self):
        """Nodes, and clauses: at each node, that the levels below take no more, and what each choice leaves them, unless all fits."""
        top = self.node(len(self.levels), self.capacity)
        nodes, count, clauses = {top} - {None}, 0, 0
        for level in reversed(range(len(self.levels))):
            count, below = count + len(nodes), set()
            for amount in nodes:
                rest = [self.node(level, amount - taken) for taken in [0, *self.levels[level]] if taken <= amount]
                clauses += sum(taken > amount for taken in self.levels[level]) + sum(it is not None for it in rest)
                below.update(it for it in rest if it is not None)
            nodes = below
        return count, clauses


def capacity_counts(levels, capacity):
    """Variables and clauses of a capacity row: the activities of all levels take at most the capacity."""
    nodes, clauses = Row(levels, capacity).counts()
    return (nodes, clauses + 1) if nodes else (0, 0)


def all_before(p):
    """For each activity, from 0, all that come before it."""
    before = [set() for _ in p.modes]
    for i, own in enumerate(p.successors):
        for j in own:
            before[j - 1] |= before[i] | {i}
    return before


def chains(amounts, before):
    """The amounts in chains of activities, each activity in the first chain whose last one comes before it."""
    lasts, levels = [], []
    for j, own in enumerate(amounts):
        if own:
            place = next((at for at, last in enumerate(lasts) if last in before[j]), len(lasts))
            lasts[place:place + 1] = [j]
            levels[place:place + 1] = [(levels[place] if place < len(levels) else []) + own]
    return levels


def renewable_counts(p, w):
    total, before = [0, 0], all_before(p)
    for r, capacity in enumerate(p.capacities):
        for t in range(w.bound):
            able = [[mode[1][r] for mode in own if mode[1][r] and w.first[j] <= t < w.last[j] + mode[0]] for j, own in enumerate(p.modes)]
            for at, many in enumerate(capacity_counts(chains(able, before), capacity)):
                total[at] += many
    return total


def stock_counts(p):
    total = [0, 0]
    for r, stock in enumerate(p.stocks):
        levels = [[mode[2][r] for mode in own if mode[2][r]] for own in p.modes]
        for at, many in enumerate(capacity_counts([level for level in levels if level], stock)):
            total[at] += many
    return total


# What the comments say of the clauses on starts that prices bar.
BARRED = "starts that prices show to be in no schedule within the bound"


def barred_run(clause, meanings):
    """The activity, the mode, and the first and the last start that a clause on barred starts excludes, None at an end that it leaves open. `meanings` has of each
    variable a word, an activity and a mode or a time. Another form of clause is a ValueError."""
    facts = sorted((literal > 0, *meanings[abs(literal)]) for literal in clause)
    modes = [it for it in facts if it[:2] == (False, "mode")]
    last = [it for it in facts if it[:2] == (False, "starts")]
    before = [it for it in facts if it[:2] == (True, "starts")]
    if len(modes) != 1 or len(last) > 1 or len(before) > 1 or len(facts) != len(modes + last + before) or len({it[2] for it in facts}) != 1:
        raise ValueError(facts)
    first, last = before[0][3] + 1 if before else None, last[0][3] if last else None
    if None not in (first, last) and first > last:
        raise ValueError(facts)
    return modes[0][2], modes[0][3], first, last


def schedules(p, bound):
    """All feasible schedules of at most `bound` periods: for each activity, from 0, its mode, from 0, and its start."""
    before = [[i for i, own in enumerate(p.successors) if j + 1 in own] for j in range(len(p.modes))]
    used, taken, left = [[0] * bound for _ in p.capacities], [], list(p.stocks)

    def take(mode, start, sign):
        for r, request in enumerate(mode[1]):
            for t in range(start, start + mode[0]):
                used[r][t] += sign * request
        for r, consumption in enumerate(mode[2]):
            left[r] -= sign * consumption

    def fits(mode, start):
        runs = (used[r][t] + request <= p.capacities[r] for r, request in enumerate(mode[1]) for t in range(start, start + mode[0]))
        return all(runs) and all(consumption <= left[r] for r, consumption in enumerate(mode[2]))

    def all_from(j):
        if j == len(p.modes):
            yield list(taken)
            return
        ready = max((taken[i][1] + p.modes[i][taken[i][0]][0] for i in before[j]), default=0)
        for m, mode in enumerate(p.modes[j]):
            for start in range(ready, bound - mode[0] + 1):
                if fits(mode, start):
                    take(mode, start, 1)
                    taken.append((m, start))
                    yield from all_from(j + 1)
                    taken.pop()
                    take(mode, start, -1)

    return all_from(0)


def counts(p, bound):
    """All variables and clauses, but those on barred starts."""
    w = Windows(p, bound)
    parts = [mode_counts(p), start_counts(p, w), renewable_counts(p, w), stock_counts(p)]
    return tuple(map(sum, zip(*parts)))


def main():
    with open(sys.argv[1], "rb") as file:
        print(*counts(plain_reader.read(file.read()), int(sys.argv[2])))


if __name__ == "__main__":
    main()
