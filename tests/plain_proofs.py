#!/usr/bin/env python3
"""Whether a proof in DRAT form refutes clauses: a second program to compare with.

    plain_proofs.py CNF PROOF              'refuted', 'Word(N)', 'Unproved(N)' or 'Unfinished'. It goes back from the empty clause, and checks the steps that were used
    plain_proofs.py --forward CNF PROOF    the same, from the first step to the last: every step is checked, so it may take hours

Written from docs/CERTIFICATES.md and docs/USE.md, and from the form of the files (Wetzler, Heule and Hunt 2014). A clause follows if its literals, all false, lead
to a clause without a literal by unit propagation (Goldberg and Novikov 2003). What has become true by the clauses alone stays so when clauses are deleted.
"""
import re
import sys
from collections import Counter

MOST_VARIABLES = 1_000_000_000
# A byte of a text; a proof of which one of the first ten is none of these is binary.
OF_TEXT = b"0123456789-d \t\r\n"
TOKEN = re.compile(rb"d|-?[0-9]+")


class NoStep(Exception):
    """What stands in this line, or at this number, is no step."""


def clauses_of(dimacs):
    """The clauses of a DIMACS text, as tuples of numbers."""
    words = " ".join(line for line in dimacs.splitlines() if line[:1] not in ("c", "p")).split()
    clauses, own = [], []
    for number in map(int, words):
        if number:
            own.append(number)
        else:
            clauses.append(tuple(own))
            own = []
    return clauses


def text_steps(proof):
    """Yields the steps of a text: whether it is deleted, its clause, and its last line."""
    at, own, is_deleted, is_begun = 0, [], False, False
    while True:
        at = next((place for place in range(at, len(proof)) if proof[place] not in b" \t\r\n"), len(proof))
        line = 1 + proof.count(b"\n", 0, at)
        token = TOKEN.match(proof, at)
        if at == len(proof) and not is_begun:
            return
        if not token or token[0] == b"d" and is_begun:
            raise NoStep(line)
        at, is_begun = token.end(), True
        if token[0] == b"d":
            is_deleted = True
            continue
        number = int(token[0])
        if abs(number) > MOST_VARIABLES or number == 0 and token[0].startswith(b"-"):
            raise NoStep(line)
        if number:
            own.append(number)
            continue
        yield is_deleted, tuple(own), line
        own, is_deleted, is_begun = [], False, False


def group(proof, at):
    """The number of groups of seven bits, and the place behind it; None if there is none within five bytes."""
    number = 0
    for count, byte in enumerate(proof[at : at + 5]):
        number += (byte & 127) << 7 * count
        if byte < 128:
            return number, at + count + 1
    return None, at


def binary_steps(proof):
    """Yields the steps of the binary form: whether it is deleted, its clause, and its number."""
    at, step = 0, 0
    while at < len(proof):
        step, own = step + 1, []
        kind, at = proof[at : at + 1], at + 1
        if kind not in (b"a", b"d"):
            raise NoStep(step)
        while True:
            number, at = group(proof, at)
            if number == 0:
                break
            if number is None or number == 1 or number // 2 > MOST_VARIABLES:
                raise NoStep(step)
            own.append(-(number // 2) if number % 2 else number // 2)
        yield kind == b"d", tuple(own), step


def steps_of(proof):
    return binary_steps(proof) if any(byte not in OF_TEXT for byte in proof[:10]) else text_steps(proof)


class Known:
    """Clauses that are there, and the literals that they alone make true."""

    def __init__(self, clauses):
        self.there = Counter(tuple(sorted(clause)) for clause in clauses)
        self.true = set()
        self.is_refuted = self.propagate(self.true)

    def propagate(self, true):
        """Adds to the true literals what follows, and returns whether a clause has none left."""
        while True:
            before = len(true)
            for clause in self.there:
                if any(it in true for it in clause):
                    continue
                left = {it for it in clause if -it not in true}
                if not left:
                    return True
                if len(left) == 1:
                    true |= left
            if len(true) == before:
                return False

    def follows(self, clause):
        if any(it in self.true or -it in clause for it in clause):
            return True
        return self.propagate(self.true | {-it for it in clause})

    def add(self, clause):
        self.there[tuple(sorted(clause))] += 1
        self.is_refuted = self.propagate(self.true)

    def delete(self, clause):
        clause = tuple(sorted(clause))
        if self.there[clause] > 1:
            self.there[clause] -= 1
        else:
            del self.there[clause]


def read(clauses, proof, is_checked):
    """The first fault before the clauses are refuted, or None."""
    known = Known(clauses)
    if known.is_refuted:
        return None
    try:
        for is_deleted, clause, line in steps_of(proof):
            if is_deleted:
                known.delete(clause)
                continue
            if is_checked and not known.follows(clause):
                return f"Unproved({line})"
            known.add(clause)
            if known.is_refuted:
                return None
    except NoStep as line:
        return f"Word({line})"
    return "Unfinished"


def key_of(clause):
    return tuple(sorted(set(clause)))


class Backward:
    """The clauses, each with two watched literals, and `trail`: the literals that are true, in their order. Each has its place there, and the number of the clause
    that made it true, or None if it was assumed."""

    def __init__(self, clauses):
        self.clauses, self.is_there, self.numbers, self.watches, self.units = [], [], {}, {}, []
        self.trail, self.places, self.reasons, self.head, self.conflict = [], {}, {}, 0, None
        for clause in clauses:
            self.conflict = self.add(clause) if self.conflict is None else self.conflict

    def is_false(self, literal):
        return -literal in self.places

    def add(self, clause):
        """Adds a clause with the next number. Returns the number of a clause all of whose literals are false then, or None."""
        number = len(self.clauses)
        self.clauses.append(list(key_of(clause)))
        self.is_there.append(False)
        return self.put_in(number)

    def put_in(self, number):
        """As `add`, of a clause that has a number."""
        own = self.clauses[number]
        self.is_there[number] = True
        self.numbers.setdefault(key_of(own), []).append(number)
        # (what is not false is watched, and then what has become false last)
        own.sort(key=lambda it: -self.places.get(-it, len(self.trail)))
        if len(own) == 1:
            self.units.append(number)
        for literal in own[:2] if len(own) > 1 else []:
            if number not in self.watches.setdefault(literal, []):
                self.watches[literal].append(number)
        left = [it for it in self.clauses[number] if not self.is_false(it)]
        if not left:
            return number
        if len(left) == 1 and left[0] not in self.places:
            self.make_true(left[0], number)
        return self.propagate()

    def take_out(self, number):
        """Takes a clause away, and what it made true."""
        self.is_there[number] = False
        self.numbers[key_of(self.clauses[number])].remove(number)
        made = [self.places[it] for it in self.clauses[number] if self.reasons.get(it) == number]
        if made:
            self.back_to(made[0])
            self.head = 0
            for unit in self.units:
                if self.is_there[unit] and self.clauses[unit][0] not in self.places and not self.is_false(self.clauses[unit][0]):
                    self.make_true(self.clauses[unit][0], unit)
            self.propagate()

    def delete(self, clause):
        """Deletes the last of equal clauses, and returns its number; None if there is none, or it has made a literal true: that stays."""
        equal = self.numbers.get(key_of(clause))
        if not equal or any(self.reasons.get(it) == equal[-1] for it in self.clauses[equal[-1]]):
            return None
        self.is_there[equal[-1]] = False
        return equal.pop()

    def make_true(self, literal, reason):
        self.places[literal], self.reasons[literal] = len(self.trail), reason
        self.trail.append(literal)

    def back_to(self, count):
        while len(self.trail) > count:
            literal = self.trail.pop()
            del self.places[literal], self.reasons[literal]
        self.head = min(self.head, count)

    def propagate(self):
        """Makes true what follows. Returns the number of a clause all of whose literals are false, or None."""
        while self.head < len(self.trail):
            false = -self.trail[self.head]
            waiting, kept = self.watches.get(false, []), []
            for at, number in enumerate(waiting):
                own = self.clauses[number]
                if not self.is_there[number] or false not in own[:2]:
                    continue
                if own[0] == false:
                    own[0], own[1] = own[1], own[0]
                other = next((place for place in range(2, len(own)) if not self.is_false(own[place])), None) if own[0] not in self.places else None
                if other is not None:
                    own[1], own[other] = own[other], own[1]
                    self.watches.setdefault(own[1], []).append(number)
                    continue
                kept.append(number)
                if self.is_false(own[0]):
                    self.watches[false] = kept + waiting[at + 1 :]
                    return number
                if own[0] not in self.places:
                    self.make_true(own[0], number)
            self.watches[false] = kept
            self.head += 1
        return None

    def mark(self, number, used):
        """Marks a clause all of whose other literals are false, and what made them so."""
        waiting, seen = [number], set()
        while waiting:
            number = waiting.pop()
            used.add(number)
            for literal in self.clauses[number]:
                reason = self.reasons.get(-literal)
                if reason is not None and -literal not in seen:
                    seen.add(-literal)
                    waiting.append(reason)

    def follows(self, clause, used):
        """Whether a clause follows from those that are there. Marks what it rests on."""
        number, count = self.propagate(), len(self.trail)
        for literal in clause if number is None else []:
            if literal in self.places:
                number = self.reasons[literal]
                if number is not None:
                    self.mark(number, used)
                self.back_to(count)
                return True
            if not self.is_false(literal):
                self.make_true(-literal, None)
        number = self.propagate() if number is None else number
        if number is not None:
            self.mark(number, used)
        self.back_to(count)
        return number is not None


def read_backwards(clauses, proof):
    """As `read`, but that a step on which nothing rests is not checked."""
    state, steps = Backward(clauses), []
    try:
        for is_deleted, clause, line in steps_of(proof) if state.conflict is None else []:
            if is_deleted:
                steps.append((True, state.delete(clause), line))
                continue
            steps.append((False, len(state.clauses), line))
            state.conflict = state.add(clause)
            if state.conflict is not None:
                break
    except NoStep as line:
        return f"Word({line})"
    if state.conflict is None:
        return "Unfinished"
    used = set()
    state.mark(state.conflict, used)
    for is_deleted, number, line in reversed(steps):
        if is_deleted:
            if number is not None:
                state.put_in(number)
            continue
        state.take_out(number)
        if number in used and not state.follows(state.clauses[number], used):
            return f"Unproved({line})"
    return None


def main(words):
    is_forward = words[:1] == ["--forward"]
    if len(words) != 2 + is_forward:
        sys.exit(__doc__)
    with open(words[is_forward]) as dimacs, open(words[is_forward + 1], "rb") as proof:
        clauses, steps = clauses_of(dimacs.read()), proof.read()
    print((read(clauses, steps, True) if is_forward else read_backwards(clauses, steps)) or "refuted")


if __name__ == "__main__":
    main(sys.argv[1:])
