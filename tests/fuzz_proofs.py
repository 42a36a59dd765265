"""Bent proofs in DRAT form for small projects, and what the commands of certificates have to say of them: a part of fuzz.

The clauses are those that the program writes. A refutation of them is found by going over values, as long as that is short, and then bent. Where the first fault of
`plain_proofs.py` is, the program has to tell it, or to show that what it rests on holds without that step; what is not so it never accepts. Of a step that repeats a
literal, or names a variable that no clause has, the program need not find that it follows."""
import os
import re
import subprocess
import tempfile
from itertools import islice, product

import plain_proofs
import plain_searches

FAULT = re.compile(rb"farm: no proof (Word\(\d+\)|Unproved\(\d+\)|Unfinished)\n")
# The most nodes of a tree, clauses of a formula and steps of a refutation.
MOST_NODES, MOST_CLAUSES, MOST_STEPS = 20_000, 700, 60


class Unfit(Exception):
    """Clauses that need no proof, or of which a refutation has more steps than are made here."""


def asked(program, text, bound):
    """The clauses that the program writes for a bound."""
    with tempfile.NamedTemporaryFile(suffix=".mm") as file:
        file.write(text)
        file.flush()
        return plain_proofs.clauses_of(subprocess.run([program, "clauses", file.name, str(bound)], capture_output=True, text=True, check=True).stdout)


def optimum(project):
    """Whether the tree ended within so many nodes, and its best schedule, or None."""
    best = None
    for count, best in enumerate(islice(plain_searches.tree(project), MOST_NODES), 1):
        if best is not None and project.makespan(best) == project.bound:
            return True, best
    return count < MOST_NODES, best


def modes_fit(project):
    """Whether modes that can be executed fit the stocks."""
    return any(
        all(sum(project.modes[j][m][2][k] for j, m in enumerate(modes)) <= stock for k, stock in enumerate(project.stocks))
        for modes in product(*[[m for m in range(len(own)) if project.executable(j, m)] for j, own in enumerate(project.modes)])
    )


def refutation(r, clauses):
    """Steps that refute clauses, by going over values, or those before values that make all of them true."""
    known, steps = plain_proofs.Known(clauses), []
    if known.is_refuted and r.random() < 0.95:
        raise Unfit
    variables = sorted({abs(it) for clause in clauses for it in clause})

    def learn(clause):
        steps.append((False, clause))
        known.there[tuple(sorted(clause))] += 1
        if len(steps) > MOST_STEPS:
            raise Unfit

    def refuted(decided):
        begun = len(steps)
        while True:
            true = known.true | set(decided)
            if known.propagate(true):
                learn(tuple(-it for it in decided))
                steps.extend((True, clause) for is_deleted, clause in steps[begun:-1] if not is_deleted and r.random() < 0.2)
                return True
            left = [it for it in variables if it not in true and -it not in true]
            if not left:
                return False
            if not refuted([*decided, r.choice(left) * r.choice([1, -1])]):
                return False

    refuted([])
    return steps


def bent_step(r, clauses, steps, at):
    """The steps with one of them changed, left out, doubled or moved, or with another one."""
    is_deleted, clause = steps[at]
    some = r.choice(clauses)
    known = abs(r.choice(r.choice([it for it in clauses if it]))) if any(clauses) else 1
    literal = r.choice([known, known, known, r.choice([10**6, 10**9, 10**9 + 1])]) * r.choice([1, -1])
    less = tuple(it for place, it in enumerate(clause) if place != at % max(1, len(clause)))
    bends = [[], [(is_deleted, clause)] * 2, [(not is_deleted, clause)], [(is_deleted, less)], [(is_deleted, less)], [(is_deleted, (*clause, literal))],
             [(is_deleted, (*clause, *clause[:1]))], [(is_deleted, tuple(-it if it == literal or r.random() < 0.3 else it for it in clause))],
             [(True, some), (is_deleted, clause)], [(True, it) for it in r.sample(clauses, min(len(clauses), 5))] + [(is_deleted, clause)],
             [(False, (literal,)), (is_deleted, clause)], [(False, some[1:]), (is_deleted, clause)], [(False, ())], [steps[-1], (is_deleted, clause)]]
    return [*steps[:at], *r.choice(bends), *steps[at + 1 :]]


def text_of(r, steps):
    """The steps as a text, in some layout."""
    gap, end = r.choice([" ", " ", "  ", "\t", "\n"]), r.choice(["\n", "\n", "\r\n", " ", "\n\n"])
    word = lambda it: f"{'-' * (it < 0)}{'0' * (r.random() < 0.02)}{abs(it)}"
    return "".join(("d" + r.choice([gap, gap, ""])) * is_deleted + "".join(word(it) + gap for it in clause) + "0" + end for is_deleted, clause in steps).encode()


def groups_of(number):
    """The bytes of a number, seven bits each, the lowest first."""
    told = []
    while number >= 128:
        told.append(number % 128 + 128)
        number //= 128
    return bytes([*told, number])


def binary_of(steps):
    literal = lambda it: groups_of(2 * abs(it) + (it < 0))
    return b"".join((b"d" if is_deleted else b"a") + b"".join(map(literal, clause)) + b"\0" for is_deleted, clause in steps)


def bent_bytes(r, proof):
    """The bytes with some of them changed, left out or more."""
    at = r.randrange(len(proof) + 1)
    more = r.choice([b"0", b" 0\n", b"d", b"-", b"-0 ", b"x", b"\0", b"a\0", b"d\0", b"\x80", b"99999999999 ", b"1000000001 0\n", b"1000000000 0\n", bytes([r.randrange(256)])])
    flipped = bytes([proof[at] ^ 1 << r.randrange(8)]) if at < len(proof) else b""
    return r.choice([proof[:at], proof[at:], proof[:at] + more + proof[at:], proof[:at] + proof[at + 1 :], proof[:at] + flipped + proof[at + 1 :]])


def proof_of(r, clauses):
    """A proof, whole or bent, in one of the forms."""
    steps = refutation(r, clauses)
    if not steps or steps[-1] != (False, ()):
        steps.append((False, ()))
    for _ in range(r.choice([0, 1, 1, 1, 2, 4])):
        steps = bent_step(r, clauses, steps, r.randrange(len(steps))) or [(False, ())]
    proof = text_of(r, steps) if r.random() < 0.5 else binary_of(steps)
    return bent_bytes(r, proof) if r.random() < 0.3 else proof


def is_odd(clauses, proof):
    """Whether a step repeats a literal or names a variable that no clause has."""
    known = {abs(it) for clause in clauses for it in clause}
    try:
        return any(not is_deleted and (len(set(clause)) < len(clause) or not known.issuperset(map(abs, clause))) for is_deleted, clause, _ in plain_proofs.steps_of(proof))
    except plain_proofs.NoStep:
        return False


class Expected:
    """What may be said of a proof: `line` if it is accepted, or its first fault."""

    def __init__(self, clauses, proof, is_so, line):
        self.line, self.first, self.is_odd = line, plain_proofs.read(clauses, proof, True), is_odd(clauses, proof)
        self.may_hold = is_so and (self.first is None or self.is_odd or plain_proofs.read(clauses, proof, False) is None)
        self.must_hold = self.first is None and not self.is_odd
        self.differs = self.first is None and plain_proofs.read_backwards(clauses, proof) is not None

    def fault(self, got):
        """What is wrong with what was got, or None."""
        if self.differs:
            return "a proof that the plain program accepts from its beginning, and not from its end"
        if (got.status, got.out, got.err) == (0, self.line, b""):
            return None if self.may_hold else "what is no proof was accepted"
        if got.status != 1 or got.out or not FAULT.fullmatch(got.err):
            return "other words"
        if self.must_hold:
            return "a proof was refused"
        told = got.err.removeprefix(b"farm: no proof ").decode().strip()
        return None if self.is_odd or told == self.first else f"another fault than {self.first}"
