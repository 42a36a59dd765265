#!/usr/bin/env python3
"""A second farm of one thread, written from docs/PROTOCOL.md, docs/FARM.md and docs/CONFIGURATION.md, to compare with.

    plain_farm.py CONFIG SCRIPT     what the program says to `farm replay --config CONFIG SCRIPT`
    plain_farm.py --fault CONFIG    the two lines that the program writes on standard error where it is no configuration, with L and C for a
                                    line and a column

What the searches show is told by plain_searches.py, what a project's text spells by plain_reader.py. Nothing here is
shared with the service: no code, no tables.
"""
import json
import re
import sys

import plain_reader
import plain_searches

MOST_BYTES = 1048576
MOST_QUANTA = 10 ** 12
MOST_LINE = 4096
MOST_REQUEST = 100000000
MOST_REQUESTS = 1000000
NAME = re.compile(r"[a-z][a-z0-9_-]{0,31}")


class Fault(Exception):
    """The text of a fault of a configuration, such as Name(1), and where it lies with what is wanted there."""

    def __init__(self, text, why=None):
        super().__init__(text)
        self.why = why

    def lines(self):
        """What is written on standard error."""
        return f"farm: config {self}\n" + (f"farm: why: {self.why}\n" if self.why else "")


class Unknown(Exception):
    """What the documents do not tell, or what would take too long to compute here."""


# Configurations


class Literal:
    """A number of a JSON text as it is written."""

    def __init__(self, text):
        if float(text) in (float("inf"), float("-inf")):
            raise ValueError(text)
        self.text = text


def refuse(word):
    raise ValueError(word)


def depth_of(text):
    """How deep objects and lists nest, strings left out."""
    depth = deepest = 0
    for token in re.findall(r'"(?:[^"\\]|\\.)*"|[][{}]', text, re.DOTALL):
        if token in "[{":
            depth += 1
            deepest = max(deepest, depth)
        elif token in "]}":
            depth -= 1
    return deepest


def fields_of(pairs):
    """An object; the last value of a key counts. No string is judged after this, so that all are judged here."""
    judge_strings([x for pair in pairs for x in pair])
    return dict(pairs)


def judge_strings(values):
    """No string has half of a surrogate pair alone, in lists neither; objects have been judged before."""
    for value in values:
        if isinstance(value, list):
            judge_strings(value)
        elif isinstance(value, str) and re.search("[\ud800-\udfff]", value):
            raise ValueError("half of a pair")


def value_of(data):
    """The JSON value of these bytes, numbers as they are written."""
    try:
        text = data.decode("utf-8")
        if depth_of(text) > 127:
            raise ValueError("nested too deep")
        value = json.loads(text, object_pairs_hook=fields_of, parse_int=Literal, parse_float=Literal, parse_constant=refuse)
        judge_strings([value])
        return value
    except (ValueError, RecursionError):
        raise Fault("Json", "line L column C: this is no JSON text") from None


NATURAL = "a natural number below 2^64 is wanted, in digits alone"


def natural(fields, key, missing=None, place=""):
    if key not in fields and missing is not None:
        return missing
    value = fields.get(key)
    if not isinstance(value, Literal) or not re.fullmatch("[0-9]{1,20}", value.text) or int(value.text) >= 2 ** 64:
        raise Fault("Shape", f"{place}{key}: {NATURAL}")
    return int(value.text)


class Terms:
    """What a tenant has by the configuration."""

    def __init__(self, fields, place):
        if not isinstance(fields, dict):
            raise Fault("Shape", f"{place}: an object is wanted")
        if not isinstance(fields.get("name"), str):
            raise Fault("Shape", f"{place}.name: a string is wanted")
        self.name = fields["name"]
        self.quanta, self.jobs, self.entries = (natural(fields, key, place=f"{place}.") for key in ("quanta", "jobs", "entries"))
        self.purse = fields.get("purse")
        if "purse" in fields and not isinstance(self.purse, str):
            raise Fault("Shape", f"{place}.purse: a string is wanted")


def config_of(data):
    """The terms of each tenant. Raises the first Fault."""
    fields = value_of(data)
    if not isinstance(fields, dict):
        raise Fault("Shape", "the whole: an object is wanted")
    if not isinstance(fields.get("tenants"), list):
        raise Fault("Shape", "tenants: a list is wanted")
    tenants = [Terms(t, f"tenants[{i}]") for i, t in enumerate(fields["tenants"])]
    workers, turn = natural(fields, "workers", 2), natural(fields, "slice", 1000)
    if not 1 <= len(tenants) <= 64:
        raise Fault("Tenants", "tenants: 1 to 64 are allowed")
    for i, t in enumerate(tenants):
        if t.purse is not None and not NAME.fullmatch(t.purse):
            raise Fault(f"Name({i})", f"tenants[{i}].purse: 1 to 32 of a-z, 0-9, _ and - are allowed, a letter first")
        if not NAME.fullmatch(t.name) or t.name in [s.name for s in tenants[:i]]:
            raise Fault(f"Name({i})", f"tenants[{i}].name: 1 to 32 of a-z, 0-9, _ and - are allowed, a letter first, and no name twice")
    ranges = []
    for i, t in enumerate(tenants):
        terms = [("quanta", t.quanta, 0, MOST_QUANTA), ("jobs", t.jobs, 1, 1000), ("entries", t.entries, 1, 1000000)]
        ranges += [(f"tenants[{i}].", *term) for term in terms]
    for place, key, value, least, most in ranges + [("", "workers", workers, 1, 16), ("", "slice", turn, 1, 1000000)]:
        if not least <= value <= most:
            raise Fault(f"Range({key})", f"{place}{key}: {least} to {most} are allowed")
    for i, t in enumerate(tenants):
        if t.purse is not None and sum(s.quanta for s in tenants if s.purse == t.purse) > MOST_QUANTA:
            raise Fault("Range(purse)", f"tenants[{i}].purse: 0 to {MOST_QUANTA} quanta are allowed for its tenants together")
    return tenants


def meaning_of(data):
    """The lines that `farm config` prints. Raises the first Fault."""
    tenants = config_of(data)
    fields = value_of(data)
    workers, turn = natural(fields, "workers", 2), natural(fields, "slice", 1000)
    purses = []
    for t in tenants:
        own = next((it for it in purses if t.purse is not None and it[0].purse == t.purse), None)
        if own is None:
            purses.append([t])
        else:
            own.append(t)
    granted = {t.name: sum(s.quanta for s in own) for own in purses for t in own}
    lines = [f"tenants {len(tenants)} purses {len(purses)} workers {workers} slice {turn}"]
    lines += [f"purse {own[0].purse or '-'} quanta {granted[own[0].name]} tenants {' '.join(t.name for t in own)}" for own in purses]
    lines += [f"tenant {t.name} jobs {t.jobs} entries {t.entries} needs {granted[t.name] // turn * 2 + 4}" for t in tenants]
    entries = sum(t.entries for t in tenants)
    return [*lines, f"entries {entries} kilobytes {104 * entries}"]


# Searches


class Search:
    """What is shown of a plan after the nodes that were run."""

    def __init__(self, project, kind):
        self.project, self.best, self.over, self.verdict = project, None, False, "open"
        self.steps = plain_searches.search(project, kind)

    def node(self):
        self.best, self.over, self.verdict = next(self.steps)

    def makespan(self):
        return "none" if self.best is None else str(self.project.makespan(self.best))

    def schedule(self):
        if self.best is None:
            return ""
        return " " + plain_searches.shown(self.project, self.best).split(" ", 1)[1]


# The farm


class Job:
    def __init__(self, search, quanta):
        self.search, self.phase, self.nodes, self.left = search, "waiting", 0, quanta

    def line(self):
        s = self.search
        return f"{self.phase} nodes {self.nodes} left {self.left} best {s.makespan()} {s.verdict}"


class No(Exception):
    """The text of a refusal."""


class Purse:
    """What its members were granted together, and where it is."""

    def __init__(self, granted):
        self.granted, self.free, self.held, self.spent = granted, granted, 0, 0


def purses_of(terms):
    """The purse of each tenant, by the tenant's name: tenants that name the same purse have one, any other has its own."""
    named = {t.purse: Purse(sum(s.quanta for s in terms if s.purse == t.purse)) for t in terms if t.purse is not None}
    return {t.name: named[t.purse] if t.purse is not None else Purse(t.quanta) for t in terms}


class Tenant:
    def __init__(self, terms, purse):
        self.terms, self.purse, self.jobs, self.submitted, self.used = terms, purse, {}, 0, 0

    def rest(self):
        """Entries that are neither used nor kept for a turn that is out."""
        return self.terms.entries - self.used - sum(j.phase in ("out", "leaving") for j in self.jobs.values())

    def enter(self):
        if self.rest() < 1:
            raise No("room")
        self.used += 1

    def job(self, seq):
        if seq not in self.jobs:
            raise No("unknown")
        return self.jobs[seq]

    def pay(self, quanta):
        if quanta > self.purse.free:
            raise No(f"short {self.purse.free}")
        self.purse.free -= quanta
        self.purse.held += quanta

    def submit(self, project, kind, quanta):
        self.enter()
        if not 1 <= quanta <= MOST_QUANTA:
            raise No("amount")
        if len(self.jobs) >= self.terms.jobs:
            raise No("jobs")
        self.pay(quanta)
        self.submitted += 1
        self.jobs[self.submitted] = Job(Search(project, kind), quanta)
        return f"job {self.submitted}"

    def fund(self, seq, quanta):
        self.enter()
        job = self.job(seq)
        if job.phase in ("out", "leaving"):
            raise No("busy")
        if job.phase in ("closed", "cancelled"):
            raise No("over")
        if not 1 <= quanta <= MOST_QUANTA:
            raise No("amount")
        self.pay(quanta)
        job.left += quanta
        job.phase = "waiting"
        return f"job {seq} {job.line()}"

    def status(self, seq):
        self.enter()
        return f"job {seq} {self.job(seq).line()}"

    def result(self, seq):
        self.enter()
        job = self.job(seq)
        if job.phase in ("out", "leaving"):
            raise No("busy")
        s = job.search
        return f"job {seq} makespan {s.makespan()} {s.verdict}{s.schedule()}"

    def cancel(self, seq):
        self.enter()
        job = self.job(seq)
        if job.phase in ("leaving", "closed", "cancelled"):
            raise No("over")
        if job.phase == "out":
            job.phase = "leaving"
        else:
            self.end(job, "cancelled")
        return f"job {seq} {job.line()}"

    def end(self, job, phase):
        job.phase = phase
        self.purse.free += job.left
        self.purse.held -= job.left
        job.left = 0

    def forget(self, seq):
        self.enter()
        if self.job(seq).phase not in ("closed", "cancelled"):
            raise No("busy")
        del self.jobs[seq]
        return f"job {seq} forgotten"

    def ledger(self):
        self.enter()
        p = self.purse
        return f"ledger granted {p.granted} free {p.free} held {p.held} spent {p.spent}"

    def take(self, seq, slice_):
        if seq not in self.jobs or self.jobs[seq].phase != "waiting" or not 1 <= slice_ <= 1000000 or self.rest() < 2:
            raise No("turn")
        self.used += 1
        self.jobs[seq].phase = "out"
        return f"job {seq} {self.jobs[seq].line()}"

    def give(self, seq, slice_, tick):
        job = self.jobs[seq]
        ran = 0
        while ran < min(slice_, job.left) and not job.search.over:
            tick()
            job.search.node()
            ran += 1
        self.used += 1
        job.nodes += ran
        job.left -= ran
        self.purse.held -= ran
        self.purse.spent += ran
        if job.phase == "leaving":
            self.end(job, "cancelled")
        elif job.search.over:
            self.end(job, "closed")
        else:
            job.phase = "waiting" if job.left else "dry"
        return f"job {seq} ran {ran} {job.line()}"


# Scripts


def number(word):
    """The number that a word writes, or None."""
    return int(word) if re.fullmatch("[0-9]{1,18}", word) else None


class Line:
    """A line of a script, counted with its end."""

    def __init__(self, data, begin, end):
        self.begin, self.end = begin, end
        body = data[begin:end]
        if body.endswith(b"\n"):
            body = body[:-1]
        self.body = body[:-1] if body.endswith(b"\r") else body

    def words(self):
        """Each byte is one character, so that nothing is lost."""
        return [w for w in re.split("[ \t]+", self.body.decode("latin-1")) if w]


def lines_of(data):
    lines, at = [], 0
    while at < len(data):
        end = data.find(b"\n", at) + 1 or len(data)
        lines.append(Line(data, at, end))
        at = end
    return lines


FORMS = {"fund": 2, "status": 1, "result": 1, "cancel": 1, "forget": 1, "ledger": 0}
TURNS = {"take": 2, "give": 1, "turn": 2}


def is_kind(word):
    if word.startswith("sample:"):
        return number(word[7:]) is not None
    return word in ("tree", "rule:lft", "rule:mts", "rule:spt")


def request_of(words):
    """(command, name, arguments), or the name of the tenant whose line it is not, or None for any other line."""
    if words[0][:1] == "@" and NAME.fullmatch(words[0][1:]):
        name, rest = words[0][1:], words[1:]
        if rest[:1] == ["submit"]:
            if len(rest) == 4 and is_kind(rest[1]) and None not in map(number, rest[2:]) and 1 <= int(rest[3]) <= 20000:
                return "submit", name, [rest[1], int(rest[2]), int(rest[3])]
        elif rest and rest[0] in FORMS and len(rest) == 1 + FORMS[rest[0]] and None not in map(number, rest[1:]):
            return rest[0], name, [int(w) for w in rest[1:]]
        return name
    if words[0] in TURNS and len(words) == 2 + TURNS[words[0]] and NAME.fullmatch(words[1]):
        if None not in map(number, words[2:]):
            return words[0], words[1], [int(w) for w in words[2:]]
    return None


class Farm:
    """`nodes` is how many nodes may be run in all before what comes next is Unknown. Without `takes` the lines take and give
    are answered as lines that are not known, where the tenant is."""

    def __init__(self, terms, nodes=10 ** 9, takes=True):
        purses = purses_of(terms)
        self.tenants = {t.name: Tenant(t, purses[t.name]) for t in terms}
        self.nodes, self.takes, self.turns = nodes, takes, {}
        self.refused = self.doubtful = None

    def tick(self):
        self.nodes -= 1
        if self.nodes < 0:
            raise Unknown("too many nodes")

    def text_fault(self, lines, many, data):
        """The project that the text spells, or the refusal."""
        if any(len(line.body) > MOST_LINE for line in lines):
            raise No("line")
        if len(lines) < many:
            raise No("syntax")
        try:
            read = plain_reader.read(data[lines[0].begin:lines[-1].end])
        except plain_reader.Fault as fault:
            raise No(f"file {fault}") from None
        return plain_searches.Project(
            read.modes, [[s - 1 for s in ss] for ss in read.successors], read.capacities, read.stocks)

    def turn(self, command, name, seq, slice_):
        tenant = self.tenants[name]
        if command == "turn":
            tenant.take(seq, slice_)
            return tenant.give(seq, slice_, self.tick)
        if command == "take":
            said = tenant.take(seq, slice_)
            self.turns[name, seq] = slice_
            return said
        if (name, seq) not in self.turns:
            raise No("turn")
        return tenant.give(seq, self.turns.pop((name, seq)), self.tick)

    def answer(self, request, lines, data):
        """What is said behind the name to a request, `lines` being those of its text."""
        command, name, args = request
        if command == "submit":
            project = self.text_fault(lines, args[2], data)
            if name not in self.tenants:
                raise No("tenant")
            return self.tenants[name].submit(project, args[0], args[1])
        if name not in self.tenants:
            raise No("tenant")
        if command in TURNS:
            return self.turn(command, name, args[0], args[1] if len(args) > 1 else 0)
        return getattr(self.tenants[name], command)(*args)

    def notes(self, is_strict, fault=""):
        """The status of a replay, and what is written on standard error: its fault, what --strict tells, and where a count of lines may be wrong."""
        said = [fault] if fault else []
        if is_strict and self.refused and not fault:
            said.append(f"farm: refused at line {self.refused}\n")
        status = 1 if said else 0
        if self.doubtful:
            said.append(f"farm: line {self.doubtful}: the text of this submit ends with a line that begins with '@'; is its count of lines right?\n")
        return status, "".join(said).encode()

    def replay(self, data):
        """Yields the lines that are said. Raises Fault where no more requests are read, by the size of one or their number. The number of the
        first line whose request was refused is `refused` then, and `doubtful` that of the first submit whose text ends with a line
        that begins with `@`."""
        lines, at, begin, many = lines_of(data), 0, 0, 0
        while at < len(lines):
            line = lines[at]
            at += 1
            words = line.words()
            if not words:
                continue
            request = None if len(line.body) > MOST_LINE else request_of(words)
            text = []
            if isinstance(request, tuple) and request[0] == "submit":
                text = lines[at:at + request[2][2]]
                at += len(text)
            end = lines[at - 1].end
            if end - begin > MOST_REQUEST:
                raise Fault("Read")
            begin, many = end, many + 1
            if many > MOST_REQUESTS:
                raise Fault("Requests")
            number = at - len(text)
            if text and data[lines[at - 1].begin:][:1] == b"@":
                self.doubtful = self.doubtful or number
            reply = self.said(line, request, text, data)
            if reply.split(" ")[1] == "no":
                self.refused = self.refused or number
            yield reply
        if len(data) - begin > MOST_REQUEST:
            raise Fault("Read")

    def said(self, line, request, text, data):
        if len(line.body) > MOST_LINE:
            return "@? no line"
        if request is None:
            return "@? no syntax"
        if isinstance(request, str):
            return f"@{request} no syntax"
        if request[0] in ("take", "give") and not self.takes and request[1] in self.tenants:
            return "@? no syntax"
        try:
            return f"@{request[1]} " + self.answer(request, text, data)
        except No as refusal:
            return f"@{request[1]} no {refusal}"


def main_fault(path):
    with open(path, "rb") as config:
        try:
            config_of(config.read())
        except Fault as fault:
            print(fault.lines(), end="")


def main_meaning(path):
    with open(path, "rb") as config:
        try:
            print("\n".join(meaning_of(config.read())))
        except Fault as fault:
            sys.exit(fault.lines().partition("\n")[0])


if __name__ == "__main__":
    if sys.argv[1] == "--fault":
        main_fault(sys.argv[2])
        sys.exit()
    if sys.argv[1] == "--means":
        main_meaning(sys.argv[2])
        sys.exit()
    with open(sys.argv[1], "rb") as config, open(sys.argv[2], "rb") as script:
        try:
            for reply in Farm(config_of(config.read())).replay(script.read()):
                print(reply)
        except Fault as fault:
            sys.exit(fault.lines().rstrip("\n"))
