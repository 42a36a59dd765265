"""Sessions of `farm serve` for tests/fuzz: many clients at once, each for a tenant of its own, some of them hostile, and what each may be answered.

A client sends its script whole, in pieces, byte by byte, or cut, and reads all replies; or it ends its connection by a reset. Where no turn matters (submits,
refusals, lines that are no requests) a reply has to be the one that plain_farm.py gives to that tenant's lines alone. A job's line and its result have to be
what plain_searches.py shows after that number of nodes, never fewer than before, and a ledger's sums have to come out. In the end an auditor asks for each
job of each tenant: it has run to the lesser of its quanta and its search's end, and what was spent are these nodes. The service ends settled, or unsettled
where a tenant's entries do not suffice for a turn.

In one of three some tenants share purses, some of a tenant's name. Each of them asks for a share that is drawn, and not for what it has brought: so it is
answered as if the share were its own, but for its ledgers, which are the purse's, and in the end the nodes of all members are what the purse has spent.
"""
import contextlib
import json
import os
import random
import re
import socket
import struct
import subprocess
import threading
import time

import fuzz_makers as makers
import plain_farm

MOST = 10 ** 12
LINE = re.compile(r"job (\d+) (waiting|out|leaving|dry|closed|cancelled) nodes (\d+) left (\d+) best (\S+) (\S+)$")
BOOK = re.compile(r"ledger granted (\d+) free (\d+) held (\d+) spent (\d+)$")
# What a session and its client's requests may cost in all, in kilobytes, beyond what the service has before the first of them; and an entry of the journal, in bytes.
SESSION_COST, ENTRY_COST = 600, 400


class Wrong(Exception):
    """What is wrong with a reply."""


class Alone(plain_farm.Farm):
    """A second farm in which no turn is taken. The lines of workers are no requests. It keeps each request beside its reply."""

    def __init__(self, terms):
        super().__init__(terms)
        self.asked = []

    def said(self, line, request, text, data):
        if isinstance(request, tuple) and request[0] in plain_farm.TURNS and len(line.body) <= plain_farm.MOST_LINE:
            request = None
        self.asked.append(request)
        return super().said(line, request, text, data)


class Job:
    """A job that a tenant was answered: what its search shows after each node, as far as it was asked for."""

    def __init__(self, search, quanta):
        self.search, self.given, self.known, self.cancelled = search, quanta, 0, False
        self.shows = [self.now()]

    def now(self):
        it = self.search
        return it.over, it.makespan(), it.verdict, it.schedule()

    def at(self, nodes):
        """Whether the search is over after so many nodes, the best makespan, the verdict, and the schedule's words."""
        while len(self.shows) <= nodes:
            if self.shows[-1][0]:
                raise Wrong(f"{nodes} nodes of a search that was over after {len(self.shows) - 1}")
            self.search.node()
            self.shows.append(self.now())
        return self.shows[nodes]

    def last(self):
        """The lesser of what it was given and its search's end."""
        nodes = 0
        while nodes < self.given and not self.at(nodes)[0]:
            nodes += 1
        return nodes


class Tenant:
    """What is known of one tenant by its replies."""

    def __init__(self, name, granted, plain, is_member):
        self.name, self.granted, self.plain, self.is_member, self.jobs, self.gone = name, granted, plain, is_member, {}, {}

    def reply(self, request, expected, said):
        """Judges the reply to a request, beside what the second farm says where no turn is taken."""
        if not isinstance(request, tuple) or request[1] != self.name or expected == f"@{self.name} no room":
            return self.same(expected, said)
        word, _, args = request
        front = f"@{self.name} "
        if not said.startswith(front):
            raise Wrong(f"not {self.name}'s")
        said = said[len(front):]
        if word == "submit":
            return self.submitted(args, expected[len(front):], said)
        if word == "ledger":
            return self.ledger(said)
        if args[0] not in self.jobs:
            return self.same("no unknown", said)
        return getattr(self, word)(self.jobs[args[0]], *args, said)

    def same(self, expected, said):
        if expected != said:
            raise Wrong(f"not {expected!r}")

    def submitted(self, args, expected, said):
        if expected.startswith("no short") and re.fullmatch(r"no short \d+", said):
            if int(said.split()[2]) > min(self.granted, args[1] - 1):
                raise Wrong("another short")
            return
        self.same(expected, said)
        if said.startswith("job "):
            seq = int(said.split()[1])
            self.jobs[seq] = Job(self.plain.jobs[seq].search, args[1])

    def ledger(self, said):
        found = BOOK.fullmatch(said)
        granted, free, held, spent = map(int, found.groups()) if found else (0, 0, 0, 1)
        jobs = [*self.jobs.values(), *self.gone.values()]
        most = granted if self.is_member else sum(j.given for j in jobs)
        if granted != self.granted or free + held + spent != granted or not sum(j.known for j in jobs) <= spent <= most:
            raise Wrong("no ledger of this tenant")

    def line(self, job, seq, said):
        """Judges a job's line, and returns its phase."""
        found = LINE.fullmatch(said)
        if not found or int(found[1]) != seq:
            raise Wrong("no line of this job")
        phase, nodes, left = found[2], int(found[3]), int(found[4])
        over, best, verdict, _ = job.at(nodes)
        ends = {"closed": over and not left, "dry": not over and not left and nodes == job.given, "cancelled": job.cancelled and not left}
        holds = ends.get(phase, left == job.given - nodes and left > 0 and not over and (phase == "leaving") == job.cancelled)
        if not holds or not job.known <= nodes <= job.given or (best, verdict) != (found[5], found[6]):
            raise Wrong(f"not what its search shows: {over} {best} {verdict}")
        job.known = nodes
        return phase

    def status(self, job, seq, said):
        self.line(job, seq, said)

    def fund(self, job, seq, quanta, said):
        if said in ("no busy", "no over"):
            return
        if not 1 <= quanta <= MOST:
            return self.same("no amount", said)
        if re.fullmatch(r"no short \d+", said) and int(said.split()[2]) < quanta:
            return
        job.given += quanta
        if self.line(job, seq, said) != "waiting":
            raise Wrong("funded, and does not wait")

    def cancel(self, job, seq, said):
        if said == "no over":
            if not job.cancelled and not job.at(job.last())[0]:
                raise Wrong("neither closed nor cancelled")
            return
        if job.cancelled:
            raise Wrong("cancelled twice")
        job.cancelled = True
        if self.line(job, seq, said) not in ("leaving", "cancelled"):
            raise Wrong("cancelled, and goes on")

    def forget(self, job, seq, said):
        if said == f"job {seq} forgotten":
            if not job.cancelled and not job.at(job.last())[0]:
                raise Wrong("not at its end")
            self.gone[seq] = self.jobs.pop(seq)
        elif said != "no busy":
            raise Wrong("neither busy nor forgotten")

    def result(self, job, seq, said):
        if said == "no busy":
            return
        for nodes in range(job.known, job.last() + 1):
            _, best, verdict, schedule = job.at(nodes)
            if said == f"job {seq} makespan {best} {verdict}{schedule}":
                return
        raise Wrong("no schedule of this search")

    def whole(self, ask):
        """Judges each job at the end, where all that could run has run: `ask` sends a request and returns its reply. Returns between what the nodes of its jobs are."""
        front, spent = f"@{self.name} ", 0
        for seq, job in self.jobs.items():
            said = ask(f"@{self.name} status {seq}\n")
            phase = self.line(job, seq, said.removeprefix(front))
            if phase in ("waiting", "out", "leaving") or phase != "cancelled" and job.known != job.last():
                raise Wrong(f"{said}: not at its end, which is {job.last()}")
            self.same(f"{front}job {seq} makespan {job.at(job.known)[1]} {job.at(job.known)[2]}{job.at(job.known)[3]}", ask(f"@{self.name} result {seq}\n"))
            spent += job.known
        least = spent + sum(job.known if job.cancelled else job.last() for job in self.gone.values())
        most = spent + sum(job.last() for job in self.gone.values())
        return least, most


class Client:
    """What one client does: its tenant, of which `terms` are what it may ask for, its script, and how it sends."""

    def __init__(self, r, name, terms):
        self.name, self.terms = name, terms
        self.manner = r.choice(["whole", "whole", "pieces", "bytes", "cut", "reset", "silent", "patient"])
        self.seed, self.lines, self.failure = r.randrange(10 ** 9), [], None
        self.script = b"" if self.manner == "silent" else script_of(r, name, terms, self.manner != "reset")
        if self.manner == "cut":
            self.script = self.script[:r.randrange(len(self.script) + 1)]

    def run(self, port):
        try:
            with socket.create_connection(("127.0.0.1", port), timeout=60) as it:
                self.talk(it, random.Random(self.seed))
        except OSError as why:
            if self.manner != "reset":
                self.failure = f"{self.name}, {self.manner}: {why!r}"

    def talk(self, it, dice):
        it.setsockopt(socket.IPPROTO_TCP, socket.TCP_NODELAY, 1)
        script = self.script[:dice.randrange(len(self.script) + 1)] if self.manner == "reset" else self.script
        for piece in self.pieces(script, dice):
            it.sendall(piece)
        if self.manner == "reset":
            time.sleep(dice.choice([0, 0, 0.01]))
            it.setsockopt(socket.SOL_SOCKET, socket.SO_LINGER, struct.pack("ii", 1, 0))
            return
        it.shutdown(socket.SHUT_WR)
        said = bytearray()
        while piece := it.recv(dice.choice([1, 100, 65536]) if self.manner == "bytes" else 65536):
            said += piece
        self.lines = said.decode("latin-1").split("\n")

    def pieces(self, script, dice):
        if self.manner == "bytes":
            head = min(len(script), 1500)
            return [script[i:i + 1] for i in range(head)] + [script[head:]]
        if self.manner in ("pieces", "patient"):
            return self.cut_up(script, dice)
        return [script]

    def cut_up(self, script, dice):
        while script:
            many = dice.choice([1, 10, 100, 1000])
            yield script[:many]
            script = script[many:]
            if self.manner == "patient" and dice.random() < 0.1:
                time.sleep(0.001)


def script_of(r, name, terms, hostile):
    """A tenant's script: submits, whose quanta are all there or far too many, and what is asked of the jobs; where it is hostile with funds, cancels, what is bent,
    and lines of workers. A tenant that forgets jobs may keep as many as it submits."""
    out, submitted, rest = [], 0, terms["quanta"]
    for _ in range(r.choice([1, 4, 12, 30])):
        kind = r.random()
        if submitted == 0 or kind < 0.2:
            quanta = r.choice([1, 2, 5, 20, 100, 300])
            if quanta > rest:
                quanta = MOST
            text = makers.project_text(r, True)
            if hostile and r.random() < 0.1:
                text, quanta = makers.bent(r, text, True), r.choice([0, MOST + 1])
            rest -= quanta if quanta <= rest else 0
            out.append(makers.submit(r, name, text, quanta))
            submitted += 1
        elif kind < 0.9:
            seq = r.randint(1, submitted + 1)
            asked = ["ledger", f"status {seq}", f"status {seq}", f"result {seq}"]
            if hostile:
                funds = min(r.choice([1, 10, 100]), rest)
                asked += [f"fund {seq} {funds}", f"cancel {seq}", f"forget {seq}"] if terms["jobs"] >= 40 else [f"cancel {seq}"]
            line = r.choice(asked)
            rest -= int(line.split()[2]) if line.startswith("fund") else 0
            out.append(f"@{name} {line}\n".encode())
        elif hostile:
            out.append(r.choice([f"take {name} 1 2\n", f"give {name} 1\n", f"turn {name} 1 5\n", "hello\n", f"@{name} dance\n", f"@{name} ledger 1\n", "@nobody ledger\n",
                                 "\n", " \t\r\n", "x" * r.choice([4096, 4097, 30000]) + "\n", f"@{name} \0ledger\n", "\xff\xfe\n"]).encode("latin-1"))
    return b"".join(out)


def share_purses(r, terms):
    """Has some tenants name a purse; none of these has more quanta than a project needs."""
    many = r.choice([1, 1, 2, 5])
    for it in terms:
        if r.random() < 0.7:
            it.update(purse=r.choice([f"t{r.randrange(many)}", f"p{r.randrange(many)}"]), quanta=r.choice([0, 0, 50, 1000]))


def purses_of(terms):
    """Of each purse the places of its members."""
    purses = {}
    for at, it in enumerate(terms):
        purses.setdefault(("shared", it["purse"]) if "purse" in it else ("own", it["name"]), []).append(at)
    return purses.values()


def shares_of(r, terms):
    """What each tenant asks for at most: of a purse with several members parts that are drawn, which make up all of it."""
    shares = [it["quanta"] for it in terms]
    for members in purses_of(terms):
        rest = sum(shares[at] for at in members)
        for at in members:
            shares[at] = rest if at == members[-1] else r.choice([0, rest, rest // 2, r.randint(0, rest)])
            rest -= shares[at]
    return shares


class Sessions:
    """A configuration and its clients, run against a service."""

    words, stdin, expected = ["serve", "--config", "config", "--port", "0"], None, (0, b"", b"")

    def __init__(self, r):
        many = r.choice([1, 2, 5, 15, 40, 63])
        self.terms = [{"name": f"t{i}", "quanta": r.choice([0, 50, 1000, 1000, MOST]), "jobs": r.choice([1, 3, 100, 1000]), "entries": 1_000_000} for i in range(many)]
        # (a tenant whose entries suffice for its submit alone)
        self.is_poor = r.random() < 0.15
        if r.random() < 0.3:
            share_purses(r, self.terms[self.is_poor:])
        if self.is_poor:
            self.terms[0].update(quanta=1000, entries=1)
        self.config = json.dumps({"tenants": self.terms, "workers": r.randint(1, 16), "slice": r.choice([1, 2, 7, 100, 1000000])}).encode()
        shares = shares_of(r, self.terms)
        self.clients = [Client(r, it["name"], {**it, "quanta": share}) for it, share in zip(self.terms, shares)]
        if self.is_poor:
            self.clients[0].manner = "whole"
            self.clients[0].script = makers.submit(r, "t0", makers.project_text(r, True), 9) + b"@t0 ledger\n"
        self.files = {"config": self.config, **{f"{it.name}-{it.manner}": it.script for it in self.clients}}

    def run(self, farm, work, limit):
        """Runs the service with its clients, and returns what was wrong with it, or nothing, and its memory in kilobytes."""
        words = [farm, *self.words, "--sessions", str(len(self.clients) + 1)]
        with open(os.path.join(work, "err"), "w+b") as err:
            it = subprocess.Popen(words, stdin=subprocess.DEVNULL, stdout=subprocess.PIPE, stderr=err, cwd=work)
            alarm = threading.Timer(limit, it.kill)
            alarm.start()
            try:
                fault = self.served(it)
            except (OSError, ValueError, IndexError) as why:
                fault = repr(why)
            finally:
                if fault_of(it):
                    it.kill()
                out = it.stdout.read()
                it.wait()
                is_late = not alarm.is_alive()
                alarm.cancel()
            err.seek(0)
            wanted = (1, b"", b"unsettled\n") if self.is_held() else (0, b"settled\n", b"")
            if not fault and (it.returncode, out, err.read()) != wanted:
                fault = f"ended otherwise: {it.returncode} {out!r}"
        return "did not end" if is_late else fault

    def is_held(self):
        return self.is_poor and any(line.startswith("@t0 job ") for line in self.clients[0].lines)

    def served(self, it):
        """What was wrong while it ran."""
        port = int(it.stdout.readline().split()[1])
        with socket.create_connection(("127.0.0.1", port), timeout=60) as wire, wire.makefile("r", newline="\n") as lines:
            def ask(text):
                wire.sendall(text.encode())
                return lines.readline().rstrip("\n")
            ask("hello\n")
            first, threads_then = memory_of(it.pid, "VmRSS"), threads_of(it.pid)
            threads = [threading.Thread(target=client.run, args=(port,)) for client in self.clients]
            for thread in threads:
                thread.start()
            for thread in threads:
                thread.join()
            wait_until(lambda: not is_listening(port))
            wait_until(lambda: threads_of(it.pid) <= threads_then)
            fault = self.judged_all(ask)
            self.kilobytes = memory_of(it.pid, "VmHWM")
            asked = sum(len(client.script) for client in self.clients)
            bound = first + SESSION_COST * (len(self.clients) + 16) + 40 * asked // 1024
            return fault or (f"too much memory: {first} kB at first, {self.kilobytes} at the end" if self.kilobytes > bound else None)

    def judged_all(self, ask):
        """What is wrong with some client's replies, or with a purse at the end."""
        for members in purses_of(self.terms):
            spent = [(0, 0)]
            for at in members:
                fault = self.judged(self.clients[at], sum(self.terms[it]["quanta"] for it in members), len(members) > 1, ask, spent)
                if fault:
                    return fault
            least, most = map(sum, zip(*spent))
            name = self.terms[members[0]]["name"]
            said = ask(f"@{name} ledger\n")
            book = BOOK.fullmatch(said.removeprefix(f"@{name} "))
            if self.clients[members[0]].terms["entries"] > 1 and (not book or int(book[3]) or not least <= int(book[4]) <= most):
                return f"{name}: {said!r}, and not {least} to {most} spent"
        return None

    def judged(self, client, granted, is_member, ask, spent):
        """What is wrong with a client's replies, or with its tenant at the end. Adds to `spent` between what its jobs' nodes are."""
        if client.failure:
            return client.failure
        farm = Alone(plain_farm.config_of(json.dumps({"tenants": [client.terms]}).encode()))
        tenant = Tenant(client.name, granted, farm.tenants[client.name], is_member)
        said, at = client.lines, 0
        try:
            with contextlib.suppress(StopIteration):
                for at, expected in enumerate(farm.replay(client.script)):
                    if client.manner == "reset":
                        self.after_reset(tenant, farm.asked[at], expected, ask)
                    else:
                        tenant.reply(farm.asked[at], expected, said[at])
            if client.manner != "reset" and said and said[len(farm.asked):] != [""]:
                raise Wrong("more or fewer replies")
            if client.terms["entries"] > 1:
                wait_until(lambda: " held 0 " in ask(f"@{client.name} ledger\n"))
                spent.append(tenant.whole(ask))
        except (Wrong, plain_farm.Unknown, IndexError) as why:
            return f"{client.name}, {client.manner}, request {at + 1}: {why!r}, said {said[at:at + 1]}"
        return None

    def after_reset(self, tenant, request, expected, ask):
        """Takes in a job that the farm was asked for before the connection ended, if it was: it is the next one of its tenant."""
        if isinstance(request, tuple) and request[0] == "submit" and " job " in expected:
            seq = int(expected.split()[2])
            if ask(f"@{tenant.name} status {seq}\n").endswith("no unknown"):
                raise StopIteration
            tenant.submitted(request[2], f"job {seq}", f"job {seq}")


def fault_of(process):
    """Whether it has not ended by itself after half a minute."""
    try:
        process.wait(30)
        return False
    except subprocess.TimeoutExpired:
        return True


def wait_until(holds):
    """Waits until it holds, half a minute at most."""
    end = time.monotonic() + 30
    while not holds() and time.monotonic() < end:
        time.sleep(0.002)


def is_listening(port):
    """Whether a port still waits for connections: a service's does until it has accepted the last of them, and its thread runs."""
    with open("/proc/net/tcp") as it:
        return any(row[1].endswith(f":{port:04X}") and row[3] == "0A" for row in map(str.split, it))


def threads_of(pid):
    return len(os.listdir(f"/proc/{pid}/task"))


def memory_of(pid, key):
    with open(f"/proc/{pid}/status") as it:
        return next(int(line.split()[1]) for line in it if line.startswith(key))
