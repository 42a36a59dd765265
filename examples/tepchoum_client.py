"""A client of a solve service, `farm serve` or its front, in Python's library alone.

    from tepchoum_client import Client, Refused

    with Client(4711) as client:
        job = client.submit("planning", "examples/j10_1.mm", "tree", 40_000)
        print(job.wait().best, job.result().places)

Each call sends one request and reads one reply (docs/PROTOCOL.md). A reply `@T no CAUSE` raises `Refused`; a connection that ends raises `ConnectionError`, and a service that does
not answer for `timeout` seconds `TimeoutError`. A client belongs to one thread. `python3 tepchoum_client.py PORT TENANT FILE STRATEGY QUANTA` submits a file, waits and prints its
schedule, as `farm verify` reads it."""
import socket
import sys
import time
from dataclasses import dataclass

# The phases of a job that may still run nodes.
RUNNING = ("waiting", "out", "leaving")
# A `status` costs its tenant an entry: so a client that waits asks seldom, and more and more so.
SHORTEST_PAUSE, LONGEST_PAUSE = 0.05, 30.0


class Refused(Exception):
    """The service has refused a request: `cause` is its word, as `short` or `busy`, and `told` all words behind `no`."""

    def __init__(self, told):
        super().__init__(" ".join(told))
        self.cause, self.told = told[0], told


@dataclass(frozen=True)
class Line:
    """The line of a job: its phase, the nodes that ran, the quanta that it holds, its best makespan or None, and the verdict."""

    phase: str
    nodes: int
    left: int
    best: int | None
    verdict: str


@dataclass(frozen=True)
class Schedule:
    """The best schedule of a job: its makespan or None, the verdict, and a (activity, mode, start) of each activity."""

    makespan: int | None
    verdict: str
    places: tuple


@dataclass(frozen=True)
class Ledger:
    """The quanta of a tenant's purse."""

    granted: int
    free: int
    held: int
    spent: int


class Client:
    """A connection to a service at `port` of this machine."""

    def __init__(self, port, timeout=600.0):
        self.connection = socket.create_connection(("127.0.0.1", port), timeout=timeout)
        self.replies = self.connection.makefile("rb")

    def __enter__(self):
        return self

    def __exit__(self, *_):
        self.close()

    def close(self):
        self.replies.close()
        self.connection.close()

    def ask(self, request):
        """The words of the reply to a request, behind its name."""
        self.connection.sendall(request)
        line = self.replies.readline()
        if not line.endswith(b"\n"):
            raise ConnectionError("the service has ended the connection")
        words = line.decode().split()[1:]
        if words[0] == "no":
            raise Refused(words[1:])
        return words

    def submit(self, tenant, file, strategy, quanta):
        """A job for the project of a file, given by its path."""
        with open(file, "rb") as it:
            return self.submit_text(tenant, it.read(), strategy, quanta)

    def submit_text(self, tenant, text, strategy, quanta):
        """A job for the project of a text, as bytes. A last line without its end gets one."""
        text += b"\n" * (not text.endswith(b"\n"))
        words = self.ask(b"@%s submit %s %d %d\n%s" % (tenant.encode(), strategy.encode(), quanta, text.count(b"\n"), text))
        return Job(self, tenant, int(words[1]))

    def job(self, tenant, number):
        """A job that was submitted before, by its number."""
        return Job(self, tenant, number)

    def ledger(self, tenant):
        words = self.ask(b"@%s ledger\n" % tenant.encode())
        return Ledger(*map(int, words[2::2]))


class Job:
    """A tenant's job, by its number."""

    def __init__(self, client, tenant, number):
        self.client, self.tenant, self.number = client, tenant, number

    def ask(self, word, more=""):
        return self.client.ask(f"@{self.tenant} {word} {self.number}{more}\n".encode())

    def line(self, word, more=""):
        _, _, phase, _, nodes, _, left, _, best, verdict = self.ask(word, more)
        return Line(phase, int(nodes), int(left), number_of(best), verdict)

    def status(self):
        return self.line("status")

    def fund(self, quanta):
        return self.line("fund", f" {quanta}")

    def cancel(self):
        return self.line("cancel")

    def forget(self):
        self.ask("forget")

    def result(self):
        """The best schedule that is known. `Refused` with `busy` while a turn of the job is out."""
        _, _, _, best, verdict, *places = self.ask("result")
        return Schedule(number_of(best), verdict, tuple(tuple(map(int, it.split(":"))) for it in places))

    def wait(self, longest=None):
        """The job's line once it is dry, closed or cancelled; `TimeoutError` after `longest` seconds."""
        pause, end = SHORTEST_PAUSE, None if longest is None else time.monotonic() + longest
        while (line := self.status()).phase in RUNNING:
            left = LONGEST_PAUSE if end is None else end - time.monotonic()
            if left <= 0:
                raise TimeoutError(f"job {self.number} of {self.tenant} is still {line.phase}")
            time.sleep(min(pause, left))
            pause = min(2 * pause, LONGEST_PAUSE)
        return line


def number_of(word):
    return None if word == "none" else int(word)


def main(words):
    if len(words) != 5:
        print("usage: tepchoum_client.py PORT TENANT FILE STRATEGY QUANTA", file=sys.stderr)
        return 2
    port, tenant, file, strategy, quanta = words
    try:
        with Client(int(port)) as client:
            job = client.submit(tenant, file, strategy, int(quanta))
            line, schedule = job.wait(), job.result()
    except (Refused, OSError, ValueError) as why:
        print(f"tepchoum_client: {why}", file=sys.stderr)
        return 1
    print(f"job {job.number} {line.phase} nodes {line.nodes} best {'none' if line.best is None else line.best} {line.verdict}")
    print(*(":".join(map(str, place)) for place in schedule.places))
    return 0


if __name__ == "__main__":
    sys.exit(main(sys.argv[1:]))
