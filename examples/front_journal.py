"""The journal of `front`: the requests that were accepted, in their order, each on the disk before its client hears of it, and how they are asked again at a start.

A file of a journal is the line `tepchoum journal 1` and then records: a line `REQUEST REPLY CHECK` (how many bytes a request and its reply have, and the CRC-32 of both),
the request with its text, and the reply. A last record that a crash cut off was never answered: it is cut away at the next start. Any other damage is a fault."""
import fcntl
import os
import re
import threading
import zlib

HEAD = b"tepchoum journal 1\n"
RECORD = re.compile(rb"(\d{1,9}) (\d{1,9}) ([0-9a-f]{8})\n")
# The requests that change a job or a purse.
KEPT = re.compile(rb"[ \t]*@([a-z][a-z0-9_-]{0,31})[ \t]+(submit|fund|cancel|forget)[ \t]+(\S+)")
QUANTA = re.compile(rb"([ \t]*\S+[ \t]+submit[ \t]+\S+[ \t]+)\d+")
# Refusals that may not last: a job that still runs, and quanta that another one will hand back.
PASSING = [b"busy", b"short", b"memory"]
SHORTEST, LONGEST = 0.02, 10.0


class Fault(Exception):
    """The journal cannot be used: why."""


def is_refusal(reply):
    return reply.split()[1:2] == [b"no"]


def is_kept(line):
    """Whether a request line is one of those that a journal keeps once they are accepted."""
    return KEPT.match(line) is not None


class Journal:
    """An open journal. Calls come from many threads."""

    def __init__(self, path):
        self.path, self.order, self.turn = path, threading.Lock(), threading.Condition()
        self.written, self.synced, self.is_syncing, self.is_lost, self.pending, self.cut = 0, 0, False, False, bytearray(), 0
        try:
            self.file = os.open(path, os.O_RDWR | os.O_CREAT | os.O_CLOEXEC, 0o600)
            fcntl.flock(self.file, fcntl.LOCK_EX | fcntl.LOCK_NB)
            self.end = self.begin()
            os.fsync(self.file)
            sync_folder(os.path.dirname(os.path.abspath(path)))
        except BlockingIOError as error:
            raise Fault(f"{path} is the journal of a front that runs") from error
        except OSError as error:
            raise Fault(f"cannot open {path}: {error.strerror}") from error

    def begin(self):
        """The size of the whole records. What a crash cut off behind them is cut away."""
        size = os.fstat(self.file).st_size
        head = os.pread(self.file, len(HEAD), 0)
        if size < len(HEAD) and HEAD.startswith(head):
            os.ftruncate(self.file, 0)
            os.pwrite(self.file, HEAD, 0)
            return len(HEAD)
        if head != HEAD:
            raise Fault(f"{self.path} is no journal")
        end = len(HEAD)
        for _, _, end in self.records():
            pass
        self.cut = size - end
        os.ftruncate(self.file, end)
        return end

    def records(self):
        """Each request with its reply and where its record ends, up to one that is cut off. A Fault where one is damaged."""
        size, at = os.fstat(self.file).st_size, len(HEAD)
        while at < size:
            head = os.pread(self.file, 40, at)
            found = RECORD.match(head)
            if not found:
                if b"\n" not in head and size - at < 40:
                    return
                raise Fault(f"{self.path} is damaged at byte {at}")
            request, reply = int(found[1]), int(found[2])
            begin, end = at + found.end(), at + found.end() + request + reply
            if end > size:
                return
            data = read_all(self.file, begin, request + reply)
            if zlib.crc32(data) != int(found[3], 16):
                # (blocks of a last record may be missing though its length is there)
                if end == size:
                    return
                raise Fault(f"{self.path} is damaged at byte {at}")
            yield data[:request], data[request:], end
            at = end

    def is_writable(self):
        """Whether all that was to be written is written; under `order`."""
        try:
            self.flush()
        except OSError:
            return False
        return not self.is_lost

    def flush(self):
        while self.pending:
            count = os.pwrite(self.file, self.pending, self.end)
            self.end += count
            del self.pending[:count]

    def keep(self, request, reply):
        """Writes an accepted request; under `order`. Returns a ticket for `wait`. An OSError leaves it to the next write."""
        self.pending += b"%d %d %08x\n" % (len(request), len(reply), zlib.crc32(request + reply)) + request + reply
        self.flush()
        self.written += 1
        return self.written

    def wait(self, ticket):
        """Waits until the request of a ticket is on the disk; what others wrote meanwhile goes with it. After an OSError the journal takes no more."""
        with self.turn:
            while self.synced < ticket:
                if self.is_lost:
                    raise OSError(f"{self.path} cannot be written to the disk")
                if self.is_syncing:
                    self.turn.wait()
                else:
                    self.sync()

    def sync(self):
        """Writes to the disk what was written, while others may go on; under `turn`."""
        self.is_syncing, upto = True, self.written
        self.turn.release()
        try:
            os.fdatasync(self.file)
        except OSError:
            self.is_lost = True
        self.turn.acquire()
        self.is_syncing = False
        self.turn.notify_all()
        if not self.is_lost:
            self.synced = max(self.synced, upto)


def read_all(file, begin, count):
    data = bytearray()
    while len(data) < count:
        got = os.pread(file, count - len(data), begin + len(data))
        if not got:
            break
        data += got
    return bytes(data)


def sync_folder(path):
    folder = os.open(path, os.O_RDONLY | os.O_DIRECTORY)
    try:
        os.fsync(folder)
    finally:
        os.close(folder)


class Again:
    """Asks the requests of a journal again, one after another.

    A job that was cancelled is submitted with one quantum, cancelled right then, and not funded, so that no purse has fewer quanta free than it had: what it had found is lost,
    and its quanta come back. A request that met a job that had ended waits until that job has ended again. Another answer than before ends it: `Fault`."""

    def __init__(self, journal, ask, tell, ending):
        self.journal, self.ask, self.tell, self.ending = journal, ask, tell, ending
        self.asked = self.count = 0
        self.cancelled = set()

    def run(self):
        """Returns once all was asked, or earlier if it is to end."""
        for request, _, _ in self.journal.records():
            self.count += 1
            tenant, word, number = KEPT.match(request).groups()
            if word == b"cancel":
                self.cancelled.add((tenant, int(number)))
        for request, reply, _ in self.journal.records():
            if self.ending.is_set():
                return
            self.again(request, reply)
            self.asked += 1

    def again(self, request, reply):
        tenant, word, number = KEPT.match(request).groups()
        if word == b"cancel" or word == b"fund" and (tenant, int(number)) in self.cancelled:
            return
        if word != b"submit":
            self.accepted(request)
            return
        job = reply.split()[2]
        is_cancelled = (tenant, int(job)) in self.cancelled
        now = self.accepted(QUANTA.sub(rb"\g<1>1", request, count=1) if is_cancelled else request)
        if now is not None and now != reply:
            raise Fault(f"request {self.asked + 1} of {self.journal.path} was answered {told(reply)} and is now answered {told(now)}")
        if now is not None and is_cancelled:
            self.accepted(b"@%s cancel %s\n" % (tenant, job))

    def accepted(self, request):
        """The reply to a request once it is accepted; nothing if it is to end before, or where a job is over that once was funded: it found all without."""
        pause = SHORTEST
        while not self.ending.is_set():
            reply = self.ask(request)
            if not is_refusal(reply):
                return reply
            cause = reply.split()[2] if len(reply.split()) > 2 else b""
            if cause == b"over":
                return None
            if cause not in PASSING:
                raise Fault(f"request {self.asked + 1} of {self.journal.path} was accepted and is now answered {told(reply)}: is the configuration another?")
            if pause >= LONGEST / 2:
                self.tell(f"request {self.asked + 1} of {self.journal.path} waits: {told(reply)}")
            self.ending.wait(pause)
            pause = min(2 * pause, LONGEST)
        return None


def told(reply):
    return reply.decode("utf-8", "backslashreplace").strip()
