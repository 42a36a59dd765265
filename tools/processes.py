"""Child processes of a script: each in a group of its own, ended with the script however that ends.

    processes = Processes()
    end_on_signals()                       SIGTERM, SIGHUP and SIGQUIT raise Ended in the main thread
    ran = processes.run(words, given=b"", seconds=None)
    processes.end()                        ends all that run; a later run raises Ended
"""
import ctypes
import os
import resource
import signal
import subprocess
import sys
import tempfile
import threading
import time

# How many seconds a process that was asked to end has until it is killed.
GRACE = 10.0
# How many files a process that runs holds open here, and how many the script needs beside.
FILES_OF_A_PROCESS, FILES_OF_THE_SCRIPT = 5, 32
PR_SET_PDEATHSIG = 1
LIBC = ctypes.CDLL(None, use_errno=True)


class Ended(Exception):
    """The run was asked to end, by the signal of this number if it has one."""


class Ran:
    """How a process ended: its status, or None if its time was over; what it printed; its processor and wall seconds; whether its output filled the disk."""

    def __init__(self, status, out, err, seconds, wall, was_full):
        self.status, self.out, self.err, self.seconds, self.wall, self.was_full = status, out, err, seconds, wall, was_full


def die_with_parent():
    """In a child: has the system kill it when the thread that made it ends, so also when the script is killed."""
    LIBC.prctl(PR_SET_PDEATHSIG, signal.SIGKILL)


def has_errors():
    """Whether the standard error can be written. Where it is closed, another file may have its number."""
    try:
        os.write(2, b"")
    except OSError:
        return False
    return sys.stderr is not None


def end_on_signals():
    def stop(number, _):
        raise Ended(number)

    for number in signal.SIGTERM, signal.SIGHUP, signal.SIGQUIT:
        signal.signal(number, stop)


def most_at_once():
    """Returns how many processes may run side by side by the limit of open files, which it raises as far as it may."""
    _, most = resource.getrlimit(resource.RLIMIT_NOFILE)
    try:
        resource.setrlimit(resource.RLIMIT_NOFILE, (most, most))
    except (OSError, ValueError):
        pass
    least, _ = resource.getrlimit(resource.RLIMIT_NOFILE)
    if least == resource.RLIM_INFINITY:
        return 1 << 30
    return max(1, (least - FILES_OF_THE_SCRIPT) // FILES_OF_A_PROCESS)


class Processes:
    def __init__(self):
        self.running, self.late, self.lock, self.is_over = set(), set(), threading.Lock(), False

    def run(self, words, given=b"", seconds=None):
        """Runs a process to its end, or until its seconds are over, and returns how it ended."""
        begun = time.monotonic()
        with tempfile.TemporaryFile() as source, tempfile.TemporaryFile() as out, tempfile.TemporaryFile() as err:
            source.write(given)
            source.seek(0)
            with self.lock:
                if self.is_over:
                    raise Ended
                process = subprocess.Popen(words, stdin=source, stdout=out, stderr=err, start_new_session=True, preexec_fn=die_with_parent)
                self.running.add(process.pid)
            timer = threading.Timer(seconds, self.end_late, [process.pid]) if seconds else None
            if timer:
                timer.start()
            os.waitid(os.P_PID, process.pid, os.WEXITED | os.WNOWAIT)
            if timer:
                timer.cancel()
            with self.lock:
                _, status, used = os.wait4(process.pid, 0)
                self.running.discard(process.pid)
                is_late = process.pid in self.late
                self.late.discard(process.pid)
            process.returncode = os.waitstatus_to_exitcode(status)
            if self.is_over:
                raise Ended
            was_full = os.fstatvfs(out.fileno()).f_bavail == 0
            out.seek(0)
            err.seek(0)
            said = [file.read().decode("utf-8", "replace") for file in (out, err)]
        ended = None if is_late and process.returncode == -signal.SIGKILL else process.returncode
        return Ran(ended, *said, used.ru_utime + used.ru_stime, time.monotonic() - begun, was_full)

    def end_late(self, pid):
        with self.lock:
            if pid in self.running:
                self.late.add(pid)
                self.kill(pid, signal.SIGKILL)

    def kill(self, pid, which):
        try:
            os.killpg(pid, which)
        except OSError:
            pass

    def end(self):
        """Asks all that run to end, and kills those that do not. No process is begun afterwards."""
        with self.lock:
            self.is_over = True
        for which, until in (signal.SIGTERM, time.monotonic() + GRACE), (signal.SIGKILL, time.monotonic() + 2 * GRACE):
            with self.lock:
                for pid in self.running:
                    self.kill(pid, which)
            while self.running and time.monotonic() < until:
                time.sleep(0.02)
