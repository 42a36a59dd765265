"""What asks an installed SAT solver about the clauses of a file, for `tests/certificates`."""
import os
import re
import subprocess
import sys
import tempfile

TOP = os.path.dirname(os.path.dirname(os.path.realpath(__file__)))
# (the path of the program; `find_program` sets it)
PROGRAM = ""
# The words of each solver for a file of clauses and the proof that it writes.
SOLVERS = {
    "cadical": lambda clauses, proof: ["cadical", "-q", clauses, proof],
    "kissat": lambda clauses, proof: ["kissat", "-q", clauses, proof],
}
SATISFIABLE, UNSATISFIABLE = 10, 20


def fail(text):
    sys.exit("certificates: " + text)


def find_program():
    """Finds the program, which is proved and built first if that is owed."""
    global PROGRAM
    told = subprocess.run([os.path.join(TOP, "farm"), "where"], stdin=subprocess.DEVNULL, stdout=subprocess.PIPE, text=True)
    if told.returncode:
        sys.exit(1)
    PROGRAM = told.stdout.strip()


class Ran:
    """A command that was run: its status, what it wrote and its processor seconds."""

    def __init__(self, words, stdin=""):
        with tempfile.TemporaryFile() as given, tempfile.TemporaryFile() as out, tempfile.TemporaryFile() as err:
            given.write(stdin.encode())
            given.seek(0)
            child = subprocess.Popen(words, stdin=given, stdout=out, stderr=err)
            _, status, usage = os.wait4(child.pid, 0)
            child.returncode = self.status = os.waitstatus_to_exitcode(status)
            self.seconds = usage.ru_utime + usage.ru_stime
            out.seek(0)
            err.seek(0)
            self.out, self.err = out.read().decode(), err.read().decode()


class Search:
    """The questions to a solver about one file, in a folder of their own."""

    def __init__(self, file, solver, folder):
        self.file, self.solver, self.folder = file, solver, folder

    def path(self, name):
        return os.path.join(self.folder, name)

    def ask(self, bound):
        """A schedule of at most so many periods as words, or None where the solver has a proof that there is none."""
        made = Ran([PROGRAM, "clauses", self.file, str(bound)])
        if made.status != 0:
            fail(made.err.strip())
        with open(self.path("clauses.cnf"), "w") as out:
            out.write(made.out)
        solved = Ran(SOLVERS[self.solver](self.path("clauses.cnf"), self.path("proof")))
        if solved.status == SATISFIABLE:
            return schedule_in(made.out, solved.out)
        if solved.status != UNSATISFIABLE:
            fail(f"the solver ended with status {solved.status}")
        return None


def schedule_in(clauses, answer):
    """The words J:MODE:START of a solver's answer, by the comments of the clauses."""
    true = {int(word) for line in answer.splitlines() if line.startswith("v") for word in line.split()[1:] if word[0] != "-"}
    modes, starts = {}, {}
    for variable, kind, activity, value in re.findall(r"^c (\d+) (mode|starts) (\d+) (\d+)$", clauses, re.M):
        if int(variable) in true:
            activity, value = int(activity), int(value)
            if kind == "mode":
                modes[activity] = value
            else:
                starts[activity] = min(value, starts.get(activity, value))
    return " ".join(f"{j}:{modes[j]}:{starts.get(j, 0)}" for j in sorted(modes))
