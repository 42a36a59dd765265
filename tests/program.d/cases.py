#!/usr/bin/env python3
"""Runs the tables `files`, `schedules` and `words` for `tests/program`: prints each case that fails, and last how many runs passed and failed.

    cases.py FARM FOLDER        FOLDER has the text `short`, files that the tables name, and room

A row has tabs between its columns. `\\n`, `\\t`, `\\r`, `\\xHH` and `\\\\` stand for bytes, `\\{N*C}` for N times C. A row `@NAME TEXT` gives `$NAME` a text. A project's
text is `short` or `long` with edits of its lines, as `short: 7=2 1 1 5 | 9-`; `@FILE`; or `= TEXT`. A kind that ends in 0 is run without second lines.
"""
import os
import re
import shlex
import subprocess
import sys

HERE = os.path.dirname(os.path.realpath(__file__))
TOP = os.path.dirname(os.path.dirname(HERE))
FARM, WORK = sys.argv[1:]
counts = {True: 0, False: 0}
SIGNS = {"n": "\n", "t": "\t", "r": "\r", "\\": "\\"}
names = {"first": f"{TOP}/examples/first.mm", "examples": f"{TOP}/examples", "work": WORK, "text": f"{WORK}/text", "schedule": f"{WORK}/schedule"}


def plain(text):
    """The bytes that a column stands for, each as a character."""
    text = re.sub(r"\$(\w+)", lambda it: names.get(it[1], it[0]), text)
    text = re.sub(r"\\\{(\d+)\*(.[^}]*)\}", lambda it: plain(it[2]) * int(it[1]), text)
    return re.sub(r"\\(?:x(..)|([ntr\\]))", lambda it: chr(int(it[1], 16)) if it[1] else SIGNS[it[2]], text)


def read(name):
    with open(name, encoding="latin-1", newline="") as it:
        return it.read()


def write(name, text):
    with open(f"{WORK}/{name}", "w", encoding="latin-1", newline="") as out:
        out.write(text)


def text_of(column):
    """The project's text that a column tells."""
    if column.startswith("= "):
        return plain(column[2:])
    if column.startswith("@"):
        return read(f"{WORK}/{column[1:]}")
    base, _, edits = column.partition(": ")
    lines = read({"short": f"{WORK}/short", "long": names["first"]}[base]).split("\n")
    for edit in filter(None, edits.split(" | ")):
        number, sign, line = re.fullmatch(r"(\d+)([=-])(.*)", edit, re.S).groups()
        lines[int(number) - 1] = plain(line) if sign == "=" else None
    return "\n".join(line for line in lines if line is not None)


def run(words, explained="1", given=None):
    """The status, standard output and standard error of a run; line feeds at their ends do not count."""
    with open(given or os.devnull, "rb") as it:
        ran = subprocess.run([FARM, *words], stdin=it, capture_output=True, env={**os.environ, "FARM_EXPLAIN": explained})
    return ran.returncode, *(it.decode("latin-1").replace("\0", "").rstrip("\n") for it in (ran.stdout, ran.stderr))


def says(name, found, *wanted):
    counts[found == wanted] += 1
    if found != wanted:
        print(f"program: {name}: {found}, and not {wanted}")


def files(name, text, fault, said):
    write("text", text_of(text))
    wanted = (1, "", f"farm: no file {fault}\nfarm: why: {plain(said)}") if fault else (0, plain(said), "")
    says(name, run(["check", names["text"]]), *wanted)
    says(f"{name}, on standard input", run(["check", "-"], given=names["text"]), *wanted)
    if fault:
        says(f"{name}, unexplained", run(["check", names["text"]], "0"), 1, "", f"farm: no file {fault}")


def schedules(kind, name, text, schedule, status, said):
    write("text", text_of(text))
    write("schedule", plain(schedule))
    wanted = (0, plain(said), "") if status == "0" else (int(status), "", plain(said))
    if kind == "all":
        for explained in "0", "1":
            says(f"verify --all: {name}", run(["verify", "--all", names["text"], names["schedule"]], explained), *wanted)
        return
    explained = "0" if kind.endswith("0") else "1"
    says(f"verify: {name}", run(["verify", names["text"], names["schedule"]], explained), *wanted)
    says(f"verify: {name}, on standard input", run(["verify", names["text"], "-"], explained, names["schedule"]), *wanted)
    drawn = run(["draw", names["text"], names["schedule"]], explained)
    if status == "0":
        looked = subprocess.run([f"{TOP}/tests/picture"], input=drawn[1] + "\n", text=True, stdout=subprocess.PIPE, stderr=subprocess.STDOUT)
        drawn, wanted = (drawn[0] or 3 * bool(looked.returncode), looked.stdout.rstrip("\n"), drawn[2]), (0, "activities 4 resources 1", "")
    says(f"draw: {name}", drawn, *wanted)


def words(kind, name, text, schedule, line, status, out, err):
    if text:
        write("text", text_of(text))
    write("schedule", plain(schedule))
    line, wanted = [plain(word) for word in shlex.split(line)], (int(status), plain(out), plain(err))
    found = run(line, "0" if kind.endswith("0") else "1")
    if kind.startswith("refuse"):
        says(name, (found[0], " ".join(stream for stream, said in zip(("out", "err"), found[1:]) if said), ""), *wanted)
        return
    only_told = lambda it: (*it[:2], "\n".join(line for line in it[2].split("\n") if line.startswith("farm:"))) if kind == "advise" else it
    says(name, only_told(found), wanted[0], wanted[1], f"farm: why: {wanted[2]}" if kind == "advise" else wanted[2])
    if kind in ("advise", "fault"):
        says(f"{name}, unexplained", only_told(run(line, "0")), wanted[0], wanted[1], "" if kind == "advise" else wanted[2].split("\n")[0])


for table in files, schedules, words:
    with open(f"{HERE}/{table.__name__}", encoding="utf-8") as rows:
        for row in filter(lambda it: it.strip() and it[0] != "#", map(lambda it: it.rstrip("\n"), rows)):
            if row[0] == "@" and row.count("\t") == 1:
                names[row[1:].partition("\t")[0]] = row.partition("\t")[2]
            else:
                table(*row.split("\t"))
print(counts[True], counts[False])
