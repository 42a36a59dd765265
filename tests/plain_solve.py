#!/usr/bin/env python3
"""What `farm solve`, `farm verify` and `farm bench` say, written from docs/ alone: a second program to compare with.

    plain_solve.py solve FILE KIND[,KIND..] NODES       the two lines of several searches, one after another
    plain_solve.py verify FILE SCHEDULE                 'feasible makespan M', or what is wrong, with status 1
    plain_solve.py scatter FILE N FOLDER                writes N random schedules, and says what `farm verify --all` says of each, with its status
    plain_solve.py show FILE SCHEDULE                   the table of a feasible schedule
    plain_solve.py compare FILE SCHEDULE FOLDER N       what differs between a schedule and each of N in a folder, which come first by turns, with the status
    plain_solve.py rows KIND[,KIND..] NODES FILE..      the rows of a bench, with a star for the seconds

Each search is that of plain_searches.py. A schedule's text ends with words J:MODE:START, or is of lines J,MODE,START, or ends with JSON, or is a table of CSV.
"""
import csv
import io
import json
import math
import os
import re
import sys
from itertools import islice

sys.dont_write_bytecode = True
sys.path.insert(0, os.path.dirname(os.path.realpath(__file__)))
import plain_reader  # noqa: E402
import plain_searches  # noqa: E402

DECIDED = ["optimal", "infeasible"]
MOST_START = 1_000_000_000
# The most bytes of a schedule's text.
MOST_TEXT = 1_048_576
# A greater number of a schedule counts as this.
MOST_NUMBER = 2**32 - 1
# The names of a heading.
NAMES = [b"activity", b"mode", b"start"]
BLANKS = b" \t\n\x0c\r"


def found(p, kind, most):
    """Nodes, best and verdict of one search of at most so many nodes."""
    nodes, best, verdict = 0, None, "open"
    for nodes, (best, closed, verdict) in enumerate(islice(plain_searches.search(p, kind), most), 1):
        if closed:
            break
    return nodes, best, verdict


def together(p, kinds, most):
    """The same of several searches: none runs after one that has decided the project."""
    total, shortest, verdicts = 0, None, []
    for kind in kinds:
        nodes, best, verdict = found(p, kind, most)
        total += nodes
        if best is not None and (shortest is None or p.makespan(best) < p.makespan(shortest)):
            shortest = best
        verdicts.append(verdict)
        if verdict in DECIDED:
            return total, shortest, verdict
    return total, shortest, "open" if "open" in verdicts else "ended"


def places(p, best):
    """The words of a schedule, by rising activity."""
    return " ".join(f"{j + 1}:{m + 1}:{start}" for j, m, start in sorted(best))


def solved(p, kinds, most):
    nodes, best, verdict = together(p, kinds, most)
    makespan = "none" if best is None else p.makespan(best)
    words = "" if best is None else " " + places(p, best)
    return f"nodes {nodes} best {makespan} {verdict}\nmakespan {makespan} {verdict}{words}\n"


def told_as_json(p, nodes, best, verdict):
    schedule = [{"activity": j + 1, "mode": m + 1, "start": start} for j, m, start in sorted(best)] if best is not None else None
    value = {"nodes": nodes, "makespan": None if best is None else p.makespan(best), "verdict": verdict, "schedule": schedule}
    return json.dumps(value, separators=(",", ":")) + "\n"


def looks(p, kind, most):
    """What `--improvements` sees of a search: its nodes, best and verdict after 1, 3, 7 nodes and so on, at last each 65,536, and at its end."""
    chunk = next_look = 1
    for nodes, (best, closed, verdict) in enumerate(islice(plain_searches.search(p, kind), most), 1):
        if closed or nodes in (next_look, most):
            yield nodes, best, verdict
            chunk = min(2 * chunk, 65_536)
            next_look = nodes + chunk
        if closed:
            return


def output(p, kinds, most, is_improving, is_json):
    """All that solve prints."""
    text, shortest, ended = "", None, 0
    for kind in kinds if is_improving else []:
        nodes, verdict = 0, "open"
        for nodes, best, verdict in looks(p, kind, most):
            if best is not None and (shortest is None or p.makespan(best) < shortest):
                shortest = p.makespan(best)
                line = f"makespan {shortest} open {places(p, best)}\n"
                text += told_as_json(p, ended + nodes, best, "open") if is_json else line
        ended += nodes
        if verdict in DECIDED:
            break
    return text + (told_as_json(p, *together(p, kinds, most)) if is_json else solved(p, kinds, most))


def no_number(word):
    """Python's reader takes NaN, which is no JSON."""
    raise ValueError(word)


def whole(word):
    """A number with a sign is no natural one, also -0, nor is one of 2^64 and more."""
    if float(word) in (math.inf, -math.inf):
        raise ValueError("a number above all floats is no JSON text to the program")
    return None if word.startswith("-") or len(word) > 20 or int(word) >= 2**64 else int(word)


def in_order(places):
    """Modes and starts of activities, each once, or None."""
    of = {activity: (mode, start) for activity, mode, start in places}
    if sorted(it[0] for it in places) != list(range(1, len(places) + 1)):
        return None
    return [of[j][0] for j in sorted(of)], [of[j][1] for j in sorted(of)]


def json_schedule(text):
    """Modes and starts that a JSON text has, each activity once, or None."""
    try:
        value = json.loads(text.decode("utf-8"), parse_constant=no_number, parse_int=whole)
    except (ValueError, RecursionError):
        return None
    if isinstance(value, dict):
        value = value.get("schedule")
    if not isinstance(value, list):
        return None
    places = []
    for place in value:
        if not isinstance(place, dict):
            return None
        numbers = [place.get(key) for key in ["activity", "mode", "start"]]
        if any(type(n) is not int for n in numbers):
            return None
        places.append([min(n, MOST_NUMBER) for n in numbers])
    return in_order(places)


def counts_as(digits):
    """The number that digits write, which may be thousands; a great one counts as the greatest."""
    digits = digits.lstrip(b"0")
    return MOST_NUMBER if len(digits) > 10 else min(int(digits or b"0"), MOST_NUMBER)


def place(text, mark):
    """The three numbers between marks, or None."""
    parts = [it.strip(BLANKS) for it in text.split(mark)]
    if len(parts) != 3 or not all(re.fullmatch(rb"[0-9]+", it) for it in parts):
        return None
    return [counts_as(it) for it in parts]


def word_schedule(text):
    """Modes and starts of the words `1:MODE:START`, `2:MODE:START` and so on with which a text ends, or None."""
    words = [it for it in re.split(rb"[ \t\n\x0c\r]", text) if it]
    # (the last activity tells how many there are)
    last = place(words[-1], b":") if words else None
    if last is None or not 0 < last[0] <= len(words):
        return None
    places = [place(it, b":") for it in words[-last[0]:]]
    if None in places or [it[0] for it in places] != list(range(1, last[0] + 1)):
        return None
    return in_order(places)


def row_schedule(text):
    """Modes and starts of lines ACTIVITY,MODE,START in any order, or None; a line without a digit says nothing."""
    places = [place(it, b",") for it in text.split(b"\n") if re.search(rb"[0-9]", it)]
    return in_order(places) if places and None not in places else None


def table_schedule(text):
    """Modes and starts of a table of CSV with commas, semicolons or tabs, by a heading or in the first three columns, or None."""
    text = text.removeprefix(b"\xef\xbb\xbf")
    marks = re.search(rb"[,;\t]", text)
    mark = marks.group().decode() if marks else ","
    csv.field_size_limit(MOST_TEXT)
    rows = [it for it in csv.reader(io.StringIO(text.decode("latin-1"), newline=""), delimiter=mark) if it]
    rows = [[cell.encode("latin-1").strip(BLANKS) for cell in row] for row in rows]
    names = [cell.lower() for cell in rows[0]] if rows else []
    if all(name in names for name in NAMES):
        columns = [names.index(name) for name in NAMES]
        rows = [row for row in rows if columns[0] < len(row) and re.fullmatch(rb"[0-9]+", row[columns[0]])]
    else:
        columns = [0, 1, 2]
        rows = [row for row in rows if any(re.search(rb"[0-9]", cell) for cell in row)]
    cells = [[row[it] if it < len(row) else b"" for it in columns] for row in rows]
    if not cells or not all(re.fullmatch(rb"[0-9]+", cell) for row in cells for cell in row):
        return None
    return in_order([[counts_as(cell) for cell in row] for row in cells])


def schedule_of(text):
    lines = text[:-1].split(b"\n")
    last = lines[-1] + text[-1:]
    for told in [word_schedule(text), row_schedule(text), json_schedule(text), json_schedule(last), table_schedule(text)]:
        if told is not None:
            return told
    return None


def verified(p, text):
    """Whether the schedule of a text is feasible, and the line that says so, or what is wrong."""
    if len(text) > MOST_TEXT:
        return False, "no schedule TooLong"
    schedule = schedule_of(text)
    if schedule is None:
        return False, "no schedule Words"
    if len(schedule[0]) != p.n or max(schedule[1]) > MOST_START:
        return False, "breach Shape"
    told = plain_searches.breach(p, schedule)
    if told[0] == 0:
        return True, f"feasible makespan {told[1]}"
    name = {2: "Mode", 3: "Precedence", 4: "Renewable", 5: "Nonrenewable"}[told[0]]
    return False, f"breach {name}({', '.join(str(n) for n in told[1:])})"


def precedences(p, starts, lasts):
    for i, after in enumerate(p.successors):
        for j in sorted(after):
            if starts[j] < lasts[i]:
                yield f"Precedence({i + 1}, {j + 1}): activity {j + 1} starts in period {starts[j]}, before activity {i + 1} ends at {lasts[i]}"


def overuses(p, chosen, starts, lasts):
    for k, capacity in enumerate(p.capacities):
        for t in sorted(set(starts)):
            users = [j for j in range(p.n) if starts[j] <= t < lasts[j] and chosen[j][1][k] > 0]
            total = sum(chosen[j][1][k] for j in users)
            if total > capacity:
                yield f"Renewable({k + 1}, {t}): needs {total} of {capacity} in period {t}: activities {', '.join(str(j + 1) for j in users)}"


def breaches(p, text):
    """The lines of all breaches of a schedule of the right shape: modes alone, or else all others."""
    modes, starts = schedule_of(text)
    told = [f"Mode({j}): activity {j} is in mode {m}, and has modes 1 to {len(p.modes[j - 1])}" for j, m in enumerate(modes, 1) if not 1 <= m <= len(p.modes[j - 1])]
    if not told:
        chosen = [p.modes[j][m - 1] for j, m in enumerate(modes)]
        lasts = [start + mode[0] for start, mode in zip(starts, chosen)]
        told = [*precedences(p, starts, lasts), *overuses(p, chosen, starts, lasts)]
        for k, stock in enumerate(p.stocks):
            total = sum(mode[2][k] for mode in chosen)
            if total > stock:
                told.append(f"Nonrenewable({k + 1}): needs {total} of {stock}")
    return "".join(f"farm: breach {it}\n" for it in told)


def scatter(p, count, folder):
    """Random schedules, as words and as lines by turns, and what is said of each."""
    drawn = plain_searches.Drawn(7)
    for number in range(1, count + 1):
        modes, starts = plain_searches.random_schedule(p, drawn)
        mark, between = (":", " ") if number % 2 else (",", "\n")
        text = between.join(f"{j}{mark}{mode}{mark}{start}" for j, (mode, start) in enumerate(zip(modes, starts), 1)).encode()
        with open(f"{folder}/{number}", "wb") as file:
            file.write(text)
        holds, line = verified(p, text)
        print(f"{line}\nstatus 0" if holds else f"farm: {line}\n{breaches(p, text)}status 1")


def counted(number, one, many):
    return f"{number} {one if number == 1 else many}"


def titles(p, text):
    """The titles in a picture of a feasible schedule, in their order."""
    modes, starts = schedule_of(text)
    lasts = [start + p.modes[j][mode - 1][0] for j, (mode, start) in enumerate(zip(modes, starts))]
    return [
        f"A schedule of {counted(p.n, 'activity', 'activities')} that takes {counted(max(lasts), 'period', 'periods')}",
        *(f"Activity {j} in mode {mode}, from {start} to {last}" for j, (mode, start, last) in enumerate(zip(modes, starts, lasts), 1)),
        *(f"Use of renewable resource {k}, of which there are {capacity} in each period" for k, capacity in enumerate(p.capacities, 1)),
    ]


def table(p, text):
    """The table of a feasible schedule, in columns."""
    modes, starts = schedule_of(text)
    chosen = [p.modes[j][mode - 1] for j, mode in enumerate(modes)]
    lasts = [start + mode[0] for start, mode in zip(starts, chosen)]
    kinds = [f"R{k + 1}" for k in range(len(p.capacities))] + [f"N{k + 1}" for k in range(len(p.stocks))]
    lines = ["activity" + "".join(f" {it:>6}" for it in ["mode", "start", "finish", "slack", *kinds]) + "  predecessors"]
    for j in range(p.n):
        slack = min([max(lasts), *(starts[k] for k in p.successors[j])]) - lasts[j]
        before = ";".join(str(i + 1) for i in range(p.n) if j in p.successors[i])
        cells = [modes[j], starts[j], lasts[j], slack, *chosen[j][1], *chosen[j][2]]
        lines.append(f"{j + 1:>8}" + "".join(f" {it:>6}" for it in cells) + f"  {before or '-'}")
    return "\n".join(lines)


def compared(p, texts):
    """What is said of two schedules, and whether they are compared."""
    told, plans = [], []
    for name, text in zip(["before", "after"], texts):
        holds, line = verified(p, text)
        if line.split()[1] in ["Words", "TooLong"] or line.startswith(("breach Shape", "breach Mode")):
            return False, f"farm: {'second schedule: ' if plans else ''}{line}"
        modes, starts = schedule_of(text)
        chosen = [p.modes[j][mode - 1] for j, mode in enumerate(modes)]
        plans.append((modes, starts, [sum(mode[2][k] for mode in chosen) for k in range(len(p.stocks))]))
        told.append(f"{name} makespan {max(start + mode[0] for start, mode in zip(starts, chosen))} {'feasible' if holds else line}")
    (modes, starts, spent), (new_modes, new_starts, new_spent) = plans
    moved = [j for j in range(p.n) if (modes[j], starts[j]) != (new_modes[j], new_starts[j])]
    told += [f"activity {j + 1} mode {modes[j]} start {starts[j]} -> mode {new_modes[j]} start {new_starts[j]}" for j in moved]
    told.append(f"moved {len(moved)} of {p.n}")
    return True, "\n".join([*told, *(f"consumed N{k} {old} -> {new}" for k, (old, new) in enumerate(zip(spent, new_spent), 1))])


def compare(p, path, folder, count):
    for number in range(1, count + 1):
        texts = []
        for name in [f"{folder}/{number}", path][:: 1 if number % 2 else -1]:
            with open(name, "rb") as file:
                texts.append(file.read())
        holds, told = compared(p, texts)
        print(f"{told}\nstatus {0 if holds else 1}")


def row(name, p, search, most):
    nodes, best, verdict = together(p, search.split(","), most)
    makespan = "none" if best is None else p.makespan(best)
    words = f'"{search}"' if "," in search else search
    return f"{name},{p.n},{words},{nodes},*,{makespan},{verdict}\n"


def main():
    task = sys.argv[1]
    if task == "solve":
        print(solved(plain_searches.read(sys.argv[2]), sys.argv[3].split(","), int(sys.argv[4])), end="")
    elif task == "verify":
        with open(sys.argv[3], "rb") as file:
            holds, line = verified(plain_searches.read(sys.argv[2]), file.read())
        print(line if holds else f"farm: {line}")
        sys.exit(0 if holds else 1)
    elif task == "show":
        with open(sys.argv[3], "rb") as file:
            print(table(plain_searches.read(sys.argv[2]), file.read()))
    elif task == "compare":
        compare(plain_searches.read(sys.argv[2]), *sys.argv[3:5], int(sys.argv[5]))
    elif task == "scatter":
        scatter(plain_searches.read(sys.argv[2]), int(sys.argv[3]), sys.argv[4])
    else:
        for path in sorted(sys.argv[4:]):
            print(row(os.path.basename(path), plain_searches.read(path), sys.argv[2], int(sys.argv[3])), end="")


if __name__ == "__main__":
    main()
