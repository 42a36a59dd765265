"""Rows of `farm bench`: their columns, the files that hold them, optima to compare with, and what all rows come to."""
import csv
import io
import os
import re

COLUMNS = ["name", "activities", "search", "nodes", "seconds", "makespan", "verdict", "wall", "bound", "optimum", "gap", "stopped"]
CLOSED = ["optimal", "infeasible"]
NONE = "none"
# The line before the columns: version, words and day.
HEADING = re.compile(r"# farm\b.*; bench .*; \d{4}-\d{2}-\d{2}")


def shown(name):
    """Returns a name as text that every terminal and file takes: bytes that are no UTF-8 as \\x.."""
    return os.fsencode(name).decode("utf-8", "backslashreplace")


def percent(makespan, least):
    """By how many percent a makespan is above the least one; None if that cannot be told."""
    if makespan == NONE or least == NONE:
        return None
    return 100 * (int(makespan) - int(least)) / int(least) if int(least) else 0.0 if int(makespan) == 0 else None


class Kept:
    """The rows of a file that bench has printed, and for each the heading under which it stands."""

    def __init__(self, path):
        self.path, self.rows, self.headings = path, [], []
        with open(path, encoding="utf-8", newline="", errors="surrogateescape") as file:
            text = file.read()
        has_columns = False
        try:
            records = list(csv.reader(io.StringIO(text, newline="")))
        except csv.Error:
            raise ValueError(f"{path}: it has no rows of bench")
        for record in filter(None, records):
            if HEADING.fullmatch(",".join(record)):
                self.headings.append(",".join(record))
            elif record == COLUMNS:
                has_columns = True
            elif has_columns and len(record) == len(COLUMNS):
                self.rows.append({**dict(zip(COLUMNS, record)), "heading": self.headings[-1] if self.headings else ""})
            elif has_columns and record is records[-1] and not text.endswith("\n"):
                break
            else:
                raise ValueError(f"{path}: it has no rows of bench")
        if text and not has_columns:
            raise ValueError(f"{path}: it has no rows of bench")
        if has_columns and not text.endswith("\n"):
            raise ValueError(f"{path}: its last row is cut off: take that line out, and its file is searched again")


def options_in(heading):
    """Returns the words of a heading that decide what a row says."""
    words = heading.split("; bench ")[-1].rpartition("; ")[0]
    return re.sub(r" --jobs \d+", "", words)


def optimum_in(line, stem):
    """The name and the makespan of a line of optima: two words, with a comma or blanks, or a row of PSPLIB's table; None for a line of neither."""
    words = [word.strip().strip('"') for word in line.split(",")] if "," in line else line.split()
    if len(words) >= 3 and all(re.fullmatch(r"\d+", word) for word in words[:3]) and stem:
        return f"{stem}{words[0]}_{words[1]}", words[2]
    return (stem_of(words[0]), words[1]) if len(words) == 2 and re.fullmatch(r"[0-9]+", words[1]) else None


def stem_of(name):
    """A name without the ending of a project's file."""
    return name.removesuffix(".mm").removesuffix(".sm")


def optima_of(path):
    """The makespan for each name: in lines of two words, in two columns, or in PSPLIB's table, whose names begin as that of the file, as j10 of j10opt.mm."""
    optima, head = {}, True
    stem = re.match(r"[a-z]+\d+", os.path.basename(path).lower())
    with open(path, encoding="utf-8") as lines:
        text = lines.read().splitlines()
    is_table = any(re.match(r"\s*par\w*\s+ins\w*", line, re.I) for line in text)
    if is_table and not stem:
        raise ValueError(f"{path}: it is a table of parameters and instances, and its name does not begin as theirs do, such as j10opt.mm")
    for number, line in enumerate(text, 1):
        if not line.strip() or line.startswith("#"):
            continue
        found = optimum_in(line, (stem[0] if stem else "") if is_table else None)
        if found is None and (is_table or head and re.fullmatch(r"[^,\s]+,[^,]*[^,\d\s][^,]*", line)):
            head = False
            continue
        head = False
        if found is None:
            raise ValueError(f"{path}: line {number} is no name and makespan")
        if found[0] in optima:
            raise ValueError(f"{path}: line {number}: {found[0]} stands twice")
        optima[found[0]] = int(found[1])
    return optima


class Tally:
    """What all rows come to."""

    def __init__(self, optima):
        self.optima, self.instances, self.closed, self.gaps, self.met = optima, 0, 0, [], set()

    def met_name(self, name):
        stem = stem_of(os.path.basename(name))
        self.met.add(stem)
        return stem

    def take_kept(self, row):
        """Counts a row that was found before."""
        self.instances += 1
        self.closed += row["verdict"] in CLOSED
        self.met_name(row["name"])

    def take(self, row):
        """Takes a row in, with its optimum and gap, and returns what is wrong with it, or None."""
        self.instances += 1
        self.closed += row["verdict"] in CLOSED
        optimum = (self.optima or {}).get(self.met_name(row["name"]), NONE)
        wrong = None if optimum == NONE else self.compared(row, optimum)
        gap = percent(row["makespan"], row["bound"] if optimum == NONE or wrong else optimum)
        row.update(optimum=optimum, gap=NONE if gap is None else f"{gap:.2f}")
        return wrong

    def compared(self, row, optimum):
        """Compares a row with its optimum, and returns why that cannot be one, or None."""
        makespan, verdict = row["makespan"], row["verdict"]
        if verdict == "infeasible":
            return f"it is shown infeasible, and the optimum {optimum} is given"
        if row["bound"] != NONE and int(row["bound"]) > optimum and verdict != "optimal":
            return f"no schedule is shorter than {row['bound']}, and the optimum {optimum} is given"
        if makespan == NONE:
            return None
        if makespan < optimum:
            return f"makespan {makespan} is below the optimum {optimum} that is given"
        if verdict == "optimal" and makespan > optimum:
            return f"makespan {makespan} is shown optimal, and the optimum {optimum} is given"
        gap = percent(makespan, optimum)
        self.gaps += [] if gap is None else [gap]
        return None

    def stray(self, path):
        """What is told of optima for which no project was searched, or None."""
        names = [name for name in self.optima or {} if name not in self.met]
        count = "1 name is" if len(names) == 1 else f"{len(names)} names are"
        return f"{path}: {count} of no project that was searched, such as {names[0]}" if names else None

    def text(self):
        text = f"instances {self.instances} closed {self.closed}"
        if self.optima is None:
            return text
        gap = f"{sum(self.gaps) / len(self.gaps):.2f}" if self.gaps else NONE
        return f"{text} compared {len(self.gaps)} gap {gap}"
