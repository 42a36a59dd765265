"""The record of wrong bodies: when each was last seen refused, and of which texts.

It is the file `tests/refused.txt`, a sorted line for each edit: its crate and name, a key of its own crate, a key of the crates below, and the day. The keys
are sums of all that the prover reads: the edit and the sources, definitions and proofs of its crate, but for lines that are comments and empty lines between
items; those of all crates below; and in both HANDLES, the crates' lines in `crates.txt` and the kit. So they are computed anew from the files by each run, and
a line whose keys differ from these says nothing.
"""
import datetime
import hashlib
import os
import re

# The files that the prover reads, and the lines of them that are comments; and empty lines at the beginning of a file or after what ends a line of code, where
# no text in quotes can hold them.
COMMENTS = {".rt": re.compile(rb"(?m)^[ \t]*//.*(\n|\Z)"), ".antt": re.compile(rb"(?m)^[ \t]*--.*(\n|\Z)")}
EMPTY = re.compile(rb"(\A|(?<=[;{}\]]\n))(?:[ \t]*\n)+")


def bare(path, text):
    """Returns what the keys take of a file."""
    ending = os.path.splitext(path)[1]
    text = COMMENTS[ending].sub(b"", text)
    return EMPTY.sub(b"", text) if ending == ".rt" else text


class Keys:
    """The keys of edits, computed from the files."""

    def __init__(self, top, kit, crates):
        self.top, self.kit = top, kit
        with open(f"{top}/crates.txt", encoding="utf-8") as it:
            self.lines = {line.split(":")[0].split()[0]: line for line in it if ":" in line and not line.startswith("#")}
        with open(f"{top}/HANDLES", "rb") as it:
            self.handles = it.read()
        self.sums = {it.name: self.sum_of(it) for it in {one for crate in crates for one in [crate, *crate.below()]}}

    def sum_of(self, crate):
        """Returns a sum of all texts of a crate."""
        found = hashlib.sha256(self.lines[crate.name].encode())
        for part in "src", "specs", "proofs":
            for at, folders, names in os.walk(f"{crate.folder}/{part}"):
                folders.sort()
                for name in sorted(it for it in names if os.path.splitext(it)[1] in COMMENTS):
                    path = f"{at}/{name}"
                    with open(path, "rb") as it:
                        found.update(repr((os.path.relpath(path, crate.folder), bare(path, it.read()))).encode())
        return found.digest()

    def of(self, crate, edit):
        """Returns the two keys of an edit."""
        begin = repr((self.kit, self.handles)).encode()
        own = hashlib.sha256(begin + self.sums[crate.name] + edit.text.encode())
        below = hashlib.sha256(begin + b"".join(sorted(self.sums[it.name] for it in crate.below())))
        return own.hexdigest()[:16], below.hexdigest()[:16]


class Record:
    """The lines of the record by the edits' names."""

    def __init__(self, path):
        self.path, self.rows = path, {}
        if os.path.isfile(path):
            with open(path, encoding="utf-8") as it:
                rows = [line.split() for line in it if not line.startswith("#")]
            self.rows = {row[0]: row[1:] for row in rows if len(row) == 4}

    def stage(self, name, keys):
        """Returns what the record says of an edit with these keys: 0 if its crate or the edit is another now or there is no line, 1 if a crate below is,
        and 2 if it was seen refused as it is; and the day on which it was seen last."""
        own, below, day = self.rows.get(name, ("", "", ""))
        return (0 if own != keys[0] else 1 if below != keys[1] else 2), day

    def note(self, name, keys):
        self.rows[name] = [*keys, datetime.date.today().isoformat()]

    def forget(self, name):
        self.rows.pop(name, None)

    def write(self, names):
        """Writes the lines of these edits, and no others."""
        lines = [" ".join([name, *self.rows[name]]) for name in sorted(names) if name in self.rows]
        with open(self.path, "w", encoding="utf-8") as it:
            it.write("\n".join(["# An edit, the keys of its crate and of the crates below, and the day when it was last seen refused. `./test` writes this.", *lines, ""]))
