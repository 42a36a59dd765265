"""Edits: small texts that change a crate, each a wrong body of a function or another change that the prover has to refuse."""
import functools
import os
import re

from copies import FN, copyables

BODY = re.compile(r"(?m)\{$")
TYPE = re.compile(r"\b(?:struct|enum|trait) (\w+)|(?m:^\s*impl\b.* for (?:\w+::)*(\w+))")
ITEM = re.compile(r"\b(fn|impl|struct|enum|const|trait|mod|use|ensures|requires)\s")
# The folders of a crate's edits: those that the project is known by, and all others.
NAMED, OTHERS = "must-fail", "wrong"


class BadEdit(Exception):
    pass


class Edit:
    """A file of `wrong/` or `must-fail/`: the function `fn` or `at`, or None, and its parts, each a file with an old and a new text.

    In `must-fail/` the lines `fn:` and `at:` stand behind `# `, since `rt must-fail` reads these files too.
    """

    def __init__(self, path):
        self.path, self.name, self.fn, self.at, self.parts = path, os.path.basename(path), None, None, []
        self.is_named = os.path.basename(os.path.dirname(path)) == NAMED
        with open(path, encoding="utf-8") as it:
            self.text = it.read()
        file, old = "", None
        for line in self.text.split("\n"):
            word, _, rest = line.partition(":")
            word = word.removeprefix("# ") if self.is_named else word
            if word in ("fn", "at"):
                setattr(self, word, rest.strip())
            elif word == "file":
                file = rest.strip()
            elif word == "old":
                old = rest.removeprefix(" ")
            elif word == "new":
                if not file or not old:
                    raise BadEdit("a 'new:' line stands before any 'file:' or 'old:' line")
                self.parts.append((file, old, rest.removeprefix(" ")))
            elif line.strip():
                raise BadEdit(f"the line '{line[:60]}' is none of 'fn:', 'at:', 'file:', 'old:', 'new:', each of which is one line")
        if not self.parts:
            raise BadEdit("it has no 'old:' and 'new:' pair")

    def over(self, crate, texts):
        """Returns the texts of its files with the edit in them, over the texts of others of its run, or None where an old text is not there once."""
        made = {}
        for file, old, new in self.parts:
            text = made.get(file) or texts.get(file) or text_of(crate, file)
            if text.count(old) != 1:
                return None
            made[file] = text.replace(old, new)
        return made

    def within(self, text):
        """Returns a function's text with the edit in it, or None where an old text is not there once."""
        for file, old, new in self.parts:
            if not file.startswith("proofs/"):
                if text.count(old) != 1:
                    return None
                text = text.replace(old, new)
        return text

    def function(self, crate):
        """Returns the function whose body it changes, where that may have copies beside it and all that the edit changes of the code is in it, or None."""
        files = {it for it, _, _ in self.parts if not it.startswith("proofs/")}
        found = [it for file in files for it in copyables(self.fn, file, text_of(crate, file)) if self.within(it.text)]
        return found[0] if len(files) == 1 and len(found) == 1 and self.fn.startswith(f"{crate.name}::") else None

    def stray(self, crate):
        """Returns what the edit changes beside the body that its line `fn:` names, or None. So it cannot be the refusal of another's edit."""
        own, function = self.fn.split("::"), self.function(crate)
        for name in own[1:-1]:
            if name[0].isupper() and not name.startswith(types_in(crate.folder)):
                return f"there is no type of {self.fn} in the crate"
        for file, old, new in self.parts:
            text = function.text if function and file == function.file else text_of(crate, file)
            if file.startswith("proofs/"):
                if not file.startswith(f"proofs/{'/'.join(own[1:])}/"):
                    return f"{file} is no proof of {self.fn}"
                continue
            same = len(os.path.commonprefix([old, new]))
            before = text[: text.find(old) + same]
            above = [*FN.finditer(before)]
            if old not in text or not file.startswith("src/") or not above or above[-1][1] not in own or not BODY.search(before, above[-1].start()):
                return f"'{old[:60]}' is not in the body of {self.fn}"
            if ITEM.search(old[same:]) or ITEM.search(new[same:]):
                return f"'{old[:60]}' changes an item, and not a body alone"
        return None


@functools.cache
def types_in(folder):
    """Returns the names of types and traits that a crate declares, or has traits for. A check spells an `impl` by its type's name, then its trait's."""
    found = set()
    for root, _, names in os.walk(f"{folder}/src"):
        for name in names:
            with open(f"{root}/{name}", encoding="utf-8") as it:
                found |= {it for match in TYPE.findall(it.read()) for it in match if it}
    return tuple(found)


def text_of(crate, file):
    try:
        with open(f"{crate.folder}/{file}", encoding="utf-8") as it:
            return it.read()
    except OSError:
        raise BadEdit(f"there is no file {file}") from None


def read_edits(crate, folders=(NAMED, OTHERS)):
    """Returns the edits of the crate in these folders, and why a file is none."""
    edits, faults = [], []
    paths = [f"{crate.folder}/{folder}/{name}" for folder in folders if os.path.isdir(f"{crate.folder}/{folder}") for name in sorted(os.listdir(f"{crate.folder}/{folder}"))]
    for path in paths:
        try:
            if not path.endswith(".edit"):
                raise BadEdit("its name does not end in .edit")
            edit = Edit(path)
            if edit.over(crate, {}) is None and not (edit.fn and edit.function(crate)):
                raise BadEdit("an 'old:' text does not stand in its file once, nor in its function")
            why = edit.fn and edit.stray(crate)
            if why:
                raise BadEdit(why)
            edits.append(edit)
        except BadEdit as why:
            faults.append(f"wrong body {crate.name}/{os.path.basename(path)}: BAD EDIT: {why}")
    return edits, faults
