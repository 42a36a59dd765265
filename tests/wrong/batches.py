"""Checks of a crate with many wrong bodies in it, each judged by the line of its own function.

A function is proved against the contracts of those that it calls, never against their bodies. So all wrong bodies of a crate stand in one copy of it, and each is
judged by the line of its own function: it is refused if that line says `not proved`, or `no proof` for answers that the function lacks. `it calls .., which is
not proved` is another's refusal, and does not count. A free function and one of an inherent `impl` stays as it is, and each of its wrong bodies is a copy beside it,
under a name of its own and with the same contract and the same proof files. That of a trait's `impl`, and one that calls itself, can have no copy: it is edited in
its place, so that two wrong bodies of one such function need two runs, and a copy that waits for one that it calls is tried again without it.

A refusal counts only if a clause or a condition refuses the body. An answer written by hand may merely no longer fit the new shape of a function. So a body that is
refused with an error in its function's own proof files is checked again without the answers that have errors, up to three times, and at last without any.
"""
import copy
import os
import re
import shutil
import tempfile

from copies import inserted, proof_files
from edits import text_of

REFUSED = re.compile(r"fn (\S+): (?:not proved|no proof: expected answers in)")
PROVED = re.compile(r"fn (\S+): proved$")
NO_FN = re.compile(r"has no function `(\S+)`")
# A closure is part of the body in which it stands.
CLOSURE = re.compile(r"(\S+?)::fn::(\w+)::\S+$")
# An error in a function's proof files.
OF_PROOF = re.compile(r"(?:\./)?(proofs/\S+/[^/\s]+\.antt):(\d+):\d+: error: ")
# An error of the compiler in a source file.
OF_SOURCE = re.compile(r"(?:\./)?src/\S+:\d+:\d+: error")
# What begins a definition of a proof file, and its name.
WORDS = re.compile(r"(?:(?:pub|abbrev|opaque|unfoldable|data|record)\s+)*(\S+)")
# How often a body is checked without the answers that have errors, before it is checked without any.
MOST_FITTINGS = 3


def definitions(text):
    """Returns the parts of a proof file, each from a line that is not indented up to the next: its name and its first and last line's number."""
    lines = text.split("\n")
    begins = [at for at, line in enumerate(lines) if line and not line[0].isspace() and not line.startswith(("--", "}"))]
    return [(WORDS.match(lines[at])[1], at + 1, end) for at, end in zip(begins, [*begins[1:], len(lines)])]


def without(text, lines):
    """Returns the proof file's text without the definitions in which these lines stand, or None if one of them is in none or is an import."""
    found = definitions(text)
    names = {name for name, begin, end in found for line in lines if begin <= line <= end}
    if "use" in names or not names or any(not any(begin <= line <= end for _, begin, end in found) for line in lines):
        return None
    rows = text.split("\n")
    gone = {at for name, begin, end in found if name in names for at in range(begin, end + 1)}
    return "\n".join(row for at, row in enumerate(rows, 1) if at not in gone)


class Run:
    """A check of a crate with wrong bodies in it: of each edit the function that has to be refused, and the texts that the check reads in place of the crate's own."""

    def __init__(self, crate):
        self.crate, self.fns, self.texts, self.copies, self.proofs = crate, {}, {}, {}, {}

    def change(self, edit):
        """Changes the edit's function in its place, and returns whether it could: no other edit of the run may change that function."""
        made = None if edit.fn in self.fns.values() else edit.over(self.crate, self.texts)
        if any(it.file in (made or {}) and it.text not in made[it.file] for it, _ in self.copies.values()):
            return False
        self.texts.update(made or {})
        self.fns.update({edit.path: edit.fn} if made else {})
        return bool(made)

    def copy(self, edit, function, is_edited=True):
        """Puts a copy of the function beside it, with the edit in it."""
        copies = self.copies.setdefault(function.text, (function, []))[1]
        name = f"{function.name}_wrong_{len(copies) + 1}"
        text, self.fns[edit.path] = function.called(name, edit.within(function.text) if is_edited else function.text)
        copies.append(text)
        proofs = proof_files(self.crate.folder, function.path, name)
        for file, old, new in edit.parts if is_edited else []:
            if file.startswith("proofs/"):
                file = f"{os.path.dirname(os.path.dirname(file))}/{name}/{os.path.basename(file)}"
                proofs[file] = proofs[file].replace(old, new)
        self.proofs.update(proofs)

    def left_open(self, edits, judged):
        """Returns the edits of its own that are to be tried again, in portions, where these functions were judged."""
        if not judged:
            # (a text that cannot be read hides all the others)
            return [edits[::2], edits[1::2]] if len(edits) > 1 else []
        # (a copy that calls a function which is edited in its place may wait for that one's proof)
        copies = [it for it in edits if self.fns[it.path] != it.fn]
        waiting = [it for it in copies if self.fns[it.path] not in judged]
        return [waiting] if waiting and len(copies) < len(edits) else []

    def changed(self):
        """Returns the texts of all files that it changes or adds."""
        made = dict(self.texts)
        for function, copies in self.copies.values():
            made[function.file] = inserted(made.get(function.file) or text_of(self.crate, function.file), function, copies)
        return {**made, **self.proofs}


def runs_of(crate, edits):
    """Puts the edits that name a function into as few runs as may be: copies into the first, and of what has none no function twice into one."""
    runs, functions = [Run(crate)] if edits else [], {it.path: it.function(crate) for it in edits}
    for edit in filter(lambda it: functions[it.path], edits):
        runs[0].copy(edit, functions[edit.path])
    for edit in filter(lambda it: not functions[it.path], edits):
        if not any(run.change(edit) for run in runs):
            runs.append(Run(crate))
            runs[-1].change(edit)
    return runs


class Judged:
    """What a check says of some functions: which it refuses by themselves, which it proves, and in which of their proof files' lines it has errors."""

    def __init__(self, crate, said):
        self.refused, self.proved, self.astray = set(), set(), {}
        for line in said.split("\n"):
            of_proof, of_refusal, of_proved = OF_PROOF.match(line), REFUSED.match(line), PROVED.match(line)
            if of_proof:
                path = f"{crate.name}::{os.path.dirname(of_proof[1]).removeprefix('proofs/').replace('/', '::')}"
                self.astray.setdefault(path, {}).setdefault(of_proof[1], set()).add(int(of_proof[2]))
            self.refused |= {CLOSURE.sub(r"\1::\2", of_refusal[1])} if of_refusal else set()
            self.proved |= {of_proved[1]} if of_proved else set()


class Trial:
    """Trials of a crate's edits, each check over what those before it kept."""

    def __init__(self, rt, crate, kept, is_proved):
        self.rt, self.crate, self.kept, self.is_proved, self.is_shown, self.unknown = rt, crate, kept, is_proved, False, set()

    def said(self, texts, fns):
        """Returns what a check with these texts says of these functions and those that they call, and its status; without functions, of the whole crate.
        A file whose text is None is left out."""
        with tempfile.TemporaryDirectory(prefix="rt-edit-texts-") as room:
            crate = copy.copy(self.crate)
            crate.folder = room
            for part in filter(lambda it: os.path.isdir(f"{self.crate.folder}/{it}"), self.rt.rtlib.PARTS):
                shutil.copytree(f"{self.crate.folder}/{part}", f"{room}/{part}")
            for path, text in texts.items():
                os.makedirs(os.path.dirname(f"{room}/{path}"), exist_ok=True)
                if text is not None:
                    with open(f"{room}/{path}", "w", encoding="utf-8") as it:
                        it.write(text)
                elif os.path.exists(f"{room}/{path}"):
                    os.remove(f"{room}/{path}")
            while True:
                only = [word for it in sorted(fns - self.unknown) for word in ("--only", it)]
                ran = self.rt.checked(crate, {}, ["--jobs", "1", *only], self.kept)
                stray = NO_FN.search(ran.stdout)
                if not stray or stray[1] not in fns - self.unknown:
                    return ran.stdout, ran.returncode
                # (one such name, and the check says nothing of any other)
                self.unknown.add(stray[1])

    def judged(self, texts, fns=frozenset()):
        return Judged(self.crate, self.said(texts, fns)[0])

    def fitted(self, texts, astray, round):
        """Returns the texts without the answers that have errors in these files, and in the last round without the files."""
        made = dict(texts)
        for file, lines in astray.items():
            text = made[file] if file in made else text_of(self.crate, file)
            made[file] = without(text, lines) if round < MOST_FITTINGS else None
        return made

    def refused(self, texts, fns):
        """Returns which of these functions a clause or a condition refuses, and which are proved: answers that do not fit are left out."""
        refused, proved, left = set(), set(), set(fns)
        for round in range(1, MOST_FITTINGS + 2):
            found = self.judged(texts, left)
            proved |= found.proved & left
            astray = {it: found.astray[it] for it in found.refused & left if it in found.astray}
            refused |= (found.refused & left) - astray.keys()
            if round == 1:
                others = found.proved - set(fns)
                self.is_shown = self.is_shown or bool(others)
            if not astray or round > MOST_FITTINGS:
                return refused | astray.keys(), proved
            left = set(astray)
            for files in astray.values():
                texts = self.fitted(texts, files, round)
        return refused, proved

    def alone(self, edit):
        """Returns whether the prover refuses the crate with this edit alone, and what to say of it."""
        label = f"wrong body {self.crate.name}/{edit.name}"
        texts = edit.over(self.crate, {})
        if texts and edit.at and edit.at in self.refused(texts, {edit.at})[0]:
            return True, f"{label}: refused at {edit.at}, as it must be"
        if self.unknown & {edit.fn, edit.at}:
            return False, f"{label}: BAD EDIT: there is no function {edit.fn or edit.at}"
        if texts is None:
            return False, f"{label}: NOT REFUSED in a copy of its function, and it cannot be tried in its place: an 'old:' text is not once in its file"
        found, said = self.rt.must_fail(self.crate, edit.path, ["--jobs", "1"], self.kept)
        if found and "because a proof file names" in said:
            return False, f"{label}: NOT REFUSED but for a proof file that names what is not there"
        # (what else it tells is no refusal: that the crate is still proved, that the edit cannot be read, that the prover came to a limit of its own)
        return found == getattr(self.rt, "REFUSED", True), said.replace("must-fail", "wrong body", 1)

    def seen(self, edits):
        """Tries edits that name functions, together. Returns which of them are refused, which are proved, and in how many runs."""
        refused, proved, count = set(), set(), 0
        for run in runs_of(self.crate, edits):
            fns, members = set(run.fns.values()), [it for it in edits if it.path in run.fns]
            # (beside the first of the copies its function is asked for as it stands)
            beside = {it.path for it, _ in [*run.copies.values()][:1]}
            bad, good = self.refused(run.changed(), fns | beside)
            self.is_shown = self.is_shown or bool(good & beside)
            count += 1
            refused |= {path for path, fn in run.fns.items() if fn in bad}
            proved |= {path for path, fn in run.fns.items() if fn in good}
            for others in run.left_open(members, bad | good):
                worse, better, runs = self.seen(others)
                refused, proved, count = refused | worse, proved | better, count + runs
        return refused, proved, count

    def tried(self, edits):
        """Tries these edits. Returns of each whether it is refused and, if something is to be said of it, that, and in how many runs."""
        refused, proved, runs = self.seen([it for it in edits if it.fn])
        found = {it.path: (True, None) for it in edits if it.path in refused}
        for edit in edits:
            if edit.path in proved - refused:
                found[edit.path] = False, f"wrong body {self.crate.name}/{edit.name}: NOT REFUSED: {edit.fn} is proved with it"
            elif edit.path not in refused:
                found[edit.path] = self.alone(edit)
        if not (self.is_proved and self.is_shown) and edits:
            # What was kept has to serve functions as they stand too, or no refusal above says anything.
            said, status = self.said({}, {it.fn for it in edits if it.fn} - self.unknown)
            if status:
                return dict.fromkeys(found, (False, f"{self.crate.name}: as it stands it is not proved over what the runs kept: {said[-400:]}")), runs
        return found, runs

    def front(self, texts):
        """Returns the errors that the compiler has, before the prover begins, where the crate has these texts."""
        return [it for it in self.said(texts, frozenset({""}))[0].split("\n") if OF_SOURCE.match(it)]

    def typed(self, edits):
        """Returns of each edit that does not reach the prover why: of a name or a type that is wrong."""
        faults, portions = {}, [[it for it in edits if it.fn], *([it] for it in edits if not it.fn)]
        while portions:
            portion = portions.pop()
            runs = runs_of(self.crate, portion) if portion and portion[0].fn else []
            for members, texts in [([it for it in portion if it.path in run.fns], run.changed()) for run in runs] or [(portion, it.over(self.crate, {})) for it in portion]:
                errors = self.front(texts)
                if errors and len(members) == 1:
                    faults[members[0].path] = f"wrong body {self.crate.name}/{members[0].name}: BAD EDIT: it does not reach the prover: {errors[0]}"
                elif errors:
                    portions += [members[::2], members[1::2]]
        return faults

    def copied(self, edits):
        """Checks copies of the functions that have wrong bodies, with nothing edited in them. Returns how many these are, and which are not proved."""
        run, functions = Run(self.crate), {it.fn: (it, it.function(self.crate)) for it in edits if it.fn}
        for edit, function in functions.values():
            if function:
                run.copy(edit, function, is_edited=False)
        fns = set(run.fns.values())
        return len(fns), sorted(fns - self.judged(run.changed(), fns).proved) if fns else []

    def name(self, edits):
        """Writes the line `fn:` of each edit that lacks it, if a run of it alone refuses its function by itself, or the line `at:`, if it changes more."""
        for edit in [it for it in edits if not it.fn and not it.at]:
            found = sorted(self.judged(edit.over(self.crate, {})).refused)
            print(f"{self.crate.name}/{edit.name}: {' '.join(found) or 'no function is refused by itself'}", flush=True)
            for edit.fn in found[:1]:
                word = "at" if len(found) > 1 or edit.stray(self.crate) else "fn"
                with open(edit.path, "w", encoding="utf-8") as it:
                    it.write(f"{'# ' * edit.is_named}{word}: {edit.fn}\n{edit.text}")
