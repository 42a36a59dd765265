"""Copies of functions in a crate's text: a wrong body stands in a copy beside the function as it is, so that many can be tried in one check."""
import os
import re

FN = re.compile(r"(?m)^[ \t]*(?:pub(?:\([a-z]+\))? )?(?:const )?(?:unsafe )?fn (\w+)")
BLOCK = re.compile(r"(?m)^(?:unsafe )?(?:impl|trait|mod)\b[^{]*\{")


class Copyable:
    """A function of a crate, by its path as a check spells it, that may have copies beside it: its file, its name and its text."""

    def __init__(self, path, file, name, text, at):
        self.path, self.file, self.name, self.text, self.at = path, file, name, text, at

    def called(self, name, text):
        """Returns this text of the function, edited or not, as that of a copy of that name, and the copy's path."""
        return text[: self.at] + name + text[self.at + len(self.name) :], f"{self.path.rpartition('::')[0]}::{name}"


def begin_of(text, at):
    """Returns where the comments and attributes begin that stand right above the line at this place."""
    lines, is_inside = text[:at].split("\n")[:-1], False
    while lines:
        line = lines[-1].strip()
        is_inside = not line.startswith("#[") and (is_inside or line.endswith(")]"))
        if not is_inside and not line.startswith(("///", "#[")):
            break
        lines.pop()
    return len("".join(f"{it}\n" for it in lines))


def calls_itself(name, text, is_method):
    """Returns whether the function of that name and text calls itself: its proof files speak of such calls, and a copy's would be of the function as it stands."""
    called = rf"(?:\bself\.|\bSelf::){name}(?=\(|::<)" if is_method else rf"(?<![\w.:]){name}(?=\(|::<)"
    return re.search(called, text[text.find("{\n") :]) is not None


def copyables(path, file, text):
    """Returns the functions of the file that may have that path and may have copies beside them: none that is a method of a trait or of its impl, one that calls
    itself, or one of several functions that call each other."""
    found = []
    for fn in FN.finditer(text):
        begin, indent = begin_of(text, fn.start()), re.match(r"[ \t]*", fn[0])[0]
        end = text.find(f"\n{indent}}}\n", fn.end())
        if fn[1] != path.rpartition("::")[2] or end < 0 or "#[cycle(" in text[begin : fn.start()]:
            continue
        blocks = [*BLOCK.finditer(text, 0, begin)] if indent else []
        is_free = not indent or blocks and blocks[-1][0].startswith("impl") and " for " not in re.sub(r"for<[^>]*>", "", blocks[-1][0])
        whole = text[begin : end + len(indent) + 3]
        if is_free and not (indent and "\n}\n" in text[blocks[-1].start() : begin]) and not calls_itself(fn[1], whole, bool(indent)):
            found.append(Copyable(path, file, fn[1], whole, fn.start(1) - begin))
    return found


def proof_files(folder, path, to):
    """Returns the proof files of a function of the crate in this folder as those of its copy: texts by their paths in the crate."""
    crate, *own = path.split("::")
    of_copy = [*own[:-1], to]
    named = re.compile(rf"\b(Rattle\.{crate}\.(?:proofs|specs\.contracts))\.{re.escape('.'.join(own))}\b")
    at, made = f"{folder}/proofs/{'/'.join(own)}", {}
    for name in sorted(os.listdir(at)) if os.path.isdir(at) else []:
        if name.endswith(".antt"):
            with open(f"{at}/{name}", encoding="utf-8") as it:
                made[f"proofs/{'/'.join(of_copy)}/{name}"] = named.sub(rf"\1.{'.'.join(of_copy)}", it.read())
    return made


def inserted(text, function, copies):
    """Returns the file's text with these copies behind the function as it stands."""
    if text.count(function.text) != 1:
        raise ValueError(f"the text of {function.path} is not once in {function.file}")
    return text.replace(function.text, "\n".join([function.text, *copies]))
