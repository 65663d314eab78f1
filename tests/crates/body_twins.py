"""Wrong bodies as twins: one check of a crate tries all of them.

In a copy of the crate each function stays as it is. Beside it stands a twin for each of its wrong bodies: the same head, contract and proof files under
a name of its own, `f_wrong7`, with the edit. So what others call stays proved, no body hides another, and two bodies of one function need no second copy.
A control is a twin without an edit, `f_right7`: it has to be proved, which shows that the function's twins are rejected for their edits."""
import glob
import os
import re
import shutil

from body_files import FN, is_of_trait, owner_of, read, rows_around

TWIN = re.compile(r"\bfn (\w+_(?:wrong|right)\d+)\b")


class NoTwin(Exception):
    """Why a wrong body can't be a twin."""


class Twin:
    """A function under another name, with the edit of a wrong body or with none."""

    def __init__(self, body, number, is_control=False):
        if body.fault or body.tries or len(body.functions) != 1 or len({*body.places}) != 1:
            raise NoTwin("changes no one function")
        self.body, self.is_control, (self.file, top, self.end) = body, is_control, body.places[0]
        self.function = body.functions[0]
        text = read(f"{body.folder}/{self.file}")
        lines = text.split("\n")
        indent, name = FN.match(lines[top]).groups()
        self.owner = owner_of(lines, top) if indent else None
        if self.owner and (self.owner[1] or is_of_trait(lines, top)):
            raise NoTwin("is of a trait's method")
        if name != self.function.split("::")[-1]:
            raise NoTwin("is in a macro")
        for _, old, new in () if is_control else body.pairs:
            text = text.replace(old, new)
        self.twin = f"{name}_{'right' if is_control else 'wrong'}{number}"
        self.path = f"{self.function.rpartition('::')[0]}::{self.twin}".lstrip(":")
        self.lines = self.renamed(text.split("\n"), top, name)
        self.named = re.compile(rf"(proofs|contracts)\.{re.escape(self.function.replace('::', '.'))}(?=[.\s{{}};,]|$)", re.M)
        self.stop_if_cited()

    def renamed(self, lines, top, name):
        """The lines of the twin. C's name for a function stays that of the right one alone."""
        while top > 0 and re.match(r"\s*(#\[|//)", lines[top - 1]):
            top -= 1
        lines = [it for it in lines[top : self.end + 1] if not re.match(r"\s*(//|#\[unsafe\(no_mangle\)\])", it)]
        if any("#[cycle" in it for it in lines):
            raise NoTwin("is in a cycle of calls")
        owner = self.owner[0] if self.owner else "Self"
        calls = re.compile(rf"(\b(Self|self|{owner})\s*(::|\.)\s*|(?<![\w.:]))(r#)?{name}\s*(::<[^>]*>)?\(")
        at = next(i for i, it in enumerate(lines) if re.search(rf"\bfn {name}\b", it))
        if any(calls.search(it) for it in lines[at + 1 :]):
            raise NoTwin("may call itself")
        lines[at] = re.sub(rf"\bfn {name}\b", f"fn {self.twin}", lines[at], count=1)
        return lines

    def stop_if_cited(self):
        """A proof that others name would have to be theirs and the twin's."""
        own = f"{self.body.folder}/proofs/{self.function.replace('::', '/')}/"
        others = [it for it in glob.glob(f"{self.body.folder}/proofs/**/*.antt", recursive=True) if not it.startswith(own)]
        if any(self.named.search(read(it)) for it in others):
            raise NoTwin("has a proof that others name")

    def put_proofs(self, copy):
        """Copies the proof files of the function."""
        to = f"{copy}/proofs/{self.path.replace('::', '/')}"
        if not os.path.isdir(f"{copy}/proofs/{self.function.replace('::', '/')}"):
            return
        shutil.copytree(f"{copy}/proofs/{self.function.replace('::', '/')}", to)
        for file in glob.glob(f"{to}/**/*.antt", recursive=True):
            text = self.named.sub(lambda it: f"{it[1]}.{self.path.replace('::', '.')}", read(file))
            with open(file, "w", encoding="utf-8") as out:
                out.write(text)


def twins_of(bodies, controlled):
    """The twins of these bodies, a control for each function of `controlled` among them, and the bodies that can have none."""
    twins, others, seen = [], [], set()
    for number, it in enumerate(bodies, 1):
        try:
            twins.append(Twin(it, number))
            function = twins[-1].function
            if (it.crate, function) in controlled and function not in seen:
                twins.append(Twin(it, number, True))
                seen.add(function)
        except NoTwin:
            others.append(it)
    return twins, others


def put(twins, copy):
    """Puts twins into a copy of the crate, each after its function."""
    for file in {it.file for it in twins}:
        lines = read(f"{copy}/{file}").split("\n")
        for twin in sorted((it for it in twins if it.file == file), key=lambda it: -it.end):
            lines[twin.end + 1 : twin.end + 1] = ["", *twin.lines]
        with open(f"{copy}/{file}", "w", encoding="utf-8") as out:
            out.write("\n".join(lines))
    for twin in twins:
        twin.put_proofs(copy)


def guilty(twins, copy, lines):
    """The twins in which the compiler found an error."""
    found = set()
    for line in lines:
        error = re.match(r"(?:\./)?(src/[^:]*):(\d+):\d+: error", line)
        rows = error and rows_around(read(f"{copy}/{error[1]}").split("\n"), int(error[2]) - 1)
        name = rows and TWIN.search(read(f"{copy}/{error[1]}").split("\n")[rows[0]])
        if name:
            found.add(name[1])
    return [it for it in twins if it.twin in found]
