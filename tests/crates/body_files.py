"""Wrong bodies as they are in files, crates/NAME/refused/BODY.edit, and the functions that they change, by the names that rattle gives them.
`tests/crates/wrong_bodies.py` says what such a file has."""
import glob
import os
import re
import sys

FN = re.compile(r"( *)(?:pub(?:\([^)]*\))? )?(?:const )?(?:unsafe )?(?:extern \"C\" )?fn (\w+)")
IMPL = re.compile(r"(?:unsafe )?(?:impl|pub trait|trait)\b")


def fail(why):
    print(f"wrong_bodies: {why}")
    sys.exit(1)


def read(path):
    with open(path, encoding="utf-8") as file:
        return file.read()


def type_name(text):
    """The name that rattle gives a type or trait of an impl: of `&'a Walk<'a, T>` that is RefWalk, of a parameter `T` Any, of `&T` Ref."""
    refs, text = "", text.strip()
    while text.startswith("&"):
        refs, text = refs + "Ref", re.sub(r"^&\s*('\w+\s*)?(mut\s+)?", "", text)
    name = re.sub(r"<.*", "", text).split("::")[-1].strip()
    given = re.search(r"<(.*)>$", text, re.S)
    given = [it.strip() for it in re.split(r",(?![^<]*>)", given[1])] if given else []
    # An argument that is no parameter is part of the name, as String in RefStrKeyString.
    given = [type_name(it) for it in given if re.fullmatch(r"[A-Z][a-z]\w+(<.*>)?", it)]
    if re.fullmatch(r"[A-Z]", name):
        name = "" if refs else "Any"
    is_named_whole = refs or name.startswith(("Key", "ToValue"))
    return refs + name[:1].upper() + name[1:] + "".join(given if is_named_whole else [])


def without_parameters(head):
    """The head of an impl without its own parameters, which may have `<` and `>` of their own."""
    depth = 0
    for at, char in enumerate(head):
        depth += (char == "<") - (char == ">" and head[at - 1] != "-")
        if not depth:
            return head[at + 1 :] if head.startswith("<") else head
    return head


def owner_of(lines, row):
    """The impl or trait around a line, as (its name, whether it is a trait's), or None."""
    while row >= 0 and not IMPL.match(lines[row]):
        row -= 1
    if row < 0:
        return None
    head = " ".join(it.strip() for it in lines[row : row + 12])
    head = re.split(r"\{|\bwhere\b|\b(?:requires|ensures|ghost)\b", head)[0]
    found = re.match(r"(?:pub )?trait (\w+)", head)
    if found:
        return found[1], True
    head = without_parameters(re.sub(r"^(unsafe )?impl\s*", "", head)).strip()
    trait, is_trait, kind = head.partition(" for ")
    if is_trait and trait.strip() != "Drop":
        return type_name(kind) + type_name(trait), True
    return type_name(kind if is_trait else head), False


def is_of_trait(lines, row):
    """Whether the impl or trait around a line is of a trait, as that of `Drop`, whose methods are named as a type's own."""
    while row >= 0 and not IMPL.match(lines[row]):
        row -= 1
    head = re.split(r"\{", " ".join(lines[max(row, 0) : row + 12]))[0]
    return " for " in head or "trait " in head


def module_of(file):
    return re.sub(r"^src/(lib|main)\.rt$|^src/|\.rt$", "", file).replace("/", "::")


def home_of(crate_folder, name, file):
    """The module of a type's declaration, by which rattle names its own methods; else that of the file."""
    for path in sorted(glob.glob(f"{crate_folder}/src/**/*.rt", recursive=True)):
        if re.search(rf"(?m)^\s*(?:pub(?:\([^)]*\))? )?(?:struct|enum) {name}\b", read(path)):
            return module_of(os.path.relpath(path, crate_folder))
    return module_of(file)


def rows_around(lines, row):
    """The first and the last line of the function around a line of a formatted file, or None: both are equally far to the right."""
    for top in range(row, -1, -1):
        found = FN.match(lines[top])
        if not found:
            continue
        ends = re.compile(found[1] + r"(\}|\{.*\}$)")
        end = next((it for it in range(top, len(lines)) if ends.match(lines[it]) or it == top and lines[it].endswith("}")), -1)
        if end >= row:
            return top, end
    return None


def function_at(crate_folder, file, lines, top):
    """The path of the function that begins at a line."""
    indent, name = FN.match(lines[top]).groups()
    owner = owner_of(lines, top) if indent else None
    if not owner:
        return f"{module_of(file)}::{name}".lstrip(":")
    module = module_of(file) if owner[1] else home_of(crate_folder, owner[0], file)
    return f"{module}::{owner[0]}::{name}".lstrip(":")


class Body:
    """A wrong body: what it breaks, its texts, the functions that it changes, and what is wrong with its file."""

    def __init__(self, crate, path, crate_folder):
        self.crate, self.name, self.folder = crate, os.path.basename(path)[: -len(".edit")], crate_folder
        self.breaks, self.reason, self.fault = None, None, None
        # Triples of file, old and new text; paths of functions; triples of a file and the first and last line of a function.
        self.pairs, self.functions, self.places = [], [], []
        self.tries = 0
        try:
            self.read(read(path).split("\n"))
            self.place()
        except (OSError, ValueError) as error:
            self.fault = str(error)

    def read(self, lines):
        file = old = None
        for number, line in enumerate(lines, 1):
            word, _, text = line.partition(":")
            text = text[1:] if text.startswith(" ") else text
            if word == "breaks" and number == 1:
                self.breaks = text
            elif word == "file":
                file = text
            elif word == "old":
                old = text
            elif word == "new" and file and old:
                self.pairs.append((file, old, text))
                old = None
            elif word == "fn":
                self.functions.append(text)
            elif word == "names-only":
                self.reason = text
            elif line:
                raise ValueError(f"line {number} is none of a wrong body's lines, or out of place")
        if not self.breaks:
            raise ValueError("its first line isn't 'breaks: ' and what it breaks")
        if not self.pairs or old:
            raise ValueError("an 'old:' line without its 'new:' line, or neither")

    def place(self):
        """Tries the texts on the crate as it is, and finds the functions that they change."""
        texts, found = {}, set()
        for file, old, new in self.pairs:
            if not re.fullmatch(r"src/[\w/]+\.rt", file) or ".." in file:
                raise ValueError(f"{file} is no file below src/")
            text = texts[file] = texts.get(file) or read(f"{self.folder}/{file}")
            if text.count(old) != 1:
                raise ValueError(f"its old text is in {file} {text.count(old)} times")
            row, lines = text.count("\n", 0, text.index(old)), text.split("\n")
            if re.match(r"\s*(requires|ensures)\b", lines[row]):
                raise ValueError("it changes a clause, not a body")
            rows = rows_around(lines, row)
            if rows:
                found.add(function_at(self.folder, file, lines, rows[0]))
                self.places.append((file, *rows))
            elif not self.functions:
                raise ValueError("its old text is in no function: name one by a line 'fn:'")
            else:
                # A text in no function, as one in a macro, may change others than those named: this body is alone in its copy.
                self.tries = 2
            texts[file] = text.replace(old, new)
        self.functions = self.functions or sorted(found)

    def is_at(self, error):
        """Whether an error of the compiler is in a function that it changes."""
        file, row = re.match(r"(?:\./)?(src/[^:]*):(\d+)", error).groups()
        return any(file == it and top < int(row) <= end + 1 for it, top, end in self.places)

    def put_into(self, copy):
        """Changes the copy, or returns False if an old text isn't in it once, by another wrong body."""
        texts = {}
        for file, old, new in self.pairs:
            text = texts.get(file) or read(f"{copy}/{file}")
            if text.count(old) != 1:
                return False
            texts[file] = text.replace(old, new)
        for file, text in texts.items():
            with open(f"{copy}/{file}", "w", encoding="utf-8") as out:
                out.write(text)
        return True


def bodies_of(repository, names):
    """The wrong bodies of each crate. A folder of another name, another file, or a crate that crates.txt lacks is a mistake."""
    found = {}
    for path in sorted(glob.glob(f"{repository.root}/crates/*/must-fail/*")):
        fail(f"{os.path.relpath(path, repository.root)}: wrong bodies belong in refused/, where rt ci doesn't try each by itself")
    for folder in sorted(glob.glob(f"{repository.root}/crates/*/refused")):
        name = folder.split("/")[-2]
        if names and name not in names and not any(it.startswith(f"{name}/") for it in names):
            continue
        if name not in repository.uses:
            fail(f"crates/{name}/refused: crates.txt has no crate {name}")
        for file in sorted(os.listdir(folder)):
            if not re.fullmatch(r"\w+\.edit", file):
                fail(f"crates/{name}/refused/{file} is no file NAME.edit")
            if not names or name in names or f"{name}/{file[:-5]}" in names:
                found.setdefault(name, []).append(Body(name, f"{folder}/{file}", repository.folder(name)))
    known = {*found, *(f"{name}/{it.name}" for name in found for it in found[name])}
    for name in names:
        if name not in known:
            fail(f"there is no wrong body of {name}")
    return found
