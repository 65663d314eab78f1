"""Of each wrong body a sum of all that decides whether the prover rejects it.

A wrong body is rejected since its function doesn't meet its contract. So the sum is of the function with the edit; of its own proof files, which decide
which goal is its own; and, reached by names from it, of the contracts of the functions that it calls, of types, models, traits, constants and macros, and
of the words of specs, in its crate and in those below; and of the kit's logic. It leaves out other functions' bodies and proofs, lemmas (no lemma makes a
false goal true), comments, layout, messages of derived errors, and what no other crate can name: private fields, a type's view and invariant."""
import glob
import hashlib
import os
import re

from body_files import read
from rust_items import parse, rust_tokens
from spec_words import Specs, antt_lines, imports_in

WORD = re.compile(r"[^\s(){}\[\],;.:]+")
# Methods that no name in the code calls: by an operator, a loop, a `?`, or at a value's end.
UNNAMED = set(
    "next into_iter from into drop eq ne cmp partial_cmp lt le gt ge hash fmt clone deref deref_mut index index_mut add sub mul div rem neg not to_string".split()
)


def sum_of(parts):
    total = hashlib.sha256()
    for it in parts:
        total.update(it.encode() + b"\0")
    return total.hexdigest()[:16]


class Crate:
    """What sums need of a crate: its items, what each file imports, its specs, its proof files."""

    def __init__(self, folder, name):
        self.folder, self.files, self.imports, self.specs = folder, {}, {}, {}
        for path in sorted(glob.glob(f"{folder}/src/**/*.rt", recursive=True)):
            file, text = os.path.relpath(path, folder), read(path)
            self.files[file] = parse(rust_tokens(text))
            for word, it in imports_in(re.sub(r"//[^\n]*", "", text)):
                self.imports.setdefault(file, {}).setdefault(word, []).append(it)
        for path in sorted(glob.glob(f"{folder}/specs/**/*.antt", recursive=True)):
            module = f"{name}.specs." + os.path.relpath(path, f"{folder}/specs")[: -len(".antt")].replace("/", ".")
            self.specs[module] = Specs(module, read(path))
        lib = self.specs.get(f"{name}.specs.Lib")
        # What the root of specs passes on of another library's modules.
        self.shared = {f"{name}.specs.{word}": path for word, found in (lib.imports if lib else {}).items() for path, it in found if not it}

    def proof_lines(self, function):
        """The lines of a function's own proof files."""
        folder = f"{self.folder}/proofs/{function.replace('::', '/')}"
        return [line for it in sorted(glob.glob(f"{folder}/*.antt")) for line in [os.path.basename(it), *antt_lines(read(it))]]


def from_outside(item):
    """What another crate can use of an item: of a struct no private field, of its model only the type of its values."""
    words = item.head
    if item.kind == "impl" and "Model" in item.owners and "ghost" in words:
        at = words.index("ghost")
        parts = " ".join(words[at:]).split(" ghost ")
        return words[:at] + [it for it in parts if it.removeprefix("ghost ").startswith("Value")]
    if item.kind == "struct" and "{" in words:
        at = words.index("{")
        fields = re.findall(r"(?:^|, )((?:# \[[^\]]*\] )*pub (?!\().*?)(?=,|$)", " ".join(words[at + 1 : -1]))
        return words[:at] + fields
    return words


class Names:
    """What can be reached by names in a crate, the last one, and in those below it."""

    def __init__(self, crates):
        self.own = {id(it) for items in crates[-1].files.values() for it in items}
        self.outside = {id(it): from_outside(it) for crate in crates[:-1] for items in crate.files.values() for it in items}
        self.specs, self.shared, self.types, self.heads, self.functions = {}, {}, {}, {}, {}
        for crate in crates:
            self.specs.update(crate.specs)
            self.shared.update(crate.shared)
            for file, items in crate.files.items():
                for it in items:
                    self.add(it, crate.imports.get(file, {}))
        # What was worked out, by the identity of texts, which stay alive beside it.
        self.known = {}

    def add(self, item, imports):
        if item.kind == "fn":
            self.functions.setdefault(item.name, []).append((item, imports))
        elif item.kind in ("impl", "trait"):
            # An impl for a type parameter belongs to its trait.
            self.heads.setdefault(owner_of(item), []).append((item, imports))
        elif item.kind not in ("use", "mod", "ghost") and item.name:
            self.types.setdefault(item.name, []).append((item, imports))

    def once(self, words, what, make):
        """What is made of a text, or what was made of it before."""
        found = self.known.get((id(words), what))
        if not found:
            found = self.known[id(words), what] = make(words), words
        return found[0]

    def parts_of(self, words):
        return self.once(words, "parts", lambda it: {part for word in it for part in WORD.findall(word)})

    def text_of(self, words):
        return self.once(words, "text", lambda it: re.sub(r"# \[ error \( .*? \) \] ", "", " ".join(it)))

    def blocks(self, module, name):
        """The definitions that a name stands for in a module, as pairs of a file of specs and a name."""
        if (module, name) not in self.known:
            self.known[module, name] = self.look_up(module, name)
        return self.known[module, name]

    def look_up(self, module, name, seen=()):
        while module in self.shared:
            module = self.shared[module]
        file = self.specs.get(module)
        if not file or (module, name) in seen:
            return []
        found = [(file, it) for it in file.by_part.get(name, ())]
        for path, other in () if found else file.imports.get(name, ()):
            found += self.look_up(path, other, (*seen, (module, name))) if other else []
        return found


def owner_of(item):
    """Whose an item is: the type's, or the trait's where the type is a parameter."""
    return next((it for it in item.owners if len(it) > 1), "")


class Reach:
    """The texts of all that some items lead to by names."""

    def __init__(self, names, items, imports):
        self.names, self.taken, self.types, self.todo = names, {}, set(), []
        self.code = {word for it in items for word in it.whole}
        for it in items:
            self.take(id(it), it.whole, imports)
            for owner in it.owners:
                self.take_type(owner)
        while self.todo:
            self.take_words(*self.todo.pop())
            if not self.todo:
                self.take_called()
        self.texts = sorted(names.text_of(it) for it in self.taken.values())

    def take(self, key, words, context):
        if key not in self.taken:
            self.taken[key] = words
            self.todo.append((words, context))

    def take_type(self, name):
        if name in self.types or name not in self.names.types and name not in self.names.heads:
            return
        self.types.add(name)
        for it, imports in [*self.names.types.get(name, ()), *self.names.heads.get(name, ())]:
            self.take(id(it), it.head if id(it) in self.names.own else self.names.outside[id(it)], imports)
            if it.kind == "macro_rules":
                self.code.update(it.whole)

    def take_words(self, words, context):
        """Takes what a text names: types, and words of specs by what its file imports (code), or has and imports (specs)."""
        is_code = isinstance(context, dict)
        imports = context if is_code else context.imports
        for word in self.names.parts_of(words):
            self.take_type(word)
            for name in () if is_code else context.by_part.get(word, ()):
                self.take((context.module, name), context.blocks[name], context)
            for path, name in imports.get(word, ()):
                self.follow(path, name)

    def take_called(self):
        """Takes the contracts of the functions that the code names, or that are called without a name."""
        for name in self.code | UNNAMED:
            for it, imports in self.names.functions.get(name, ()):
                is_named = name in self.code
                if not it.owners and is_named or owner_of(it) in self.types and (is_named or len(it.owners) == 2):
                    self.take(id(it), it.head, imports)

    def follow(self, path, name):
        if ".specs.declared." in f".{path}":
            for it in [*path.split(".declared.")[1].split("."), name]:
                self.take_type(it)
            return
        for file, word in self.names.blocks(path, name) if name else ():
            self.take((file.module, word), file.blocks[word], file)


class Sums:
    """The sums of a repository's wrong bodies."""

    def __init__(self, repository, logic):
        self.repository, self.logic, self.names = repository, logic, {}
        self.crates = {it: Crate(repository.folder(it), it) for it in repository.uses}

    def of(self, body):
        """The sum of a wrong body, or, if its file is at fault, one that no other has."""
        crate = self.crates[body.crate]
        own = [self.logic, body.name, body.reason or "", *body.functions, *[it for pair in body.pairs for it in pair]]
        if body.fault:
            return sum_of([*own, body.fault, os.urandom(8).hex()])
        if body.crate not in self.names:
            self.names[body.crate] = Names([self.crates[it] for it in [*self.repository.below(body.crate), body.crate]])
        changed = self.changed(crate, body)
        imports = {}
        for file in {it for it, _, _ in body.pairs}:
            for word, it in crate.imports.get(file, {}).items():
                imports[word] = imports.get(word, []) + it
        proofs = [line for it in body.functions for line in crate.proof_lines(it)]
        return sum_of([*own, *(" ".join(it.whole) for it in changed), *proofs, *Reach(self.names[body.crate], changed, imports).texts])

    def changed(self, crate, body):
        """The items that the edit changes, as they are then. If it changes no function, as that of a macro, also the functions that it names."""
        found, texts = [], {}
        for file, old, new in body.pairs:
            texts[file] = (texts.get(file) or read(f"{crate.folder}/{file}")).replace(old, new)
        for file, text in texts.items():
            was = {" ".join(it.whole) for it in crate.files[file]}
            found += [it for it in parse(rust_tokens(text)) if " ".join(it.whole) not in was]
        if any(it.kind == "fn" for it in found):
            return found
        names = {it.split("::")[-1] for it in body.functions}
        return found + [it for items in crate.files.values() for it in items if it.kind == "fn" and it.name in names]
