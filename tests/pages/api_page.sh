#!/usr/bin/env bash
# bash tests/pages/api_page.sh [--write]: makes docs/use/API.md from the doc comments of `hashbag` and `hashbag_ops`, and compares the page with it.
# `--write` writes the page. The last line is 'api_page: N calls and M types' or says what is wrong.
#
# The table below has the sections. A public type or call that it doesn't name comes after the one before it in its file; the first of a file has
# to be named. It fails if the table names what isn't there. Public are the items of the modules that the two crates make public, the types that
# `hashbag` re-exports from a crate below, the functions of public traits, and those documented functions of a std trait that is implemented for
# `HashBag`.
set -u
cd "$(dirname "$0")/../.." || exit 2
exec python3 - "$@" <<'PYTHON'
import difflib
import os
import re
import sys
import textwrap

PAGE = "docs/use/API.md"

# Sections by task: a line with its heading, and then the names of its types and calls, but those that come after the one before them in their
# file. A call of `HashBag` has no type before its name.
SECTIONS = """
The bag and its errors
    HashBag FixedState BagError TryExtendError
Make
    new with_capacity_and_hasher default_in clone
Insert
    insert set_count insert_key ToValue extend entry Entry Entry::value
Look up
    contains Key len
Remove
    remove take_one try_take retain clear
Walk
    iter Iter fmt
Join
    difference not_in signed_difference outer_join Difference SignedDifference OuterJoin joins::limited_difference
Compare
    eq ops::contains_all
Whole bags
    ops::merge ops::keep_most ops::take_away ops::counts ops::laws::merges_commute ops::sum
Room
    capacity room slots reserve finish_carry spare Spare
Limits
    limit with_limit
JSON
    to_value from_value from_value_within from_value_with_hasher JsonError ItemError JsonText
Runs
    script::run script::run_pair script::joins_of script::Step script::Joins
"""

# Where the types lie that `hashbag` re-exports from below `hashbag_core`.
BELOW = ["crates/hashbag_table/src/key.rt", "crates/hashbag_table/src/spare.rt", "crates/hashbag_slots/src/key.rt"]

# The modules that are public: their items are in the table.
MODULES = {"bag", "entry", "iters", "joins", "json", "ops", "hashbag_ops", "script", "combine", "compare", "order", "laws", "third"}

INTRO = """# Types and calls

Every public type and call of `hashbag`, by task. `ops::sum` is `hashbag::ops::sum`. This page is made from the doc comments: after an edit of one,
`bash tests/pages/api_page.sh --write` makes it again, and the gate compares the two.

An entry has the signature, the first paragraph of the doc comment, its sections on errors and cost if it has them, and the names of the
clauses of the contract, by which a proof speaks of them. The file that the entry names has the clauses, and for most calls an example, which
the gate runs. [CALLING](../prove/CALLING.md) says how a caller uses them. In this list a call without a type or module before its name is one of `HashBag`.
A bag of any type of `serde` is saved without these calls, as [serde_rows](../../beside/crates/hashbag_cookbook/src/serde_rows.rs) does.
"""

faults = []


# The files of a module: its own, and those of a folder of its name.
def files_of(path):
    folder = path[:-3]
    inner = sorted(os.listdir(folder)) if os.path.isdir(folder) else []
    return [path] + [f"{folder}/{name}" for name in inner if name.endswith(".rt")]


# The names that the `pub use` and `pub mod` lines of a file make public.
def exported(path):
    text = open(path, encoding="utf-8").read()
    names = re.findall(r"^pub mod (\w+);", text, re.M)
    for one, many in re.findall(r"^pub use [\w:]+::(?:(\w+)|\{([^}]*)\});", text, re.M):
        names += [one] if one else [name.strip() for name in many.split(",") if name.strip()]
    return names


class Item:
    def __init__(self, name, kind, path, line, doc, signature, clauses, header):
        self.name, self.kind, self.path, self.line, self.doc = name, kind, path, line, doc
        self.signature, self.clauses, self.header = signature, clauses, header
        self.parts = []  # of a type: its variants or public fields, each with its comment
        self.traits = []


# The lines of a declaration from line `at` on, up to its body, and the names of its clauses.
def declaration(lines, at):
    indent = len(lines[at]) - len(lines[at].lstrip())
    signature, clauses, depth = [], [], 0
    while True:
        line = lines[at][indent:].rstrip()
        found = re.match(r"\s*(requires|ensures)\*? (?:([\w]+) )?\{", line)
        if found:
            clauses.append((found.group(1), found.group(2)))
        if found or depth > 0:
            depth += line.count("{") - line.count("}")
            if depth == 0 and line.endswith(";"):
                return signature, clauses, at
        elif line == "{":
            return signature, clauses, at
        elif line and not line.lstrip().startswith("//"):
            signature.append(re.sub(r" ?\{$|;$", "", line))
            if line.endswith(("{", ";")):
                return signature, clauses, at
        at += 1


# The name of the type of an `impl`, and that of its trait if it has one.
def of_impl(header):
    text = re.sub(r"^impl(<[^{]*?>)? (?=[A-Z&])", "", header)
    while "<" in text:
        plain = re.sub(r"<[^<>]*>", "", text)
        if plain == text:
            break
        text = plain
    found = re.match(r"(?:([\w:]+) for )?&?(?:'a )?(\w+)", text.strip())
    return (found.group(2), found.group(1)) if found else (None, None)


# Reads a file line by line: each item with its comment.
class Reader:
    def __init__(self, path):
        self.path, self.at, self.items, self.doc = path, 0, [], []
        self.lines = open(path, encoding="utf-8").read().split("\n")
        self.leave()

    # At the end of an item: the next one is in no `impl` and no trait.
    def leave(self):
        self.owner = self.trait = self.parts_of = None
        self.header, self.doc, self.of_impl = "", [], []

    def on_impl(self):
        start = self.at
        while not self.lines[self.at].rstrip().endswith("{"):
            self.at += 1
        self.header = " ".join(part.strip() for part in self.lines[start : self.at + 1]).rstrip(" {")
        self.owner, self.trait = of_impl(self.header)
        self.items.append(Item(self.owner, "impl", self.path, self.at + 1, self.doc, [], [], self.trait))
        self.doc, self.of_impl = [], self.doc + [""] if self.doc else []

    def on_type(self):
        kind, name = re.match(r"pub (\w+) (\w+)", self.lines[self.at]).groups()
        traits, number = derived(self.lines, self.at), self.at + 1
        signature, clauses, self.at = declaration(self.lines, self.at)
        item = Item(name, kind, self.path, number, self.doc, signature, clauses, None)
        item.traits = traits
        self.items.append(item)
        has_body = self.lines[self.at].endswith("{")
        self.leave()
        self.parts_of = item if has_body and kind in ("struct", "enum") else None
        self.owner = name if kind == "trait" else None

    # Public are a `pub fn`, one of a public trait, and a documented one of a trait that is implemented for `HashBag`. The comment of that
    # `impl` belongs to it too.
    def on_fn(self):
        line, number = self.lines[self.at], self.at + 1
        name = re.search(r"\bfn (\w+)", line).group(1)
        of_trait = self.owner is not None and self.header == ""
        of_bag = self.trait is not None and self.owner == "HashBag" and self.doc != []
        signature, clauses, self.at = declaration(self.lines, self.at)
        if line.lstrip().startswith("pub ") or of_trait or of_bag:
            full = f"{self.owner}::{name}" if line.startswith(" ") else name
            doc = self.of_impl + self.doc if of_bag else self.doc
            self.items.append(Item(full, "fn", self.path, number, doc, signature, clauses, self.header))
        self.doc = []

    # A variant, or a public field.
    def on_part(self):
        line = self.lines[self.at]
        if self.parts_of and self.doc and re.match(r"    (pub )?\w+(\(.*\))?(: .*)?,$", line):
            self.parts_of.parts.append((line.strip().rstrip(",").removeprefix("pub "), " ".join(self.doc)))
        self.doc = []

    def read(self):
        while self.at < len(self.lines):
            line = self.lines[self.at]
            if re.match(r"\s*///", line):
                self.doc.append(re.sub(r"^\s*/// ?", "", line))
            elif re.match(r"impl\b", line):
                self.on_impl()
            elif re.match(r"pub (struct|enum|trait|type|const|static) ", line):
                self.on_type()
            elif re.match(r"\s*(pub )?fn ", line):
                self.on_fn()
            elif line == "}":
                self.leave()
            elif not re.match(r"\s*#\[", line):
                self.on_part()
            self.at += 1
        return self.items


# The traits that the lines before a type derive.
def derived(lines, at):
    while at > 0 and lines[at - 1].startswith("#["):
        at -= 1
        found = re.match(r"#\[derive\((.*)\)\]", lines[at])
        if found:
            return [trait.strip() for trait in found.group(1).split(",")]
    return []


# The files to read, each with what is before the names of its types and before those of its functions, and with the types that count, if
# not all do.
def sources():
    for module in ("bag", "entry", "iters", "joins", "json"):
        for path in files_of(f"crates/hashbag_core/src/{module}.rt"):
            yield path, "", "joins::" if module == "joins" else "", None
    for path in files_of("crates/hashbag_script/src/script.rt"):
        yield path, "script::", "script::", None
    for path in BELOW:
        yield path, "", "", exported("crates/hashbag/src/lib.rt")
    for module in ("combine", "third", "compare", "order", "laws"):
        prefix = "ops::laws::" if module == "laws" else "ops::"
        yield f"crates/hashbag_ops/src/{module}.rt", prefix, prefix, None


# All public items, by the names that the table has; and the `impl`s of traits.
def public_items():
    found, impls = {}, []
    for path, of_types, of_functions, only in sources():
        for item in Reader(path).read():
            if item.kind == "impl":
                impls.append(item)
            elif only is None or item.name.split("::")[0] in only:
                prefix = of_functions if item.kind == "fn" else of_types
                name = item.name if "::" in item.name else prefix + item.name
                found.setdefault(name.removeprefix("HashBag::"), []).append(item)
    for name, items in found.items():
        if len(items) > 1 and name != "into_iter":
            faults.append(f"{items[0].path}: two items {name}")
    return found, impls


# Gives each type the traits that are implemented for it, and looks that what is re-exported was found.
def complete(found, impls):
    for item in impls:
        for name in (item.name, f"script::{item.name}"):
            if name in found and item.header not in (None, "Model"):
                found[name][0].traits.append(item.header)
    known = {name.split("::")[-1] for name in found} | MODULES
    for name in exported("crates/hashbag/src/lib.rt") + exported("crates/hashbag_ops/src/lib.rt"):
        if name not in known:
            faults.append(f"{name} is re-exported, and was not found")


# The heading of an entry: a call of `HashBag` has its type there.
def heading_of(name):
    return name if "::" in name or name[0].isupper() else f"HashBag::{name}"


# What a heading is linked by.
def anchor(heading):
    return re.sub(r"[^\w -]", "", heading.lower()).replace(" ", "-")


def link_to(name, text):
    return f"[`{text}`](#{anchor(heading_of(name))})"


# A comment's text, with its links to other entries made links of the page.
def linked(text, names):
    def link(match):
        name = match.group(1).removeprefix("HashBag::")
        for full in (name, f"script::{name}", f"ops::{name}", f"ops::laws::{name}"):
            if full in names:
                return link_to(full, match.group(1))
        return f"`{match.group(1)}`"

    return re.sub(r"\[`([^`]*)`\](?:\([^)]*\))?", link, re.sub(r"\[([a-z_]+)\](?!\()", r"[`\1`]", text))


# The first paragraph of a comment, and the text of its sections `# Errors` and `# Complexity`.
def parts_of_doc(doc):
    first, sections, name, fenced = [], {}, None, False
    for line in doc:
        if line.startswith("```"):
            fenced = not fenced
        if not fenced and line.startswith("# "):
            name = line[2:].strip()
            sections[name] = []
        elif name is not None:
            sections[name].append(line)
        elif not fenced and line != "" and (not first or first[-1] != ""):
            first.append(line)
        elif first and first[-1] != "":
            first.append("")
    return "\n".join(first).strip(), {name: "\n".join(text).strip() for name, text in sections.items()}


def labelled(label, text):
    return f"*{label}:* {text}" if not text.startswith(("-", "*", "|")) else f"*{label}:*\n\n{text}"


def clause_names(clauses):
    said = []
    for kind, verb in (("requires", "requires"), ("ensures", "ensures")):
        names = [f"`{name}`" if name else "an unnamed clause" for of, name in clauses if of == kind]
        if names:
            said.append(f"{verb} " + ", ".join(names))
    return "; ".join(said)


# The entry of a name. Two items share `into_iter`.
def entry(name, items, names):
    lines = [f"### `{heading_of(name)}`", ""]
    for item in items:
        lines += ["```rust"]
        if item.header and (" for " in item.header or "JsonItem" in item.header or "FixedState" in item.header):
            lines += [f"// {item.header}"]
        lines += item.signature + ["```", ""]
        first, sections = parts_of_doc(item.doc)
        if first == "":
            faults.append(f"{item.path}: no comment on {name}")
        lines += [linked(first, names), ""]
        for part, comment in item.parts:
            lines += [f"- `{part}`: {linked(comment, names)}"]
        lines += [""] if item.parts else []
        for label, section in (("Errors", "Errors"), ("Cost", "Complexity")):
            if sections.get(section):
                lines += [labelled(label, linked(sections[section], names)), ""]
        said = clause_names(item.clauses)
        if said:
            lines += [f"*Clauses:* {said}.", ""]
        if item.traits:
            lines += ["*Traits:* " + ", ".join(f"`{trait}`" for trait in sorted(set(item.traits))) + ".", ""]
        lines += [f"[{item.path}, line {item.line}](../../{item.path}#L{item.line})", ""]
    return lines


# The sections with the names of their entries, after the table was compared with what was found.
def sections_of(found):
    sections, taken = [], set()
    for line in SECTIONS.strip("\n").split("\n"):
        if not line.startswith(" "):
            sections.append((line, []))
            continue
        for name in line.split():
            if name not in found:
                faults.append(f"the table has {name}, which is no public item")
            elif name in taken:
                faults.append(f"{name} is in two sections")
            else:
                sections[-1][1].append(name)
                taken.add(name)
    before = None
    for name, items in found.items():
        if name not in taken:
            if before is None or found[before][0].path != items[0].path:
                faults.append(f"{items[0].path}: {name} is in no section of tests/pages/api_page.sh")
                continue
            names = next(names for _, names in sections if before in names)
            names.insert(names.index(before) + 1, name)
            taken.add(name)
        before = name
    headings = [heading_of(name) for name in taken] + [heading for heading, _ in sections]
    if len({anchor(heading) for heading in headings}) != len(headings):
        faults.append("two headings have one link")
    return sections


def page(found):
    sections = sections_of(found)
    taken = {name for _, names in sections for name in names}
    lines = INTRO.split("\n")
    for heading, names in sections:
        links = f"- [{heading}](#{anchor(heading)}): " + ", ".join(link_to(name, name) for name in names)
        lines += textwrap.wrap(links, 140, subsequent_indent="  ", break_long_words=False, break_on_hyphens=False)
    for heading, names in sections:
        lines += ["", f"## {heading}", ""]
        for name in names:
            lines += entry(name, found[name], taken)
        lines.pop()
    return "\n".join(lines) + "\n"


def main(words):
    if words not in ([], ["--write"]):
        print("usage: bash tests/pages/api_page.sh [--write]")
        return 2
    found, impls = public_items()
    complete(found, impls)
    text = page(found)
    for fault in faults:
        print(f"api_page: {fault}")
    if faults:
        return 1
    if words:
        with open(PAGE, "w", encoding="utf-8") as file:
            file.write(text)
    written = open(PAGE, encoding="utf-8").read() if os.path.exists(PAGE) else ""
    if written != text:
        differ = difflib.unified_diff(written.split("\n"), text.split("\n"), PAGE, "the doc comments", n=1, lineterm="")
        print("\n".join(list(differ)[:30]))
        print("api_page: docs/use/API.md isn't what the doc comments say: bash tests/pages/api_page.sh --write")
        return 1
    kinds = [items[0].kind for items in found.values()]
    print(f"api_page: {kinds.count('fn')} calls and {len(kinds) - kinds.count('fn')} types")
    return 0


sys.exit(main(sys.argv[1:]))
PYTHON
