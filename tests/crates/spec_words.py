"""The definitions of a file of specs by name, and what `use` lines bring."""
import re

SPEC_MARKS = {"pub", "abbrev", "unfoldable", "record", "data", "ruleset", "rec", "private", "opaque", "open", "syntax", "pattern"}


def antt_lines(text):
    """The lines of a file of specs or proofs without comments and empty lines."""
    kept = []
    for line in text.split("\n"):
        line = re.sub(r"(^|\s)--(\s.*|$)", "", line).rstrip()
        if line:
            kept.append(line)
    return kept


def imports_in(text):
    """What `use` lines bring: pairs of a word and (module, its name there). A module that is brought whole has the name ''."""
    found = []
    for path, names in re.findall(r"\buse\s+Rattle\.([^\s{};]*?)(?:\.\{([^}]*)\})?(?=[;\s]|$)", text):
        for it in names.split(",") if names else []:
            name, _, alias = it.strip().partition(" as ")
            found += [(part, (path, name)) for part in {alias.strip() or name, *(alias.strip() or name).split("◌")} if part]
        if not names:
            module, _, last = path.rpartition(".")
            found += [(last, (module, last)), (last, (path, ""))]
    return found


class Specs:
    """A file of a crate's specs: its definitions by name, each with the heads of the modules around it, and what it imports."""

    def __init__(self, module, text):
        self.module, self.blocks, self.by_part = module, {}, {}
        lines = antt_lines(text)
        self.imports = {}
        for word, it in imports_in("\n".join(lines)):
            self.imports.setdefault(word, []).append(it)
        around, current = [], None
        for line in lines:
            indent, text = len(line) - len(line.lstrip()), line.strip()
            if re.match(r"(pub )?(use|mod) ", text):
                current = None
                continue
            while around and indent <= around[-1][0]:
                around.pop()
            if re.match(r"(pub )?module ", text):
                around.append((indent, text))
                current = None
                continue
            if indent <= (around[-1][0] + 2 if around else 0):
                words = text.split()
                while words and words[0] in SPEC_MARKS:
                    words.pop(0)
                name = words[0] if words else text
                # A line of a definition may begin with an argument of an operator: then it belongs to the one before.
                if not current or name != current and (re.search(r"\s:(\s|$)", text) or name in self.blocks):
                    current = name
            if current:
                self.blocks.setdefault(current, [it for _, it in around]).append(text)
        for name in self.blocks:
            for part in {name, *name.split("◌")} - {""}:
                self.by_part.setdefault(part, []).append(name)
