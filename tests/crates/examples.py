#!/usr/bin/env python3
"""python3 tests/crates/examples.py [FOLDER]: runs the examples of doc comments, and compares the code of pages with the files that it is of.

Each fenced block of a doc comment of `hashbag_core`, `hashbag_script` and `hashbag_ops` becomes a test of a crate `examples_1`, `examples_2`, ..,
in a repository beside this one (`tests/crates/beside.py`), and `rt try --test` runs it: nothing is proved. (`tests/crates/try_alone.py` leaves out
what `rt` starts besides.) In a block, a line

    EXPR; // VALUE

compares: the text of EXPR by `{:?}` is VALUE, letter by letter. If EXPR begins with `format!` or ends in `to_string(alloc)?`, its own text is
compared. The statement is on one line. A comment that isn't a value is on a line of its own. Each block compares a value. Each public call has
a block, or a line that begins with 'See [' and names the call that has one. A block may use the names below (HEAD), `rt`, which is
the `HostRuntime` of a test, and `alloc`, which is `rt.alloc()`.

A block of docs/prove/CALLING.md that follows a line with the path of a file of proved code is a piece of that file, or all of it if the line says so.

With FOLDER, which must be empty or absent, the repository is made there and left, laid out by `rt fmt`: `rt ci` there, or `rt test` in each
of these crates, proves the tests too.
The last line is 'examples: N run, N values and N blocks of pages compared', or 'examples: failed' after what is wrong, and then the status is 1."""
import re
import subprocess
import sys
import tempfile
from concurrent.futures import ThreadPoolExecutor
from pathlib import Path

TOP = Path(__file__).resolve().parents[2]
PAGE = "docs/prove/CALLING.md"

# The crates whose doc comments have the examples. A law needs none: its clause is all that it does.
CRATES = ["hashbag_core", "hashbag_script", "hashbag_ops"]
WITHOUT = ["crates/hashbag_ops/src/laws.rt"]

USES = "hashbag hashbag_core serde_json"
# A crate has at most this many tests, so that several are proved side by side, each in 2 GB.
MOST = 24
HEAD = """\
//! The examples of doc comments, made by `tests/crates/examples.py`.
#![tactic(auto)]

#[cfg(test)]
mod tests {
    use hashbag::script::{self, Step};
    use hashbag::{BagError, FixedState, HashBag, ItemError, JsonError, JsonItem, joins, ops};
    use serde_json::Value;
    use std::hash::{BuildHasher, RandomState};
    use std::test::Fail;
"""

# Strings and characters, in which a `//` is no comment.
PARTS = re.compile(r""""(?:[^"\\]|\\.)*"|'(?:[^'\\]|\\.)'|//|.""")

faults = []


class Example:
    def __init__(self, path, line):
        self.path, self.line, self.call = path, line, None
        self.lines = []  # pairs of a number and a text
        self.compared = 0

    def where(self):
        return f"{self.path}:{self.line}"

    def name(self):
        """The name of its test: module, call and line."""
        return re.sub(r"\W", "_", re.sub(r".*/src/|\.rt$", "", self.path)) + f"_{self.call}_{self.line}"

    def statements(self):
        """The lines of the test's body, each with the number of the line that it is of."""
        ended = True
        for number, line in self.lines:
            code, comment = parted(line)
            if comment is None or not code:
                yield number, line
            elif not ended or not code.endswith(";") or re.match(r"\s*(let|for|while|return)\b", code):
                faults.append(f"{self.path}:{number}: neither `EXPR; // VALUE` nor a comment on a line of its own")
            else:
                self.compared += 1
                yield number, comparison(code, comment, f"{self.path}:{number}")
            ended = not code or code.endswith((";", "{", "}"))
        if not re.match(r"Ok\(", self.lines[-1][1]):
            yield self.line, "Ok(())"


def parted(line):
    """The code of a line and the text of its comment, or None."""
    for part in PARTS.finditer(line):
        if part[0] == "//":
            return line[: part.start()].rstrip(), line[part.end() :].strip()
    return line.rstrip(), None


def literal(text):
    return '"' + text.replace("\\", "\\\\").replace('"', '\\"') + '"'


def comparison(code, value, where):
    """The statement that compares the text of the expression with the value."""
    expression = code.strip()[:-1]
    is_text = expression.startswith("format!") or expression.endswith("to_string(alloc)?")
    text = f'format!(in alloc; "{{{"" if is_text else ":?"}}}", {expression})?'
    return f'assert_eq!(rt; {text}.as_str(), {literal(value)}, "{{}}", {literal(where)});'


def examples_of(path):
    """The examples of a file. A public call without one is a fault."""
    found, block, linked = [], None, False
    for number, line in enumerate((TOP / path).read_text(encoding="utf-8").split("\n"), 1):
        comment = re.match(r"\s*/// ?(.*)", line)
        if comment and comment[1].startswith("```"):
            block = None if block else Example(path, number)
            found += [block] if block else []
        elif comment and block:
            block.lines.append((number, comment[1]))
        elif comment:
            linked = linked or comment[1].startswith("See [")
        elif not re.match(r"\s*#\[", line):
            declared = re.search(r"\b(?:fn|struct|enum|trait) (\w+)", line)
            for example in found:
                example.call = declared[1] if declared else "item"
                yield example
            if re.match(r"\s*pub fn ", line) and not found and not linked:
                faults.append(f"{path}:{number}: no example of {declared[1]}")
            found, block, linked = [], None, False


def all_examples():
    for crate in CRATES:
        for path in sorted((TOP / "crates" / crate / "src").rglob("*.rt")):
            name = str(path.relative_to(TOP))
            if name not in WITHOUT:
                yield from examples_of(name)


def crate_of(examples):
    """The text of the test crate, and of each of its lines the place that it is of."""
    lines = HEAD.split("\n")
    places = ["tests/crates/examples.py"] * len(lines)

    def add(place, text):
        lines.append(text)
        places.append(place)

    for example in examples:
        add(example.where(), "    #[test]")
        add(example.where(), f"    fn {example.name()}(rt: HostRuntime) -> Result<(), Fail> {{")
        add(example.where(), "        let alloc = rt.alloc();")
        for number, text in example.statements():
            add(f"{example.path}:{number}", f"        {text}".rstrip())
        add(example.where(), "    }")
        add(example.where(), "")
        if not example.compared:
            faults.append(f"{example.where()}: the example of {example.call} compares nothing")
    lines[-1] = "}"
    return "\n".join(lines) + "\n", places


def try_crate(examples, crate, places):
    """Runs the tests of a crate. What goes wrong is printed with the places of the doc comments."""
    how = {"stdin": subprocess.DEVNULL, "stdout": subprocess.PIPE, "stderr": subprocess.STDOUT, "text": True}
    ran = subprocess.run([TOP / "tests/crates/try_alone.py", "--test"], cwd=crate, **how)
    passed = len(re.findall(r"^test \S+ \.\.\. ok$", ran.stdout, re.M))
    if ran.returncode or passed != len(examples):
        said = re.sub(r"src/lib\.rt:(\d+)(?::\d+)?", lambda place: places[min(int(place[1]), len(places)) - 1], ran.stdout)
        faults.extend(line for line in said.split("\n") if line and not line.endswith("... ok"))
        faults.append(f"{crate.name}: {passed} of {len(examples)} passed, status {ran.returncode}")


def run(examples, folder):
    """Runs the tests in a repository made in the folder, several crates side by side. Returns the crates."""
    parts = [examples[at : at + MOST] for at in range(0, len(examples), MOST)]
    texts = [crate_of(part) for part in parts]
    if faults:
        return []
    if subprocess.run([TOP / "tests/crates/beside.py", folder]).returncode:
        faults.append("tests/crates/beside.py failed")
        return []
    crates = [Path(folder) / f"crates/examples_{number}" for number in range(1, len(parts) + 1)]
    with open(Path(folder) / "crates.txt", "a", encoding="utf-8") as file:
        file.writelines(f"{crate.name}: {USES}\n" for crate in crates)
    for crate, (text, _) in zip(crates, texts):
        (crate / "src").mkdir(parents=True)
        (crate / "src/lib.rt").write_text(text, encoding="utf-8")
    with ThreadPoolExecutor(2) as pool:
        list(pool.map(try_crate, parts, crates, [places for _, places in texts]))
    return crates


def blocks_of_page():
    """Compares the blocks of the page, and returns how many there are."""
    blocks, path, whole, block = 0, None, False, ""
    for line in (TOP / PAGE).read_text(encoding="utf-8").split("\n") + ["end"]:
        if path and (line.startswith("    ") or (line == "" and block)):
            block += line[4:] + "\n"
        elif line != "" and path:
            text = (TOP / path).read_text(encoding="utf-8")
            block = block.rstrip("\n") + "\n"
            blocks += 1
            if block == "\n" or block not in text or (whole and block != text):
                faults.append(f"{PAGE}: the block that names {path} is not of that file")
            path, block = None, ""
        named = re.search(r"`(crates/[\w/]+\.(?:rt|antt))`:$", line)
        if named and not line.startswith("    "):
            path, whole = named[1], f"he whole of `{named[1]}`" in line
    if not blocks:
        faults.append(f"{PAGE}: no block of a file")
    return blocks


def main(words):
    if len(words) > 1 or words[:1] == ["--help"]:
        print(__doc__)
        return 2
    blocks = blocks_of_page()
    examples = list(all_examples())
    if not examples:
        faults.append("no examples")
    with tempfile.TemporaryDirectory() as scratch:
        crates = run(examples, words[0] if words else scratch)
        if words and not faults:
            for crate in crates:
                subprocess.run(["rt", "fmt"], cwd=crate, check=True)
    for fault in faults:
        print(fault)
    compared = sum(example.compared for example in examples)
    done = f"{len(examples)} run, {compared} values and {blocks} blocks of pages compared"
    print(f"examples: {'failed' if faults else done}")
    return 1 if faults else 0


sys.exit(main(sys.argv[1:]))
