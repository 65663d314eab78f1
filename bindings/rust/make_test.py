#!/usr/bin/env python3
"""bindings/rust/make_test.py: `make --check` finds each of some mistakes in the modules of src/made, in cures.diff and in src/by_hand. Each is
planted in a copy, and has to be found by what it is. The last line is 'make_test: N passed, M failed'."""
import os
import re
import shutil
import subprocess
import sys
import tempfile

HERE = os.path.dirname(os.path.realpath(__file__))
TOP = os.path.dirname(os.path.dirname(HERE))
CARRY, SLOTS, RESIZE = (f"src/made/{it}.rs" for it in ("hashbag_slots/slots/carry", "hashbag_slots/slots", "hashbag_table/table/resize"))


def edit(file, old, new):
    """An edit of a file's text, which has `old` at least once."""
    def planted(root):
        with open(f"{root}/{file}", encoding="utf-8") as it:
            text = it.read()
        assert old in text, (file, old)
        with open(f"{root}/{file}", "w", encoding="utf-8") as it:
            it.write(text.replace(old, new, 1))
    return planted


def add(file, text):
    """A new file."""
    def planted(root):
        os.makedirs(os.path.dirname(f"{root}/{file}"), exist_ok=True)
        with open(f"{root}/{file}", "w", encoding="utf-8") as it:
            it.write(text)
    return planted


# What is planted, and what has to be said: of a module both that it has another text, and what is wrong with its lines.
OTHER = "src/made has another text"
MISTAKES = {
    "nothing": (lambda root: None, [r"^make: .* 0 faults$"]),
    "a line is lost": (edit(CARRY, "            ahead = rest;\n", ""), [OTHER, "carry: is taken out, and not the prover's: ahead = rest;"]),
    "a line is new": (edit(CARRY, "at += 1;\n", "at += 1;\nself.live += 1;\n"), [OTHER, r"carry: doesn't stand in the source: self.live \+= 1;"]),
    "a number is another": (edit(CARRY, "at += 1;", "at += 2;"), [OTHER, r"doesn't stand in the source: at \+= 2;", r"taken out, .*: at \+= 1;"]),
    "two lines change places": (
        edit(SLOTS, "        self.tags[place] = tag;\n        self.live -= 1;\n", "        self.live -= 1;\n        self.tags[place] = tag;\n"),
        [OTHER, "slots: doesn't stand in the source: self", "slots: is taken out, and not the prover's: self"]),
    "a clause is left": (
        edit(CARRY, "fn is_live_at(&self, place: usize) -> bool\n",
             "fn is_live_at(&self, place: usize) -> bool\n        requires { place < length self.now.slots }\n"),
        [OTHER, "carry: is left, and the prover's: requires"]),
    "a cure is made twice": (
        edit(RESIZE, "        self.finish_carry();\n        let grown", "        self.finish_carry();\n" * 2 + "        let grown"), [OTHER]),
    "a module of nothing": (add("src/made/hashbag_slots/more.rs", "fn more() {}\n"), ["hashbag_slots/more.rs: is made of nothing"]),
    "a cure of what isn't there": (
        edit("cures.diff", " let grown = grown_slots(", " let grown = grow_slots("),
        ["resize can't be applied: its lines don't"]),
    "a cure that is the source's by now": (
        edit("cures.diff", "+    tags: Owner,\n     cells: Cells<(T, usize)>,\n", "+    live: usize,\n     removed: usize,\n"),
        ["slots can't be applied: .*; what it puts there does"]),
    "a cure of no module": (
        edit("cures.diff", "--- hashbag_slots/slots/blank", "--- hashbag_slots/blank"), ["a cure of hashbag_slots/blank, which isn't made"]),
    "a file by hand without a place": (add("src/by_hand/hashbag_slots/no/more.rs", ""), ["by_hand/hashbag_slots/no/more.rs has no module above it"]),
}


def found(plant):
    """What `make --check` prints of a copy in which a mistake is planted."""
    with tempfile.TemporaryDirectory() as root:
        for it in ("make", "make_lists.py", "cures.diff"):
            shutil.copy(f"{HERE}/{it}", root)
        shutil.copytree(f"{HERE}/src", f"{root}/src")
        plant(root)
        ran = subprocess.run([sys.executable, f"{root}/make", "--of", TOP, "--check"], capture_output=True, text=True, check=False)
        return ran.returncode, ran.stdout + ran.stderr


def main():
    failed = 0
    for what, (plant, wanted) in MISTAKES.items():
        status, said = found(plant)
        missing = [it for it in wanted if not re.search(it, said, re.M)]
        if missing or (status == 0) != (what == "nothing"):
            failed += 1
            print(f"{said}make_test: {what}: status {status}, not found: {missing}")
    print(f"make_test: {len(MISTAKES) - failed} passed, {failed} failed")
    sys.exit(failed > 0)


if __name__ == "__main__":
    main()
