#!/usr/bin/env python3
"""tests/stands.py LABEL..           prints a line 'SUM LABEL' of each of these scripts and crates of beside/ that a gate has to run
tests/stands.py --passed LINE..  writes these lines into the record

The record is tests/passed.txt, a line for each that passed. The sum is of what decides what the script does: the kit, the tools of this
machine, and the files that tests/reads.txt names for it. A script whose sum is unchanged isn't run again. So that the record stays honest, one is run
each time, whatever the record says: the commit draws it, so nobody can say beforehand which.

A gate judges and never writes: `bash tests/all landing` does, of what it has just seen pass."""
import hashlib
import os
import subprocess
import sys

TOP = os.path.dirname(os.path.dirname(os.path.realpath(__file__)))
RECORD, READS = f"{TOP}/tests/passed.txt", f"{TOP}/tests/reads.txt"
# What runs the tests of each crate of beside/.
TESTED = tuple(f"tests/crates/{it}.py" for it in ("tested", "try_alone", "beside"))
TOOLS = ("rt version", "cc --version", "cargo --version", "python3 --version", "valgrind --version", "sqlite3 --version", "bash --version")


def said(*words):
    """Returns what a command prints: nothing if it isn't on this machine."""
    try:
        return subprocess.run(words, cwd=TOP, capture_output=True, text=True).stdout.strip()
    except OSError:
        return ""


def rows(file):
    """Returns the lines of a file, each up to its comment, without empty ones."""
    if not os.path.isfile(file):
        return []
    with open(file, encoding="utf-8") as it:
        return [row for row in (line.partition("#")[0].strip() for line in it) if row]


class Scripts:
    """What scripts read, and which of them passed on the same."""

    def __init__(self):
        self.reads = {label.strip(): words.split() for label, _, words in (it.partition(": ") for it in rows(READS))}
        beside = rows(f"{TOP}/beside/list.txt")
        self.uses = {names.split()[0]: uses.split() for names, _, uses in (it.partition(":") for it in [*rows(f"{TOP}/crates.txt"), *beside])}
        self.reads |= {it: [f"={it}", *TESTED] for it in (row.partition(":")[0] for row in beside)}
        self.files = said("git", "ls-files").splitlines()
        self.tools = "\n".join(said(*it.split()) for it in TOOLS)
        self.passed = {label: sum for sum, _, label in (it.partition(" ") for it in rows(RECORD))}
        commit = said("git", "rev-parse", "HEAD")
        self.drawn = min(self.reads, key=lambda it: hashlib.sha256(f"{commit} {it}".encode()).digest(), default=None)

    def below(self, crate):
        """Returns a crate of this repository, and all that it names."""
        return {crate}.union(*(self.below(it) for it in self.uses[crate] if it in self.uses))

    def begins(self, label):
        """Returns the beginnings of the paths of what a script reads, and the crates that it names."""
        words = self.reads[label]
        crates = sorted(set().union(*(self.below(it[1:]) for it in words if it.startswith("="))))
        folders = [f"{top}crates/{it}/" for it in crates for top in ("", "beside/")]
        own = [it for it in label.split() if os.path.isfile(f"{TOP}/{it}")]
        return (*own, *folders, *(it for it in words if not it.startswith("="))), [(it, self.uses[it]) for it in crates]

    def sum_of(self, label):
        """Returns the sum of what decides what a script does. Wrong bodies and their record decide nothing."""
        begins, crates = self.begins(label)
        sum = hashlib.sha256(f"{label} {crates} {self.tools}".encode())
        for file in self.files:
            if file.startswith(begins) and "/refused/" not in file and not file.endswith("/refused.txt") and os.path.isfile(f"{TOP}/{file}"):
                with open(f"{TOP}/{file}", "rb") as it:
                    sum.update(f"{file} {hashlib.sha256(it.read()).hexdigest()}\n".encode())
        return sum.hexdigest()[:16]

    def due(self, labels):
        """Returns of these the ones to be run, each with its sum. What tests/reads.txt doesn't have is run each time, and its sum is empty."""
        sums = {it: self.sum_of(it) if it in self.reads else "" for it in labels}
        return {it: sum for it, sum in sums.items() if not sum or it == self.drawn or self.passed.get(it) != sum}

    def write(self, sums):
        """Writes of these that they passed with these sums, and drops what tests/reads.txt doesn't have."""
        now = self.passed | sums
        with open(RECORD, "w", encoding="utf-8") as out:
            out.write("".join(f"{now[it]} {it}\n" for it in sorted(now) if it in self.reads))


if __name__ == "__main__":
    scripts = Scripts()
    if sys.argv[1:2] == ["--passed"]:
        scripts.write({label: sum for sum, _, label in (it.partition(" ") for it in sys.argv[2:])})
    else:
        print("".join(f"{sum} {it}\n" for it, sum in scripts.due(sys.argv[1:]).items()), end="")
