#!/usr/bin/env python3
"""tests/crates/record.py [--all] [--write] [--list] [--drawn CRATE] [--after FILE] [--built] [--jobs N] [--root FOLDER] [CRATE..]: tries those wrong bodies for
which the record doesn't answer, of all crates or of those named.

The record is tests/crates/refused.txt, a line for each wrong body that the prover rejected, with the sum of all that decided it (`body_sums.py`):

    CRATE BODY SUM FUNCTION: GOAL

A body is tried if it has no line, or if its sum is another now; its function is then also tried as a twin without an edit, which has to be proved. So that
the record stays honest, one crate is tried whole each time, whatever the record says. The commit draws it, so nobody can say beforehand which; a crate
comes up as often as it has bodies. --drawn names another. --all tries all, each function without an edit too. A line for a body that isn't there is a fault.

A run without --write changes nothing, so a gate judges and never writes. --write writes the lines of what was tried and rejected just now, and drops those
of bodies that are gone. --list prints what would be tried, and why. --after FILE: `rt ci` is running, and FILE has what it prints; a crate's bodies are
tried as soon as it and the crates below are proved. --built and --jobs are those of `wrong_bodies.py`.

The last lines are 'record: K tried now (C changed, D drawn), R stand by the record' and 'wrong_bodies: N refused, M not refused', where N counts those
tried and those that stand by the record."""
import argparse
import hashlib
import os
import re
import subprocess
import sys
import time

sys.dont_write_bytecode = True
from body_checks import Repository  # noqa: E402
from body_files import bodies_of, fail, read  # noqa: E402
from body_sums import Sums  # noqa: E402
from wrong_bodies import ROOT, try_all  # noqa: E402

LINE = re.compile(r"(\w+) (\w+) ([0-9a-f]{16}) (.+)")


def lines_of(file):
    """The record: by crate and body the sum and the goal."""
    found = {}
    for number, line in enumerate(read(file).splitlines() if os.path.isfile(file) else [], 1):
        it = LINE.fullmatch(line)
        if not it or (it[1], it[2]) in found:
            fail(f"{file}: line {number} is none of the record's lines, or its body has two")
        found[it[1], it[2]] = it[3], it[4]
    return found


def said(root, *words):
    return subprocess.run(words, cwd=root, capture_output=True, text=True).stdout.strip()


def drawn(bodies, commit):
    """The crate that the commit draws."""
    return min(bodies, key=lambda it: hashlib.sha256(f"{commit} {it.crate} {it.name}".encode()).digest()).crate


class Proofs:
    """What `rt ci` says, as it goes on, in a file."""

    def __init__(self, file, repository):
        self.file, self.repository = file, repository

    def are_ready(self, name):
        """Waits until a crate and those below it are proved. Returns whether they are."""
        needed = {name, *self.repository.below(name)}
        while True:
            text = read(self.file)
            if needed <= {*re.findall(r"^(?:rt: )?(\w+) (?:proved|is kept: )", text, re.M)}:
                return True
            if re.search(r"^\d+ passed, \d+ failed", text, re.M) or any(f"{it} NOT PROVED" in text for it in needed):
                return False
            time.sleep(2)


class Record:
    """The record, as it is written crate by crate, so that a run that is cut off keeps what it has seen."""

    def __init__(self, file, now):
        self.file, self.now, self.was = file, now, lines_of(file)

    def write(self, said):
        """Writes what was tried just now: a line for each body that was rejected, and none for another. Bodies that are gone have none."""
        tried = {(it.crate, it.name): told for it, told in said.items()}
        self.was = {it: line for it, line in self.was.items() if it in self.now and it not in tried}
        self.was |= {it: (self.now[it], goal) for it, (word, goal) in tried.items() if word == "refused"}
        with open(self.file, "w", encoding="utf-8") as out:
            out.write("".join(f"{crate} {body} {sum} {goal}\n" for (crate, body), (sum, goal) in sorted(self.was.items())))


def parsed():
    options = argparse.ArgumentParser(description=__doc__, formatter_class=argparse.RawDescriptionHelpFormatter)
    for word in ("--all", "--write", "--list", "--built"):
        options.add_argument(word, action="store_true")
    options.add_argument("--drawn", metavar="CRATE")
    options.add_argument("--after", metavar="FILE")
    options.add_argument("--jobs", type=int)
    options.add_argument("--root", default=ROOT)
    options.add_argument("names", nargs="*", metavar="CRATE")
    return options.parse_args()


def main():
    given = parsed()
    repository = Repository(given.root, given.built or bool(given.after))
    logic = re.search(r"logic (\S+)", said(given.root, "rt", "version"))[1]
    sums = Sums(repository, logic)
    bodies = {(it.crate, it.name): it for found in bodies_of(repository, []).values() for it in found}
    if not bodies:
        fail("there is no wrong body")
    now = {key: sums.of(it) for key, it in bodies.items()}
    record = Record(f"{given.root}/tests/crates/refused.txt", now)
    was = record.was
    asked = {it for it in now if not given.names or it[0] in given.names}
    gone = [f"{crate} {body}" for crate, body in was if (crate, body) not in now]
    if gone and not given.write:
        print(f"record: a line for a wrong body that isn't there: {', '.join(gone)}")
    changed = {it for it in asked if given.all or was.get(it, ("",))[0] != now[it]}
    crate = given.drawn or drawn(bodies.values(), said(given.root, "git", "rev-parse", "HEAD"))
    tried = changed | {it for it in asked if it[0] == crate}
    if given.list:
        for it in sorted(tried):
            print(*it, "changed" if it in changed else "drawn")
        return 0
    chosen = {}
    for it in sorted(tried):
        chosen.setdefault(it[0], []).append(bodies[it])
    if not given.after:
        repository.build_below(chosen)
    controlled = {(it[0], function) for it in changed for function in bodies[it].functions}
    ready = Proofs(given.after, repository).are_ready if given.after else None
    if given.write:
        record.write({})
    said_of = try_all(repository, chosen, controlled, given.jobs, ready=ready, tell=record.write if given.write else None) if tried else {}
    refused = sum(word == "refused" for word, _ in said_of.values())
    lost, stand = len(tried) - refused + (0 if given.write else len(gone)), len(asked - tried)
    print(f"record: {len(tried)} tried now ({len(changed)} changed, {len(tried - changed)} drawn), {stand} stand by the record")
    print(f"wrong_bodies: {refused + stand} refused, {lost} not refused")
    return 1 if lost else 0


if __name__ == "__main__":
    sys.exit(main())
