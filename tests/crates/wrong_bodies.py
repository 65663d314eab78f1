#!/usr/bin/env python3
"""tests/crates/wrong_bodies.py [--jobs N] [--list] [--quick] [--built] [--control] [--root FOLDER] [CRATE..|CRATE/BODY..]: the prover must reject each wrong
body by itself: of the crates named, or of all, or those named.

A wrong body is a file crates/NAME/refused/BODY.edit, in lines:

    breaks: what it breaks, in plain words
    file: src/slots.rt
    old: TEXT            part of a line of that file, which has it once
    new: TEXT            what replaces it; more pairs of old and new, and more files, may follow
    fn: slots::Slots::f  only if the text is in no function, or in one whose path isn't found: the function that must be rejected
    names-only: REASON   only if a proof file names what the body removes, and no other goal of the function fails

The wrong bodies of a crate are put beside the right functions, as twins (`body_twins.py`), and one `rattle check` of that copy tries them all. What can't have
a twin, as a trait's method or a text in a macro, and what isn't rejected as a twin, is put into the place of the right function: as many into a copy as
change different functions, or one alone if it changes a text in no function. A check doesn't stop at the first function that isn't proved, and says of each why. A wrong body is rejected by
itself if a goal of its own function fails; if its function only calls others that aren't proved, it is tried again in another copy, at last alone.

The crates below are the ones that `rt ci` has built, if these are newer than their sources; otherwise `rt lib` builds what has changed. --built:
`rt ci` has just passed, so they are its own, also those that it kept from an earlier run and that are older. --control: each function is also tried as a twin
without an edit, and has to be proved; if it isn't, its wrong bodies are tried in its place. --quick: begins with a copy of what `rt check` has kept in the
crate, for use while one writes. --jobs: how many crates at a time, by default as many as there are processors, as far as there are 3 GB for each.
A line for each wrong body: crate, name, function, goal. --list: crate, name, function, what it breaks or what is wrong with its file; nothing is tried.
The last line is 'wrong_bodies: N refused, M not refused'."""
import argparse
import glob
import os
import re
import shutil
import subprocess
import sys
import tempfile
import threading
from concurrent.futures import ThreadPoolExecutor

sys.dont_write_bytecode = True
import body_twins  # noqa: E402
from body_checks import Repository, check, proved, verdict, verdicts, was_judged  # noqa: E402
from body_files import bodies_of, read  # noqa: E402

ROOT = os.path.dirname(os.path.dirname(os.path.dirname(os.path.realpath(__file__))))


class Tries:
    """The wrong bodies of a crate that are tried, and what became of each: pairs of a word, `refused` or `not refused`, and a text."""

    def __init__(self, repository, name, bodies, controlled=()):
        self.repository, self.name, self.bodies, self.controlled = repository, name, bodies, {*controlled}
        self.said = {it: ("not refused", it.fault) for it in bodies if it.fault}
        self.checks, self.seconds, self.most, self.notes = 0, 0, 0, []

    def copy(self, to):
        for part in ("src", "specs", "proofs"):
            if os.path.isdir(f"{self.repository.folder(self.name)}/{part}"):
                shutil.copytree(f"{self.repository.folder(self.name)}/{part}", f"{to}/{part}")

    def check(self, copy, functions, kept):
        """The lines of a check of these functions."""
        words = [f"{self.repository.kit}/bin/rattle", "check", *self.repository.words(self.name), "--incremental", kept]
        lines, took, peak = check([*words, *(word for it in functions for word in ("--only", it))], copy)
        self.checks, self.seconds, self.most = self.checks + 1, self.seconds + took, max(self.most, peak)
        return lines

    def run(self, kept):
        """Tries all. What the checks prove of right functions is kept in the folder."""
        left = self.by_twins([it for it in self.bodies if not it.fault], kept)
        while left:
            left = self.in_place(left, kept)

    def by_twins(self, bodies, kept):
        """Tries those that can have twins, and returns the others, and those whose function isn't proved as a twin either."""
        twins, others = body_twins.twins_of(bodies, self.controlled)
        while twins:
            with tempfile.TemporaryDirectory(prefix="wrong-bodies-") as copy:
                self.copy(copy)
                body_twins.put(twins, copy)
                lines = self.check(copy, [it.path for it in twins], kept)
                wrong = [] if was_judged(lines) else body_twins.guilty(twins, copy, lines) or twins
            if not wrong:
                return others + self.judge(twins, lines)
            others += [it.body for it in wrong if not it.is_control]
            twins = [it for it in twins if it.body not in others]
        return others

    def judge(self, twins, lines):
        """Notes what a check said of twins, and returns the bodies that are to be tried in the place of the right function."""
        unproved = {it.function for it in twins if it.is_control and not proved(self.name, it.path, lines)}
        self.notes += [f"{self.name}: {it} isn't proved as a twin without an edit: its wrong bodies are tried in its place" for it in sorted(unproved)]
        again = []
        for it in twins:
            word, text = verdict(it.body, lines, [it.path])
            if it.function in unproved or word != "refused":
                again += [] if it.is_control else [it.body]
            elif not it.is_control:
                self.said[it.body] = word, text.replace(it.path, it.function)
        return again

    def in_place(self, left, kept):
        """Tries as many as one copy takes, in the place of the right functions, and returns those that are left."""
        with tempfile.TemporaryDirectory(prefix="wrong-bodies-") as copy:
            self.copy(copy)
            group, changed = [], set()
            for it in left:
                if group and max(it.tries, group[0].tries) > 1:
                    continue
                if not changed & {*it.functions} and it.put_into(copy):
                    group.append(it)
                    changed |= {*it.functions}
            lines = self.check(copy, sorted(changed), kept)
        left = [it for it in left if it not in group]
        for it, (word, text) in zip(group, verdicts(group, lines)):
            if word in ("again", "anew", "alone") and len(group) > 1:
                it.tries += {"again": 1, "anew": 0, "alone": 2}[word]
                left.append(it)
            else:
                self.said[it] = ("refused" if word == "refused" else "not refused"), text
        return left

    def missed(self):
        return [it for it in self.bodies if self.said[it][0] != "refused"]

    def lines(self):
        missed = self.missed()
        lines = [f"{self.name} {it.name}: {'NOT REFUSED: ' if it in missed else ''}{self.said[it][1]}" for it in self.bodies]
        took = f"{self.checks} checks, {self.seconds:.0f} processor seconds, {self.most} MB"
        return [*self.notes, *lines, f"== {self.name}: {len(self.bodies)} wrong bodies in {took}"]


def jobs_for(count):
    """How many crates at a time: as many as there are processors, as far as there are 3 GB for each."""
    free = int(re.search(r"MemAvailable:\s+(\d+)", read("/proc/meminfo"))[1]) // 3_000_000
    return max(1, min(len(os.sched_getaffinity(0)), free, count))


def try_all(repository, crates, controlled=(), jobs=None, is_quick=False, ready=None, tell=None):
    """Tries wrong bodies, given by crate, several crates at a time, and prints what becomes of each. `controlled` are pairs of a crate and a function that is
    tried without an edit too. `ready` waits for a crate, and returns whether it is proved: the bodies of one that isn't are not tried. `tell` is given what
    became of the bodies of a crate, as soon as it is known."""
    # The crates with the most to prove go first, or the lowest, if they are proved one after the other now.
    size = {it: sum(map(len, map(read, glob.glob(f"{repository.folder(it)}/src/**/*.rt", recursive=True)))) for it in crates}
    in_turn = sorted(crates, key=lambda it: (len(repository.below(it)) if ready else 0, -size[it]))
    printing = threading.Lock()

    def try_crate(name):
        tries = Tries(repository, name, crates[name], controlled)
        if ready and not ready(name):
            tries.said = {it: ("not refused", "not tried, since a crate isn't proved") for it in tries.bodies}
            return tries
        with tempfile.TemporaryDirectory(prefix="wrong-bodies-kept-") as kept:
            if is_quick and os.path.isdir(f"{repository.folder(name)}/out/incremental"):
                shutil.copytree(f"{repository.folder(name)}/out/incremental", kept, dirs_exist_ok=True)
            tries.run(kept)
        with printing:
            print("\n".join(tries.lines()), flush=True)
            if tell:
                tell(tries.said)
        return tries

    with ThreadPoolExecutor(jobs or jobs_for(len(crates))) as lanes:
        all_tries = list(lanes.map(try_crate, in_turn))
    print(f"wrong_bodies: {sum(it.seconds for it in all_tries) / 60:.1f} processor minutes", flush=True)
    return {it: tries.said[it] for tries in all_tries for it in tries.bodies}


def main():
    options = argparse.ArgumentParser(description=__doc__, formatter_class=argparse.RawDescriptionHelpFormatter)
    options.add_argument("--jobs", type=int)
    options.add_argument("--list", action="store_true")
    options.add_argument("--quick", action="store_true")
    options.add_argument("--built", action="store_true")
    options.add_argument("--control", action="store_true")
    options.add_argument("--root", default=ROOT)
    options.add_argument("names", nargs="*", metavar="NAME")
    given = options.parse_args()
    repository = Repository(given.root, given.built)
    crates = bodies_of(repository, given.names)
    bodies = [it for found in crates.values() for it in found]
    if given.list:
        for it in bodies:
            print("\t".join([it.crate, it.name, ", ".join(it.functions), it.fault or it.breaks]))
        return 1 if any(it.fault for it in bodies) else 0
    repository.build_below(crates)
    controlled = {(it.crate, function) for it in bodies for function in it.functions} if given.control else ()
    said = try_all(repository, crates, controlled, given.jobs, given.quick)
    refused = sum(word == "refused" for word, _ in said.values())
    print(f"wrong_bodies: {refused} refused, {len(said) - refused} not refused")
    return 0 if refused == len(said) else 1


if __name__ == "__main__":
    sys.exit(main())
