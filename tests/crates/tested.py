#!/usr/bin/env python3
"""tests/crates/tested.py [--jobs N] [--due] [--write] [NAME..]: runs the tests of each crate of beside/, or of those that are named, by `rt try --test`, and
each program there by `rt try`, in a repository that `tests/crates/beside.py` makes. `tests/crates/try_alone.py` leaves out what `rt` starts besides.
N crates are run at a time: as many as there are processors, if not given. --due leaves out those that passed on the same files, as `tests/stands.py`
finds; --write, beside it, writes that the others passed.

A program gets its file `stdin`, and has to print its file `stdout`, or nothing if it has none. Each `#[test]` of a crate's files has to be run
and to pass. A library without one has to be used by another crate of beside/. Of what fails, all that was printed is shown. The last line is
'tests: K passed, F failed'; a program is one test, and so is a crate that doesn't compile. Nothing is proved:
`tests/crates/proved_tests.sh` does that.
"""
import argparse
import os
import re
import subprocess
import sys
import tempfile
import threading
from concurrent.futures import ThreadPoolExecutor

TOP = os.path.dirname(os.path.dirname(os.path.dirname(os.path.realpath(__file__))))
sys.dont_write_bytecode = True
sys.path.insert(0, f"{TOP}/tests")
from stands import Scripts  # noqa: E402

TEST = re.compile(r"^ *#\[test\]", re.M)
RESULT = re.compile(r"^test result: \w+\. (\d+) passed; (\d+) failed; (\d+) ignored", re.M)
# How long a test may take, in seconds: long, so that many may run side by side.
LONG = ("--seconds", "600")
printing = threading.Lock()


def text_of(file):
    """Returns what a file has: nothing if there is none."""
    if not os.path.isfile(file):
        return ""
    with open(file, encoding="utf-8") as it:
        return it.read()


class Crate:
    def __init__(self, root, line):
        self.name, _, uses = line.partition(":")
        self.uses = uses.split()
        self.folder = f"{root}/crates/{self.name}"
        files = [f"{at}/{name}" for at, _, names in os.walk(f"{self.folder}/src") for name in names]
        self.tests = sum(len(TEST.findall(text_of(it))) for it in files)
        self.is_program = os.path.isfile(f"{self.folder}/src/main.rt")

    def ends(self, *words, **streams):
        """Runs `rt try` on these words, and returns its status and what it printed."""
        ran = subprocess.run([f"{TOP}/tests/crates/try_alone.py", *words], cwd=self.folder, **streams)
        return ran.returncode, ran.stdout.decode(errors="replace")

    def run_program(self):
        """Returns how many passed and failed: the program, which counts as a test. What says most of what it prints comes first."""
        given = f"{self.folder}/stdin"
        with open(given if os.path.isfile(given) else os.devnull, "rb") as given, tempfile.TemporaryFile() as said:
            status, printed = self.ends("--steps", "1", *LONG, stdin=given, stdout=subprocess.PIPE, stderr=said)
            said.seek(0)
            if status == 0 and printed == text_of(f"{self.folder}/stdout"):
                return 1, 0, ""
            return 0, 1, f"{printed}{said.read().decode(errors='replace')}status {status}, or it printed something else than its file stdout\n"

    def run_tests(self):
        """Returns how many tests passed and failed, and what was printed if one did."""
        how = {"stdin": subprocess.DEVNULL, "stdout": subprocess.PIPE, "stderr": subprocess.STDOUT}
        status, printed = self.ends("--test", *LONG, **how)
        found = RESULT.search(printed)
        if not found:
            return 0, 1, f"{printed}no test was run\n"
        passed = int(found[1])
        if status == 0 and passed == self.tests:
            return passed, 0, ""
        return passed, max(self.tests - passed, 1), f"{printed}status {status}, and {passed} of {self.tests} tests passed\n"

    def run(self):
        passed, failed, said = self.run_program() if self.is_program else self.run_tests()
        with printing:
            what = "program" if self.is_program else "tests"
            print(f"{said}{self.name}: {passed} {what} passed{f', {failed} failed' if failed else ''}", flush=True)
        return passed, failed


def main():
    parser = argparse.ArgumentParser(description=__doc__, formatter_class=argparse.RawDescriptionHelpFormatter)
    parser.add_argument("--jobs", metavar="N", type=int, default=len(os.sched_getaffinity(0)))
    parser.add_argument("--due", action="store_true")
    parser.add_argument("--write", action="store_true")
    parser.add_argument("names", metavar="NAME", nargs="*")
    given = parser.parse_args()
    with tempfile.TemporaryDirectory() as root:
        subprocess.run([f"{TOP}/tests/crates/beside.py", root], check=True)
        rows = [it.partition("#")[0].strip() for it in text_of(f"{TOP}/beside/list.txt").splitlines()]
        crates = [Crate(root, it) for it in rows if it]
        used = {name for it in crates for name in it.uses}
        tested = [it for it in crates if it.tests or it.is_program]
        idle = [it.name for it in crates if it not in tested and it.name not in used]
        unknown = {*given.names} - {it.name for it in tested}
        if unknown or idle:
            print(f"tested: without tests, and used by none: {' '.join(idle)}" if idle else f"tested: no tests: {' '.join(unknown)}")
            return 2
        chosen = [it for it in tested if not given.names or it.name in given.names]
        due = Scripts().due([it.name for it in chosen]) if given.due else {}
        if given.due:
            print(f"these stand by the record: {' '.join(it.name for it in chosen if it.name not in due) or 'none'}", flush=True)
            chosen = [it for it in chosen if it.name in due]
        chosen.sort(key=lambda it: -it.tests)
        with ThreadPoolExecutor(given.jobs) as pool:
            found = list(pool.map(Crate.run, chosen))
    if given.write:
        Scripts().write({it.name: due[it.name] for it, (_, failed) in zip(chosen, found) if not failed})
    passed, failed = sum(it[0] for it in found), sum(it[1] for it in found)
    if given.due and not chosen:
        print("tests: all stand")
        return 0
    print(f"tests: {passed} passed, {failed} failed")
    return 1 if failed or not passed else 0


sys.exit(main())
