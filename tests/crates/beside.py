#!/usr/bin/env python3
"""tests/crates/beside.py FOLDER         makes a repository in FOLDER, which is new or empty, of the crates in beside/ and those of this one that they use
tests/crates/beside.py FOLDER --back  copies the crates of beside/ back from that repository, as after `rt fmt` there

beside/ has what is run and isn't proved at each landing. `rt ci` rejects a file of Rattle that is in no crate of crates.txt, and a second file of
that name. So the lines of these crates are in beside/list.txt, and of their files NAME.rt is NAME.rs, and NAME.antt is NAME.antt.txt. In FOLDER
all have the names that `rt` reads. Of this repository's crates it has what is proved, what a program reads and what it prints, and no wrong bodies.
"""
import os
import shutil
import sys

TOP = os.path.dirname(os.path.dirname(os.path.dirname(os.path.realpath(__file__))))
# What rt reads of a crate, and nothing that it or another program made.
PARTS = ("src", "specs", "proofs", "data", "stdin", "stdout", "args", "status")
# How a file's name ends in beside/, and in a crate that rt reads.
ENDS = {".rs": ".rt", ".antt.txt": ".antt"}


def fail(text):
    print(f"beside: {text}", file=sys.stderr)
    sys.exit(2)


def renamed(name, ends):
    """Returns the name with its end changed as `ends` says."""
    for old, new in ends.items():
        if name.endswith(old):
            return name[: -len(old)] + new
    return name


def copy_crate(crate, to, ends):
    """Copies what rt reads of a crate. The names of its files change as `ends` says."""
    for part in PARTS:
        if os.path.isfile(f"{crate}/{part}"):
            os.makedirs(to, exist_ok=True)
            shutil.copyfile(f"{crate}/{part}", f"{to}/{part}")
        for folder, _, names in os.walk(f"{crate}/{part}"):
            inner = f"{to}/{os.path.relpath(folder, crate)}"
            os.makedirs(inner, exist_ok=True)
            for name in names:
                shutil.copyfile(f"{folder}/{name}", f"{inner}/{renamed(name, ends)}")


def listed(file):
    """Returns the crates of a list, each with the names that it uses."""
    with open(file, encoding="utf-8") as it:
        rows = [it.partition("#")[0].partition(":") for it in it]
    return {name.strip(): uses.split() for name, _, uses in rows if name.strip()}


def used_by(crates, own):
    """Returns the crates of this repository that these use, and those that they use in turn."""
    found = {}
    for uses in crates.values():
        mine = {it: own[it] for it in uses if it in own}
        found |= mine | used_by(mine, own)
    return found


def make(folder):
    """Makes the repository."""
    if os.path.isdir(folder) and os.listdir(folder):
        fail(f"{folder} isn't empty")
    beside = listed(f"{TOP}/beside/list.txt")
    unlisted = {*os.listdir(f"{TOP}/beside/crates")} ^ {*beside}
    if unlisted:
        fail(f"in beside/crates or in beside/list.txt, but not in both: {' '.join(sorted(unlisted))}")
    used = used_by(beside, listed(f"{TOP}/crates.txt"))
    os.makedirs(f"{folder}/.git")
    shutil.copyfile(f"{TOP}/HANDLES", f"{folder}/HANDLES")
    with open(f"{folder}/crates.txt", "w", encoding="utf-8") as it:
        it.writelines(f"{name}: {' '.join(uses)}\n" for name, uses in {**used, **beside}.items())
    for name in used:
        copy_crate(f"{TOP}/crates/{name}", f"{folder}/crates/{name}", {})
    for name in beside:
        copy_crate(f"{TOP}/beside/crates/{name}", f"{folder}/crates/{name}", ENDS)


def take_back(folder):
    """Copies the crates of beside/ back."""
    beside = listed(f"{TOP}/beside/list.txt")
    lost = [it for it in beside if not os.path.isdir(f"{folder}/crates/{it}/src")]
    if lost:
        fail(f"not in {folder}: {' '.join(lost)}")
    for name in beside:
        to = f"{TOP}/beside/crates/{name}"
        for part in ("src", "specs", "proofs"):
            shutil.rmtree(f"{to}/{part}", ignore_errors=True)
        copy_crate(f"{folder}/crates/{name}", to, {new: old for old, new in ENDS.items()})


match sys.argv[1:]:
    case [folder]:
        make(os.path.abspath(folder))
    case [folder, "--back"]:
        take_back(os.path.abspath(folder))
    case _:
        print(__doc__, end="", file=sys.stderr)
        sys.exit(2)
