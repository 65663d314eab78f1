#!/usr/bin/env python3
"""tests/crates/try_alone.py WORD..: `rt try WORD..` without the check that `rt` starts besides, which proves nothing.

That check, `rattle check --start 'no function'`, looks for names that Rattle keeps for itself, and takes a third to nine tenths of what the try
itself takes. Here it runs only after a try that ended with another status than 0, and what it finds is printed then, as `rt try` prints it.
If `rt try` of this kit starts no such check, a line says so, and `rt try` runs as it is."""
import importlib.machinery
import importlib.util
import inspect
import os
import re
import shutil
import subprocess
import sys
import types

sys.dont_write_bytecode = True
# How the check begins, which no function has the name for, and all that `rt try` reads of what it says: text of the kit's `try_unproved`.
START = ["--start", "no function"]
KNOWN = ['"--start", "no function"', r'for it in re.findall(r".*error\[reserved-name].*", refused)']
left_out = []


def popen(words, *given, **how):
    """Starts a process, but in the place of that check one that does nothing."""
    if START in ([*words[at : at + 2]] for at in range(len(words))):
        left_out.append(words)
        words = ["true"]
    return subprocess.Popen(words, *given, **how)


def rt_of_kit():
    """Returns the kit's command as a module that leaves out the check, or None if it isn't as known here."""
    try:
        loader = importlib.machinery.SourceFileLoader("rt_of_kit", os.path.realpath(shutil.which("rt")))
        rt = importlib.util.module_from_spec(importlib.util.spec_from_loader("rt_of_kit", loader))
        loader.exec_module(rt)
        source = inspect.getsource(rt.rtlib.Crate.try_unproved)
        rt.rtlib.subprocess = types.SimpleNamespace(**{**vars(subprocess), "Popen": popen})
        return rt if callable(rt.main) and all(it in source for it in KNOWN) else None
    except Exception:  # whatever is other than it was
        return None


def hints():
    """Prints what the check finds that was left out."""
    for words in left_out:
        try:
            ran = subprocess.run(words, stdin=subprocess.DEVNULL, stdout=subprocess.DEVNULL, stderr=subprocess.PIPE, errors="replace", timeout=120)
        except subprocess.TimeoutExpired:
            continue
        for it in re.findall(r".*error\[reserved-name].*", ran.stderr):
            print(f"rt: a check will refuse this: {it}", file=sys.stderr)


rt = rt_of_kit()
if not rt:
    print("try_alone: this kit's rt try isn't the one that is known here, so it runs as it is", file=sys.stderr, flush=True)
    os.execvp("rt", ["rt", "try", *sys.argv[1:]])
status = rt.main(["try", *sys.argv[1:]])
if status:
    hints()
sys.exit(status)
