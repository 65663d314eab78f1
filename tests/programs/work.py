#!/usr/bin/env python3
"""tests/programs/work.py RUN: how the work of uses of a bag grows with the number of its values, in the program `hashbag_run`, which is named as it was
built.

The work is the number of instructions, by valgrind. Each use has n values and twice as many, both just above a growth. The work of filling
the bags is subtracted, and a use that needs less than a tenth of it counts as a tenth, as in `bench/growth`. With twice as many values a use
may need 2.5 times the work. So that it is seen that the measure notices more, the last uses are known to grow as the square of n, and must
be above 2.5. The last line is 'work: ok' or says what is wrong. Without valgrind it is 'not tried: ..'.
"""
import os
import re
import shutil
import subprocess
import sys
from concurrent.futures import ThreadPoolExecutor

# Just above three quarters of a power of two.
SIZES = (6145, 12289)
MOST = 2.5
# The least value. With it the first value after a growth has its home in the first half of the newer table.
FIRST = 2
# How many values are left in a bag that has few: one of them is in a slot near the end.
FEW = 8
COUNTED = re.compile(r"I +refs: +([\d,]+)")


def each(n, *forms):
    """Lines of these forms for each of n values; `{v}` is the value, `{w}` one that is absent."""
    return [form.format(v=FIRST + i, w=FIRST + n + i) for i in range(n) for form in forms]


def emptied(n, left=1):
    """A bag that had n values, and has only the greatest `left` of them."""
    return each(n, "a insert {v}") + each(n - left, "a remove {v}")


# Bags by the lines that fill them.
BAGS = {
    "none": lambda n: [],
    "one": lambda n: each(n, "a insert {v}"),
    "emptied": emptied,
    "few": lambda n: emptied(n, FEW),
}

# Each use: its bags and the lines of it.
USES = {
    "rising": ("none", lambda n: each(n, "a insert {v}")),
    "falling": ("none", lambda n: each(n, "a insert {v}")[::-1]),
    "shuffled": ("none", lambda n: [f"a insert {FIRST + i * 7919 % n}" for i in range(n)]),
    "reserve and shrink": ("none", lambda n: each(n, "a reserve 1", "a insert {v}", "a shrink")),
    "found": ("one", lambda n: each(n, "a count {v}")),
    "absent": ("one", lambda n: each(n, "a count {w}")),
    "turns": ("one", lambda n: each(n, "a remove {v}", "a insert {w}")),
    "changed": ("one", lambda n: each(n, "a replace {v}", "a set {v} 2", "a or {v} 1", "a many {v} 2")),
    "taken": ("one", lambda n: each(n, "a upto {v} 0", "a try {v}", "a all {v}")),
    "idle": ("one", lambda n: ["a clear"] + ["a retain", "a clear"] * n),
    "room there": ("one", lambda n: ["a reserve 1", "a shrink", "a limit 99999999"] * n),
    "found in emptied": ("emptied", lambda n: each(n, "a count {v}")),
    "turns in emptied": ("emptied", lambda n: each(n, "a insert {v}", "a remove {v}")),
}

# Uses whose bags are joined at the end, and written as trees. The bags of all others are cleared before that.
JOINS = {
    "joined": ("one", lambda n: each(n, "b insert {v}")[: n // 2] + each(n, "b insert {w}")[n // 2 :]),
    "emptied joined": ("emptied", lambda n: each(n, "b insert {v}")),
}

# Uses that are known to grow as the square of n: a walk over the table at each of n steps, and a line with n pairs.
SQUARES = {
    "n walks over a table": ("few", lambda n: ["a retain" + "".join(f" {FIRST + n - i} 1" for i in range(1, FEW + 1))] * n),
    "n pairs for n values": ("one", lambda n: ["a retain " + " ".join(each(n, "{v} 1"))]),
}


def instructions(program, lines):
    """Returns how many instructions the program needs for these lines."""
    tool = ["valgrind", "--tool=cachegrind", "--cache-sim=no", "--cachegrind-out-file=/dev/null", program]
    ran = subprocess.run(tool, input="".join(f"{it}\n" for it in lines).encode(), capture_output=True)
    found = COUNTED.search(ran.stderr.decode(errors="replace"))
    if ran.returncode or not found:
        raise RuntimeError(f"status {ran.returncode}\n{ran.stderr.decode(errors='replace')}")
    return int(found[1].replace(",", ""))


def measured(program):
    """Returns how many times as much each use needs at the second size."""
    with ThreadPoolExecutor(len(os.sched_getaffinity(0))) as pool:

        def ask(*parts):
            return [pool.submit(instructions, program, [line for it in parts for line in it(n)]) for n in SIZES]

        def clear(_n):
            return ["a clear"]

        bags = {name: ask(lines, clear) for name, lines in BAGS.items()}
        uses = {name: (bag, ask(BAGS[bag], lines, clear)) for name, (bag, lines) in {**USES, **SQUARES}.items()}
        uses |= {name: (bag, ask(BAGS[bag], lines)) for name, (bag, lines) in JOINS.items()}
        none = bags["none"][0].result()
        return {name: times(whole, bags[bag], none) for name, (bag, whole) in uses.items()}


def times(whole, filling, none):
    """Returns how many times as much a use needs, by the work as a whole, that of filling its bags, and that without a bag."""
    one, two = (max(w.result() - f.result(), (f.result() - none) * 0.1) for w, f in zip(whole, filling))
    return two / one


def main():
    if len(sys.argv) != 2:
        print("work: it takes the name of a program")
        return 2
    if not shutil.which("valgrind"):
        print("not tried: there is no valgrind, which counts the instructions")
        return 0
    grown = measured(os.path.realpath(sys.argv[1]))
    print(f"Instructions for {SIZES[1]} values by those for {SIZES[0]}: {', '.join(f'{name} {it:.2f}' for name, it in grown.items())}")
    above = [name for name, it in grown.items() if it > MOST and name not in SQUARES]
    unseen = [name for name in SQUARES if grown[name] <= MOST]
    if above or unseen:
        print(f"work: above {MOST}: {', '.join(above)}" if above else f"work: a square isn't noticed: {', '.join(unseen)}")
        return 1
    print("work: ok")
    return 0


sys.exit(main())
