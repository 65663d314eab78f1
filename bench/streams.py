#!/usr/bin/env python3
"""bench/streams.py PROGRAM [MEGABYTES [MEMORY [NAME]]]: makes the table of docs/use/WORDS.md, "More than fits in memory": what counting takes that goes
through `sort`, beside `hashbag_words` in memory, in user and system seconds of all processes together, and the most memory of one of them.

PROGRAM is `hashbag_words`, as it was built. The text has MEGABYTES of distinct random lines of 22 hexadecimal digits, 200 by default; `sort` gets
MEMORY, 256M by default, which may have further options of it. With NAME only the line of that name is measured. Each line is measured once, by
/usr/bin/time, that of GNU. The files are in a folder of TMPDIR, of four times the size of the text, which is removed. The figure of 2 GB in
docs/build/PERFORMANCE.md, for which no program is needed: bench/streams.py - 2000 '256M --parallel=1' 'sort, uniq -c'"""
import os
import random
import subprocess
import sys
import tempfile

SORT = "sort -S {memory} -T . | uniq -c | "
SED = SORT + r"sed -E 's/^ *([0-9]+) (.*)$/\2\t\1/'"
AWK = SORT + r"""awk '{{ n = $1; sub(/^ *[0-9]+ /, ""); print $0 "\t" n }}'"""
LINES = (
    ("in memory", "{program} --by lines text > counts"),
    ("tokens, sort, uniq -c, sed", "{program} tokens --by lines text | " + SED + " > sums"),
    ("tokens, sort, uniq -c, awk", "{program} tokens --by lines text | " + AWK + " > awk; cmp awk sums"),
    ("sort, uniq -c", "sort -S {memory} -T . text | uniq -c > counts"),
    ("two halves, by awk", "for half in half.?; do {program} tokens --by lines $half | " + AWK + " > $half.tsv; done"),
    ("sort -m, merge --sorted", "sort -m half.?.tsv | {program} merge --sorted > merged"),
    ("merge, in memory", "{program} merge half.?.tsv > counts"),
)


def taken(line):
    """Returns the seconds of a line of shell, and the most memory of a process in MB. What Python itself starts would count with Python's 14 MB."""
    with tempfile.NamedTemporaryFile("r") as took:
        subprocess.run(["/usr/bin/time", "-o", took.name, "-f", "%U %S %M", "bash", "-c", "set -e -o pipefail; " + line], check=True)
        user, system, memory = took.read().split()
    return float(user) + float(system), int(memory) / 1000


def main():
    program = os.path.realpath(sys.argv[1])
    size = int(sys.argv[2]) if len(sys.argv) > 2 else 200
    memory = sys.argv[3] if len(sys.argv) > 3 else "256M"
    wanted = sys.argv[4:] or [name for name, _ in LINES]
    os.environ["LC_ALL"] = "C"
    numbers = random.Random(7)
    with tempfile.TemporaryDirectory() as folder:
        os.chdir(folder)
        with open("text", "w") as text:
            for _ in range(size * 1000000 // 23):
                text.write(f"{numbers.getrandbits(88):022x}\n")
        subprocess.run(["split", "-n", "l/2", "text", "half.", "-a", "1"], check=True)
        for name, line in LINES:
            if name not in wanted:
                continue
            seconds, most = taken(line.format(program=program, memory=memory))
            print(f"{name}: {seconds:.1f} s, {most:.0f} MB", flush=True)
        if len(wanted) == len(LINES):
            subprocess.run(["cmp", "sums", "merged"], check=True)


if __name__ == "__main__":
    main()
