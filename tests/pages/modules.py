#!/usr/bin/env python3
"""tests/pages/modules.py [--check] [CRATE..]: prints each module of these crates, or of all, with the first sentence of its head (`//!`), which says
what it is. Each module must have a head. --check prints only those that have none. The last line is 'modules: N modules, M without a head', and the
status is 1 unless M is 0.

tests/pages/modules.py --functions [CRATE..]: prints how many functions with a body each of these crates has, or each of all, the fewest first. The
last line is 'modules: N crates, M functions'."""
import glob
import os
import re
import sys

sys.dont_write_bytecode = True
os.chdir(os.path.dirname(os.path.realpath(__file__)) + "/../..")
names = [it for it in sys.argv[1:] if it not in ("--check", "--functions")]
lines = [line.partition("#")[0].partition(":")[0].split() for line in open("crates.txt", encoding="utf-8")]
crates = [words[0] for words in lines if words]
for name in names:
    if name not in crates:
        sys.exit(f"modules: crates.txt has no crate {name}")
if "--functions" in sys.argv:
    sys.path.insert(0, "tests/crates")
    import rust_items

    rows = []
    for crate in names or crates:
        texts = [open(path, encoding="utf-8").read() for path in glob.glob(f"crates/{crate}/src/**/*.rt", recursive=True)]
        items = [it for text in texts for it in rust_items.parse(rust_items.rust_tokens(text))]
        rows.append((sum(it.kind == "fn" and it.head != it.whole for it in items), crate))
    for many, crate in sorted(rows):
        print(f"{many:4} {crate}")
    print(f"modules: {len(rows)} crates, {sum(many for many, _ in rows)} functions")
    sys.exit()
count = lacking = 0
for crate in crates:
    if names and crate not in names:
        continue
    # lib.rt or main.rt is first.
    paths = glob.glob(f"crates/{crate}/src/**/*.rt", recursive=True)
    for path in sorted(paths, key=lambda it: (not it.endswith(("src/lib.rt", "src/main.rt")), it)):
        count += 1
        head = " ".join(it[3:].strip() for it in open(path, encoding="utf-8") if it.startswith("//!"))
        said = re.match(r"(.+?)[.:](?= |$)", head)
        if not said:
            lacking += 1
            print(f"{path}: no head")
        elif "--check" not in sys.argv:
            print(f"{path}: {said[1]}")
print(f"modules: {count} modules, {lacking} without a head")
sys.exit(lacking > 0)
