"""What the sources of the module keep to: at most 2,000 lines of Rust, files under 500 lines, functions under 40, lines of 150 characters; a comment
SAFETY for each block of `unsafe`; references are counted in refs.rs alone. The last line is 'sources: N lines in M files'."""

import pathlib
import re
import sys

SOURCES = sorted(pathlib.Path(__file__).resolve().parents[1].joinpath("python", "src").glob("*.rs"))
MOST_LINES, MOST_OF_FILE, MOST_OF_FUNCTION, WIDEST = 2000, 500, 40, 150


def long_functions(lines):
    """The names of functions that are too long. A function ends at a brace that is indented as its head is."""
    for at, line in enumerate(lines):
        head = re.match(r"( *)(?:pub(?:\(\w+\))? )?(?:const )?(?:unsafe )?(?:extern \"C\" )?fn (\w+).*\{$", line)
        if head:
            end = next((i for i in range(at, len(lines)) if lines[i].startswith(head[1] + "}")), at)
            if end - at + 1 >= MOST_OF_FUNCTION:
                yield head[2]


def unsaid(lines):
    """The lines with an `unsafe` block or impl that has no comment SAFETY above it, or above the statement that it is in."""
    for at, line in enumerate(lines):
        code = line.split("//")[0]
        if re.search(r"\bunsafe (\{|impl)", code) and not re.match(r"\s*unsafe extern", code):
            above = "\n".join(lines[max(0, at - 6) : at])
            if "// SAFETY:" not in above and "// SAFETY:" not in line:
                yield f"{at + 1}: {line.strip()}"


def main():
    faults, total = [], 0
    for path in SOURCES:
        lines = path.read_text().split("\n")[:-1]
        total += len(lines)
        faults += [f"{path.name} has {len(lines)} lines"] * (len(lines) >= MOST_OF_FILE)
        faults += [f"{path.name}: {name} is too long" for name in long_functions(lines)]
        faults += [f"{path.name}: no SAFETY: {it}" for it in unsaid(lines)]
        faults += [f"{path.name}:{at + 1} is too wide" for at, line in enumerate(lines) if len(line) > WIDEST]
        if path.name not in ("refs.rs", "ffi.rs"):
            faults += [f"{path.name} counts references: {it}" for it in re.findall(r"Py_IncRef|Py_DecRef|refcnt", "\n".join(lines))]
    faults += [f"{total} lines of Rust are more than {MOST_LINES}"] * (total > MOST_LINES)
    print(*faults, sep="\n", end="\n" * bool(faults))
    print(f"sources: {total} lines in {len(SOURCES)} files")
    return 1 if faults or not total else 0


if __name__ == "__main__":
    sys.exit(main())
