#!/usr/bin/env python3
"""dask_words.py SCHEDULER OUTPUT FILE.. [-- WORD..]: counts files of text on the workers of a Dask scheduler.

Each block of a file, which ends at a line end, is counted by `hashbag_words WORD..`, and the counts are merged as a tree by
`sort` and `hashbag_words merge --sorted`. A task writes its counts into the folder OUTPUT.parts as a whole or not at all, under a name that its block
decides. So a task that runs again, since its worker was lost or failed, writes the same file again. At the end OUTPUT has all counts, and
the folder is removed.

All workers see the files and the folder of OUTPUT by the same names, and have `hashbag_words` on their PATH, or where HASHBAG_WORDS says.
BLOCK is the bytes of a block, 67108864 by default, and FAN how many files are merged at once, 16 by default."""
import os
import shutil
import subprocess
import sys

from distributed import Client

BLOCK = int(os.environ.get("BLOCK", 1 << 26))
FAN = int(os.environ.get("FAN", 16))
PROGRAM = os.environ.get("HASHBAG_WORDS", "hashbag_words")
RETRIES = 3


def ends_of(file):
    """Returns where the blocks of a file end, each after a line feed or at the end of the file."""
    size, at = os.path.getsize(file), 0
    with open(file, "rb") as text:
        while at < size:
            text.seek(min(at + BLOCK, size) - 1)
            text.readline()
            at = text.tell()
            yield at


def count_block(program, words, file, start, end, output):
    """Counts the lines between two places of a file into `output`."""
    with subprocess.Popen([program, *words, "-o", output], stdin=subprocess.PIPE) as counting, open(file, "rb") as text:
        text.seek(start)
        left = end - start
        while left > 0:
            read = text.read(min(left, 1 << 20))
            if not read:
                break
            counting.stdin.write(read)
            left -= len(read)
        counting.stdin.close()
        if counting.wait() != 0:
            raise RuntimeError(f"{file}:{start}: hashbag_words ended with {counting.returncode}")
    return output


def merge_files(program, files, output):
    """Adds up files of counts into `output`."""
    rows = f"{output}.{os.uname().nodename}.{os.getpid()}"
    subprocess.run(["sort", "-o", rows, "/dev/null", *files], check=True, env={**os.environ, "LC_ALL": "C"})
    subprocess.run([program, "merge", "--sorted", rows, "-o", output], check=True)
    os.remove(rows)
    return output


def main():
    words = sys.argv[1:]
    options = words[words.index("--") + 1 :] if "--" in words else []
    words = words[: words.index("--")] if "--" in words else words
    if len(words) < 3:
        sys.exit(__doc__)
    scheduler, output, files = words[0], os.path.realpath(words[1]), [os.path.realpath(it) for it in words[2:]]
    parts = output + ".parts"
    os.makedirs(parts, exist_ok=True)
    client = Client(scheduler)
    level = []
    for number, file in enumerate(files):
        start = 0
        for end in ends_of(file):
            part = f"{parts}/{number}.{start}"
            level.append(client.submit(count_block, PROGRAM, options, file, start, end, part, retries=RETRIES, pure=False))
            start = end
    depth = 0
    while len(level) > 1:
        depth += 1
        level = [
            client.submit(merge_files, PROGRAM, level[at : at + FAN], f"{parts}/merged.{depth}.{at}", retries=RETRIES, pure=False)
            for at in range(0, len(level), FAN)
        ]
    counts = level[0].result() if level else merge_files(PROGRAM, [], f"{parts}/none")
    os.replace(counts, output)
    client.close()
    shutil.rmtree(parts)


if __name__ == "__main__":
    main()
