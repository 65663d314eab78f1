"""rows.py [ROUNDS] [TEXT]: processor time of HashBag divided by that of Counter, in turns in one process, a row each; of rows whose name has the
text.

Of each row: the medians of both in ms, the median ratio, the least and the greatest ratio of ROUNDS, 7 if none is said. `bytes` counts memory: the
growth of a process for each distinct key, by a process for each figure. 1,000,000 words of 50,000, each a fresh `str`; the same as numbers; 200,000
pairs."""

import gc
import operator
import pickle
import random
import statistics
import subprocess
import sys
import time
from collections import Counter

from hashbag import HashBag

WORDS, DISTINCT = 1_000_000, 50_000
rows, made, data = [], {}, {}


def row(name, run, again=1):
    rows.append((name, run, again))


def of(kind, of_type):
    """The bag or the Counter of a list of items, made once."""
    if (kind, of_type) not in made:
        made[kind, of_type] = of_type(data[kind])
    return made[kind, of_type]


def one_by_one(of_type, xs):
    b = of_type()
    if of_type is HashBag:
        insert = b.insert
        for x in xs:
            insert(x)
    else:
        for x in xs:
            b[x] += 1


def plus(of_type, xs):
    b = of_type()
    for x in xs:
        b[x] += 1


def update(of_type, xs):
    of_type().update(xs)


def look_up(b, xs):
    for x in xs:
        b[x]


def has(b, xs):
    for x in xs:
        x in b


def walk(it):
    for _ in it:
        pass


def walk_pairs(b):
    for _key, _n in b.items():
        pass


def drain(b):
    while b:
        b.popitem()


def firsts(b):
    for _ in range(10_000):
        next(iter(b))


def lasts(b):
    for _ in range(10_000):
        next(reversed(b.items()))


def rows_of_words(kind, half):
    xs = data[kind]
    row(f"{kind}: insert(x), c[x] += 1", lambda t: one_by_one(t, xs))
    row(f"{kind}: b[x] += 1", lambda t: plus(t, xs))
    row(f"{kind}: HashBag(xs)", lambda t: t(xs))
    row(f"{kind}: update(xs)", lambda t: update(t, xs))
    row(f"{kind}: b[x]", lambda t: look_up(of(kind, t), xs))
    row(f"{kind}: x in b", lambda t: has(of(kind, t), xs))
    row(f"{kind}: for k in b", lambda t: walk(of(kind, t)), 5)
    row(f"{kind}: for n in b.values()", lambda t: walk(of(kind, t).values()), 5)
    row(f"{kind}: for k, n in b.items()", lambda t: walk_pairs(of(kind, t)), 5)
    row(f"{kind}: list(b.items())", lambda t: list(of(kind, t).items()))
    row(f"{kind}: most_common(10)", lambda t: of(kind, t).most_common(10))
    row(f"{kind}: most_common()", lambda t: of(kind, t).most_common())
    for sign, op in {"+": operator.add, "&": operator.and_, "|": operator.or_, "-": operator.sub}.items():
        row(f"{kind}: a {sign} b", lambda t, op=op: op(of(kind, t), of(half, t)))
    row(f"{kind}: a == b", lambda t: of(kind, t) == of(kind, t).copy())
    row(f"{kind}: a.update(b)", lambda t: of(half, t).copy().update(of(kind, t)))
    row(f"{kind}: HashBag(a dict)", lambda t: t(of(kind, as_dict)))
    row(f"{kind}: dumps, loads", lambda t: pickle.loads(pickle.dumps(of(kind, t))))
    row(f"{kind}: copy(), and its end", lambda t: of(kind, t).copy())
    row(f"{kind}: copy, and popitem of all", lambda t: drain(of(kind, t).copy()))
    row(f"{kind}: next(iter(b))", lambda t: firsts(of(kind, t)))
    row(f"{kind}: next(reversed(b.items()))", lambda t: lasts(of(kind, t)))


def as_dict(xs):
    return dict(Counter(xs))


def rows_of_others(r):
    for n in (1_000, 50_000, 500_000):
        kind = f"{n:,} words"
        data[kind] = [f"w{i}" for i in range(n)]
        row(f"copy() of {kind}, and its end", lambda t, kind=kind: of(kind, t).copy(), 50_000 // n or 1)
    pairs = data["pairs"]
    row("pairs: HashBag(xs)", lambda t: t(pairs))
    row("pairs: b[x]", lambda t: look_up(of("pairs", t), pairs))
    row("pairs: b[x] += 1", lambda t: plus(t, pairs))
    row("pairs: a + b", lambda t: of("pairs", t) + of("pairs", t))
    some = range(100_000)
    distinct = {"i": list(some), "i * 7919": [i * 7919 for i in some], "-i": [-i for i in some], "i << 32": [i << 32 for i in some]}
    distinct |= {"shuffled": r.sample(some, len(some)), "floats": [i + 0.5 for i in some], "words": [f"w{i}" for i in some]}
    distinct |= {"bytes": [b"%d" % i for i in some], "pairs": [(i, -i) for i in some]}
    for name, xs in distinct.items():
        row(f"all distinct, {name}: HashBag(xs)", lambda t, xs=xs: t(xs))
    row("small: HashBag of 4, b[x], list(b)", lambda t: [(b := t("abac"))["a"] and list(b) for _ in range(20_000)])
    text = "\n".join(data["words"]).encode()
    row("bytes: update_split(text, b'\\n'), c.update(text.split(b'\\n'))", lambda t: split(t, text))


def split(of_type, text):
    b = of_type()
    if of_type is HashBag and hasattr(b, "update_split"):
        b.update_split(text, b"\n")
    else:
        b.update(text.split(b"\n"))


def make_data():
    r = random.Random(7)
    vocabulary = [f"word{r.randrange(10**9)}" for _ in range(DISTINCT)]
    ranks = [int(DISTINCT * r.random() ** 3) for _ in range(WORDS)]  # some words are common
    data["words"] = " ".join(vocabulary[i] for i in ranks).split()
    data["ints"] = [i * 7919 for i in ranks]
    data["half the words"], data["half the ints"] = data["words"][:300_000], data["ints"][:300_000]
    data["pairs"] = [(i % 1000, vocabulary[i]) for i in ranks[:200_000]]
    rows_of_words("words", "half the words")
    rows_of_words("ints", "half the ints")
    rows_of_others(r)


def time_rows(rounds, text):
    print(f"{'':52} {'ours, ms':>9} {'Counter':>9} {'ratio':>7}   least..most of {rounds}")
    for name, run, again in rows:
        if text not in name:
            continue
        times = {HashBag: [], Counter: []}
        for of_type in times:
            run(of_type)
        for _ in range(rounds):
            for of_type, out in times.items():
                gc.collect()
                gc.disable()
                began = time.process_time()
                for _ in range(again):
                    run(of_type)
                out.append(time.process_time() - began)
                gc.enable()
        ratios = [x / max(y, 1e-9) for x, y in zip(*times.values())]
        ours, theirs = (statistics.median(it) * 1e3 for it in times.values())
        print(f"{name:52} {ours:9.2f} {theirs:9.2f} {statistics.median(ratios):7.2f}   {min(ratios):.2f}..{max(ratios):.2f}", flush=True)


def bytes_of(of_type, n, many):
    """The growth of this process for each of n distinct words, with counts of 1 or above 256."""

    def size():
        with open("/proc/self/statm") as file:
            return int(file.read().split()[1]) * 4096

    words = [f"word{i}" for i in range(n)]
    gc.collect()
    gc.disable()
    before = size()
    b = of_type(words)
    if many:
        for i, word in enumerate(words):
            b[word] = 300 + i % 1000
    return (size() - before) / n


def show_bytes():
    print(f"{'bytes of a distinct word':52} {'ours':>9} {'Counter':>9} {'ratio':>7}")
    for n in (50_000, 98_304, 1_000_000):
        for many in (0, 1):
            args = [[sys.executable, __file__, "--bytes", it, str(n), str(many)] for it in ("HashBag", "Counter")]
            ours, theirs = (float(subprocess.run(it, capture_output=True, text=True, check=True).stdout) for it in args)
            name = f"{n:,} words, counts {'above 256' if many else 'of 1'}"
            print(f"{name:52} {ours:9.1f} {theirs:9.1f} {ours / theirs:7.2f}")


def main(words):
    if words[:1] == ["--bytes"]:
        print(bytes_of({"HashBag": HashBag, "Counter": Counter}[words[1]], int(words[2]), int(words[3])))
        return
    rounds = int(words[0]) if words else 7
    text = words[1] if len(words) > 1 else ""
    print(f"Python {sys.version.split()[0]}")
    if text in "bytes of a distinct word":
        show_bytes()
    make_data()
    time_rows(rounds, text)


if __name__ == "__main__":
    main(sys.argv[1:])
