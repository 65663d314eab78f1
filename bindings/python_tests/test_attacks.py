"""Attacks: classes that lie, damaged pickles, signals, threads, interpreters, leaks. What may end the process runs in one of its own."""

import gc
import pickle
import random
import resource
import signal
import sys
import threading
import unittest
from collections import Counter

from hashbag import BagError, HashBag, NO_LIMIT
from test_defects import alone


class LongList(list):
    def __len__(self):
        return 10**12

    __length_hint__ = __len__


class Untrue(int):
    """Says of itself what isn't so. Its number is the one that it was made of."""

    def __int__(self):
        return -1

    __index__ = __int__

    def __hash__(self):
        return 7

    def __eq__(self, other):
        return True

    def __lt__(self, other):
        return True

    __gt__ = __le__ = __ge__ = __lt__


class Odd(bytes):
    def __len__(self):
        return 10**9

    def __hash__(self):
        return 3

    def __eq__(self, other):
        return isinstance(other, Odd)


def size():
    """The bytes of memory that this process has."""
    with open("/proc/self/statm") as file:
        return int(file.read().split()[1]) * resource.getpagesize()


class Lies(unittest.TestCase):
    def test_lengths(self):
        b = HashBag(LongList("aab"))
        self.assertEqual(b, {"a": 2, "b": 1})
        b.update(LongList("c"))
        b.subtract(LongList("a"))
        self.assertEqual(b, {"a": 1, "b": 1, "c": 1})

        class Lying(dict):
            def __len__(self):
                return 10**12

            def items(self):
                return [("x", 5)]

        self.assertEqual(HashBag(Lying(a=1)), {"x": 5})

    def test_counts_and_keys_of_subclasses(self):
        b = HashBag()
        b.insert("a", Untrue(3))
        self.assertEqual(b["a"], 3)
        b["b"] = Untrue(2)
        b.insert(Untrue(5), True)
        self.assertEqual((b["b"], b[Untrue(9)], b[7], len(b)), (2, 1, 1, 3))
        b = HashBag([Odd(b"a"), Odd(b"b"), b"a"])
        self.assertEqual((len(b), b[Odd(b"")], b[b"a"], b[b"b"]), (2, 2, 1, 0))

    def test_pairs(self):
        b = HashBag()
        for bad in ([("a",)], [("a", 1, 2)], [5], ["abc"], [("a", -1)], [("a", "1")], [([], 1)], 5):
            self.assertRaises((TypeError, ValueError), b._insert_pairs, bad)
            self.assertRaises((TypeError, ValueError), b._remove_pairs, bad)
        self.assertFalse(b)
        b._insert_pairs(iter([["a", 2], ("b", 1), "c"[:0] or ("c", 3)]))
        self.assertEqual(b, {"a": 2, "b": 1, "c": 3})
        for bad in (5, [], "ab", Counter):
            self.assertRaises(TypeError, b._insert_dict, bad)
            self.assertRaises(TypeError, b._merge, bad)

    def test_a_dict_that_changes_meanwhile(self):
        class Key:
            def __init__(self, n):
                self.n = n

            def __hash__(self):
                d["new", len(d)] = 1
                return self.n

        d = {}
        keys = [Key(1), Key(2)]
        d.update(dict.fromkeys(keys, 1))
        with self.assertRaises(RuntimeError):
            HashBag(d)

    def test_an_iterator_that_changes_the_bag(self):
        b = HashBag("abc")

        def items():
            for i in range(1000):
                yield i
                if i % 100 == 50:
                    b.clear()
                if i % 100 == 70:
                    b.update("xyz")

        b.update(items())
        self.assertEqual(b.total(), sum(b.values()))
        self.assertEqual((b[999], b[949], b["x"]), (1, 0, 1))

    def test_a_bag_that_is_its_own_argument(self):
        for keys in ("aab", [(1,), (1,), 2.5]):
            b = HashBag(keys)
            b.update(b)
            self.assertEqual(b.total(), 6)
            b |= b
            b &= b
            self.assertEqual(b.total(), 6)
            b += b
            self.assertEqual((b.total(), b == b, b <= b, b < b), (12, True, True, False))
            b.subtract(b)
            self.assertEqual((len(b), b.total()), (0, 0))


class Damage(unittest.TestCase):
    def test_pickles(self):
        """A damaged pickle gives an error, or a bag that holds together."""
        r = random.Random(3)
        whole = pickle.dumps(HashBag.with_limit(100, {"a": 2, "b": 300 % 7, (1, 2): 5, 7: 1}))
        made = 0
        for _ in range(3000):
            data = bytearray(whole)
            for _ in range(r.randrange(1, 4)):
                data[r.randrange(len(data))] = r.randrange(256)
            try:
                b = pickle.loads(bytes(data[: r.choice((len(data), r.randrange(len(data))))]))
            except Exception:
                continue
            if isinstance(b, HashBag):
                made += 1
                self.assertEqual((b.total(), len(b)), (sum(b.values()), len(list(b))))
        self.assertGreater(made, 20)

    def test_states_that_no_bag_has(self):
        restored = HashBag("a").__reduce__()[0]
        for keys, counts in ((["a"], [-1]), (["a"], ["b"]), ([[]], [1]), (["a", "b"], [NO_LIMIT, 1]), (5, 5)):
            self.assertRaises((TypeError, ValueError), restored, HashBag, NO_LIMIT, keys, counts)
        self.assertRaises(BagError, restored, HashBag, 2, ["a"], [3])
        self.assertEqual(restored(HashBag, 9, ["a", "a"], [1, 2]), {"a": 3})


class Outside(unittest.TestCase):
    @unittest.skipUnless(hasattr(signal, "setitimer"), "setitimer")
    def test_signals(self):
        """A handler that uses the bag, and raises at times, comes in the midst of calls."""
        b, seen, may_raise = HashBag(), [0], [False]

        def handler(*_):
            seen[0] += 1
            b.insert("signal")
            if may_raise[0] and seen[0] % 5 == 0:
                may_raise[0] = False  # not outside of the block below, however late a signal comes
                raise InterruptedError

        old = signal.signal(signal.SIGALRM, handler)
        signal.setitimer(signal.ITIMER_REAL, 0.001, 0.001)
        try:
            while seen[0] < 60:
                try:
                    may_raise[0] = True
                    try:
                        b.update((i % 500, "x") for i in range(5000))
                        list(b.items()), b + b
                        b.subtract((i % 100, "x") for i in range(3000))
                    except RuntimeError:
                        pass
                    may_raise[0] = False
                except InterruptedError:
                    pass
        finally:
            signal.setitimer(signal.ITIMER_REAL, 0)
            signal.signal(signal.SIGALRM, old)
        self.assertEqual(b["signal"], seen[0])
        self.assertEqual(b.total(), sum(b.values()))

    def test_eight_threads(self):
        """Insertions, removals, walks and copies of one bag by eight threads: no insertion is lost."""
        b, errors = HashBag(), []

        class Key:
            def __init__(self, n):
                self.n = n

            def __hash__(self):
                return self.n % 50

            def __eq__(self, other):
                return self.n == other.n

        def work(seed):
            r = random.Random(seed)
            try:
                for i in range(600):
                    b.insert(Key(r.randrange(200)))
                    b.insert(str(r.randrange(100)), 3)
                    b.remove(Key(1000 + seed))
                    if i % 50 == 0:
                        c = b.copy()
                        assert c.total() == sum(c.values())
            except BaseException as e:
                errors.append(e)

        old = sys.getswitchinterval()
        sys.setswitchinterval(1e-6)
        try:
            threads = [threading.Thread(target=work, args=(i,)) for i in range(8)]
            [it.start() for it in threads], [it.join() for it in threads]
        finally:
            sys.setswitchinterval(old)
        self.assertEqual((errors, b.total(), len(b)), ([], 8 * 600 * 4, 300))

    def test_other_interpreters(self):
        """An interpreter beside the first has no hashbag, and says so. In the first it goes on."""
        out = alone("""
try: import _xxsubinterpreters as inter
except ImportError:
    try: import _interpreters as inter
    except ImportError: inter = None
code = "try:\\n    import hashbag\\nexcept ImportError: pass\\nelse: raise SystemError('it was loaded')"
b = HashBag("ab")
if inter is not None:
    for kind in ("legacy", "isolated"):
        try: it = inter.create(kind) if kind == "legacy" else inter.create()
        except (TypeError, ValueError): it = inter.create()
        inter.run_string(it, code)
        inter.destroy(it)
b.update("bc"); print(dict(b))
""")
        self.assertEqual(out, "{'a': 1, 'b': 2, 'c': 1}\n")

    def test_loaded_again(self):
        out = alone("""
import sys
first = HashBag("ab"); old = HashBag
for name in [name for name in sys.modules if name.startswith("hashbag")]: del sys.modules[name]
import hashbag
again = hashbag.HashBag("bc")
assert again is not first and hashbag.HashBag is not old
print(dict(again + first), dict(first + again), first.__class__.__mro__[1] is again.__class__.__mro__[1])
""")
        self.assertEqual(out, "{'b': 2, 'c': 1, 'a': 1} {'a': 1, 'b': 2, 'c': 1} True\n")

    @unittest.skipUnless(sys.platform == "linux", "statm")
    def test_leaks(self):
        """100,000 calls, failures among them, keep no memory."""

        class Key:
            def __init__(self, n):
                self.n = n

            def __hash__(self):
                return self.n % 4

            def __eq__(self, other):
                if self.n == 13:
                    raise LookupError
                return self.n == other.n

        b, c, full = HashBag(range(40)), HashBag({"a": 300, (1, 2): 500}), HashBag.with_limit(1, "a")
        keyed = HashBag([Key(i) for i in range(12)])
        calls = [lambda: b.insert(10**20), lambda: b.take(10**20), lambda: b + c, lambda: b & c, lambda: next(iter(b.items())), lambda: c.popitem()]
        calls += [lambda: c.update({"a": 1000, (1, 2): 500}), lambda: list(c.items()), lambda: c.most_common(), lambda: c == b, lambda: keyed[Key(5)]]
        calls += [lambda: full.insert("b"), lambda: keyed[Key(13)], lambda: b.insert([]), lambda: b.insert("a", -1), lambda: b._insert_pairs([5])]
        calls += [lambda: iter(b), lambda: c.copy().clear(), lambda: pickle.loads(pickle.dumps(c)), lambda: repr(c)]
        calls += [lambda: HashBag(full), lambda: b - b, lambda: c.update(full), lambda: b.subtract(c)]

        def work(times):
            for call in calls:
                for _ in range(times):
                    try:
                        call()
                    except (LookupError, TypeError, ValueError):
                        pass

        work(2000)
        gc.collect()
        before = size()
        work(100_000 // len(calls) + 1)
        gc.collect()
        self.assertLess(size() - before, 1 << 20)


if __name__ == "__main__":
    unittest.main()
