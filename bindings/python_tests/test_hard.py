"""What a type of C must stand: code of Python that runs inside of calls, garbage, threads, processes, iteration while it changes."""
import contextlib
import copy
import gc
import operator
import pickle
import random
import sys
import threading
import unittest
import weakref
from collections import Counter

from hashbag import BagError, HashBag

class Sub(HashBag):
    """With a __dict__."""

class Key:
    """A key whose `==` does what it is told, and whose hash is one of few."""
    act = None

    def __init__(self, n):
        self.n = n

    def __hash__(self):
        return self.n % 3

    def __eq__(self, other):
        if Key.act:
            Key.act(self, other)
        return isinstance(other, Key) and self.n == other.n

class Loud(Exception):
    pass


class Cycle:
    """Garbage that only the collector finds, and that then empties a bag."""

    def __init__(self, b):
        self.me, self.b = self, b

    def __del__(self):
        self.b.clear()
        self.b.extra = [("fresh", i) for i in range(50)]


@contextlib.contextmanager
def collecting(b):
    """The collector runs at the first allocation that may call it, and finds a `Cycle`."""
    old = gc.get_threshold()
    gc.disable()
    Cycle(b)
    gc.set_threshold(1, 1, 1)
    gc.enable()
    try:
        yield
    finally:
        gc.set_threshold(*old)


SORTS = [lambda r: r.randrange(30), lambda r: float(r.randrange(30)), lambda r: bool(r.randrange(2)), lambda r: str(r.randrange(30))]
SORTS += [lambda r: str(r.randrange(30)).encode(), lambda r: (r.randrange(5), str(r.randrange(5))), lambda r: frozenset([r.randrange(5)])]
SORTS += [lambda r: None, lambda r: Key(r.randrange(30)), lambda r: complex(r.randrange(30)), lambda r: 2 ** r.randrange(80)]
SORTS += [lambda r: -r.randrange(30), lambda r: type("S", (str,), {})(r.randrange(9)), lambda r: 1e400, lambda r: "\u1234" * r.randrange(4)]

class Hard(unittest.TestCase):

    def tearDown(self):
        Key.act = None

    def test_exception_of_eq(self):
        for many in (1, 3, 40):
            b = HashBag()
            keys = [Key(i) for i in range(many)]
            for k in keys:
                b.insert(k, k.n + 1)
            before = {id(k): n for k, n in b.items()}

            other = HashBag({Key(i): i + 1 for i in range(many)})

            def act(a, o):
                raise Loud
            Key.act = act
            for call in (lambda: b[Key(0)], lambda: Key(0) in b, lambda: b.insert(Key(0)), lambda: b.remove(Key(0)), lambda: b.take(Key(0)),
                lambda: b.get(Key(0)), lambda: operator.setitem(b, Key(0), 9), lambda: operator.delitem(b, Key(0)), lambda: b.update([Key(0)]),
                lambda: b.update({Key(0): 1}), lambda: b.subtract([Key(0)]), lambda: b.pop(Key(0)), lambda: b.setdefault(Key(0), 1),
                lambda: b == other, lambda: b & HashBag([Key(0)])):
                self.assertRaises(Loud, call)
            Key.act = None
            self.assertEqual({id(k): n for k, n in b.items()}, before)
            self.assertEqual(b.total(), sum(before.values()))
            for k in keys:
                self.assertEqual(b[Key(k.n)], k.n + 1)

    def test_exception_of_hash(self):

        class Bad:

            def __hash__(self):
                raise Loud
        b = HashBag('ab')
        for call in (lambda: b[Bad()], lambda: Bad() in b, lambda: b.insert(Bad()), lambda: b.update(['a', Bad()])):
            self.assertRaises(Loud, call)
        self.assertRaises(TypeError, b.insert, [])
        self.assertRaises(TypeError, lambda: [] in b)
        self.assertEqual(b, Counter('aba'))

    def test_eq_that_changes_the_bag(self):
        r = random.Random(5)
        for turn in range(400):
            b = HashBag()
            keys = [Key(i) for i in range(12)]
            for k in keys[:r.randrange(12)]:
                b.insert(k)
            left = [r.randrange(1, 6)]

            def act(a, o):
                if left[0] <= 0:
                    return
                left[0] -= 1
                saved, Key.act = (Key.act, None if r.random() < 0.5 else act)
                x = r.choice(keys)
                r.choice((b.clear, lambda: b.insert(x, 2), lambda: b.remove(x, 5), lambda: b.update(range(200)), lambda: b.take(x),
                    lambda: list(b.items()), lambda: b.update([Key(3)] * 3), b.shrink_to_fit, lambda: gc.collect()))()
                Key.act = saved
            Key.act = act
            for _ in range(6):
                x = Key(r.randrange(12))
                r.choice((lambda: b.insert(x), lambda: b[x], lambda: b.remove(x), lambda: operator.setitem(b, x, r.randrange(4)),
                    lambda: b == HashBag(keys), lambda: b & HashBag(keys), lambda: b.update(HashBag(keys)), lambda: b.subtract(HashBag(keys))))()
            Key.act = None
            pairs = list(b.items())
            self.assertEqual(len(pairs), len(b))
            self.assertEqual(sum((n for _, n in pairs)), b.total())
            self.assertEqual(len({k for k, _ in pairs}), len(pairs))
            for k, n in pairs:
                self.assertEqual(b[k], n)

    def test_del_that_changes_the_bag(self):
        b = HashBag()

        class Dying:

            def __init__(self, n):
                self.n = n

            def __del__(self):
                b.insert(('ghost', self.n))
                b.update(range(50))
                b.remove(7)
                len(list(b))
        for i in range(30):
            b.insert(Dying(i), 2)
        b.clear()
        gc.collect()
        self.assertEqual(sum((1 for k in b if isinstance(k, tuple))), 30)
        x = Dying(1)
        b.insert(x)
        del x
        for k in [k for k in b if isinstance(k, Dying)]:
            b.take(k)
        k = None
        gc.collect()
        self.assertEqual(b.total(), sum((n for _, n in b.items())))
        for k in list(b):
            b[k] = 0
        del k
        b.clear()

    def test_lies(self):
        """`==` and hash of no sense: nothing may be lost but what `==` says."""
        r = random.Random(6)

        class Liar:

            def __init__(self):
                self.h = r.randrange(4)

            def __hash__(self):
                return r.randrange(4) if r.random() < 0.1 else self.h

            def __eq__(self, o):
                return r.random() < 0.3
        for _ in range(60):
            b = HashBag()
            pool = [Liar() for _ in range(20)] + list('abc') + list(range(5))
            for _ in range(200):
                x = r.choice(pool)
                r.choice((lambda: b.insert(x), lambda: b.remove(x), lambda: operator.setitem(b, x, r.randrange(5)), lambda: b[x],
                    lambda: b.copy() == b, lambda: b & HashBag(pool), lambda: b + b))()
                self.assertEqual(b.total(), sum((n for _, n in b.items())))
                self.assertEqual(len(b), len(list(b)))

    def test_numbers(self):
        """`int`, `float` and `bool` are numbers, as in a dict. Keys are compared at the limit of recursion too."""
        nan, large = float("nan"), 10**300
        xs = [1, 1.0, True, 0, False, -0.0, 2**53, 2.0**53, 2**53 + 1, 1e300, large, int(1e300), nan, nan, float("nan"), float("inf")]
        b, c = HashBag(xs), Counter(xs)
        self.assertEqual([(repr(k), n) for k, n in b.items()], [(repr(k), n) for k, n in c.items()])
        same_hash = [2.0**120, 2**120, 2**120 + 2**61 - 1]
        self.assertEqual(dict(HashBag(same_hash)), dict(Counter(same_hash)))
        b = HashBag([10**20, b"BB", 7.25, "ab"])
        number, data, real, text = int("1" + "0" * 20), bytes([66, 66]), float("7.25"), "".join(["a", "b"])
        seen = []

        def deep():
            try:
                deep()
            except RecursionError:
                pass
            seen.append(b[number])
            seen.append(b[data])
            seen.append(b[real])
            seen.append(b[text])

        try:
            deep()
        except RecursionError:
            pass
        self.assertEqual(set(seen), {1})

    def test_error_of_an_iterator(self):
        def items():
            yield "a"
            raise Loud
        b = HashBag()
        for call in (b.update, b._insert_pairs, b.subtract, HashBag):
            self.assertRaises((Loud, ValueError), call, items())
        self.assertEqual(b, {})
        self.assertRaises(Loud, b.update, items())
        self.assertEqual(b, {"a": 1})

    def test_against_counter(self):
        """Random calls on random keys of every sort, beside a Counter."""
        r = random.Random(8)
        for turn in range(300):
            b, c = HashBag(), Counter()
            sorts = SORTS if turn % 2 else SORTS[:1] + SORTS[3:5]
            some = [r.choice(sorts)(r) for _ in range(60)]
            for _ in range(150):
                x = r.choice(some)
                c = self.step(r, b, c, some, x)
                self.assertEqual(b[x], c[x])
                self.assertEqual(x in b, x in c)
            self.are_alike(b, c)
            d = Counter(r.choices(some, k=40))
            self.work_alike(b, c, HashBag(d), d)

    def step(self, r, b, c, some, x):
        """One call on a bag and on a Counter, which is returned without counts of 0."""
        n, what = r.randrange(4), r.randrange(9)
        if what < 3:
            self.assertEqual(b.insert(x, n), c[x])
            c[x] += n
        elif what == 3:
            b[x] = c[x] = n
        elif what == 4:
            self.assertEqual(b.remove(x, n), max(0, c[x] - n))
            c[x] = max(0, c[x] - n)
        elif what == 5:
            self.assertEqual(b.take(x), c.pop(x, 0))
        elif what == 6:
            xs = r.choices(some, k=9)
            b.update(xs)
            c.update(xs)
        elif what == 7:
            d = r.choice((HashBag, Counter, lambda o: dict.fromkeys(o, 2)))(r.choices(some, k=9))
            b.update(d)
            c.update(dict(d.items()))
        else:
            o = Counter(r.choices(some, k=9))
            b.subtract(HashBag(o))
            c = Counter({k: max(0, c[k] - o[k]) for k in c})
        return Counter({k: v for k, v in c.items() if v})

    def are_alike(self, b, c):
        self.assertEqual(list(b.items()), list(c.items()))
        self.assertEqual([type(k) for k in b], [type(k) for k in c])
        self.assertEqual(b, c)
        self.assertEqual(c, b)
        for k in (None, 0, 1, 3, 10):
            self.assertEqual(b.most_common(k), c.most_common(k))
        self.assertEqual(list(b.elements()), list(c.elements()))
        self.assertEqual(Counter(b), c)
        self.assertEqual(dict(b), dict(c))

    def work_alike(self, b, c, e, d):
        """Operators on two bags, as on two Counters with the same counts."""
        for op in (operator.add, operator.sub, operator.and_, operator.or_):
            self.assertEqual(list(op(b, e).items()), list(op(c, d).items()), op)
            self.assertEqual(op(b, d), op(c, d))
            self.assertEqual(op(c, e), op(c, d))
        for op in (operator.le, operator.lt, operator.ge, operator.gt, operator.eq, operator.ne):
            self.assertEqual(op(b, e), op(c, d), op)
        for again in (b.copy(), copy.copy(b), copy.deepcopy(b), HashBag(b), HashBag(dict(b)), HashBag(b.elements())):
            self.assertEqual(again, b)
            self.assertEqual(again.total(), b.total())

    def test_garbage(self):
        b = Sub()
        b.me = b
        w = weakref.ref(b)
        b.insert(('x',))
        del b
        gc.collect()
        self.assertIsNone(w())

        class Node:
            pass
        n = Node()
        n.bag = HashBag([n])
        w = weakref.ref(n)
        del n
        gc.collect()
        self.assertIsNone(w())
        n = Node()
        b = HashBag([n])
        n.it = iter(b)
        w = weakref.ref(n)
        del n, b
        gc.collect()
        self.assertIsNone(w())

    def test_collector_that_changes_the_bag(self):
        """The collector runs in allocations of the call itself, and finds garbage whose __del__ empties the bag."""
        calls = [lambda b: b.most_common(), lambda b: b.most_common(5), lambda b: list(b.items()), repr]
        calls += [lambda b: b + b, lambda b: b == b.copy(), lambda b: list(b.elements()), lambda b: b & b, pickle.dumps, lambda b: b.popitem()]
        for call in calls:
            for _ in range(20):
                b = Sub()
                for i in range(60):
                    b.insert((i, "x"), 2)
                with collecting(b):
                    try:
                        out = call(b)
                    except (RuntimeError, KeyError) as e:
                        self.assertRegex(str(e), "changed during|is empty")
                        out = ()
                repr(out)

    def test_collector_that_changes_the_bag_between_steps(self):
        class Freed:
            def __del__(self):
                self.dead = True

        hold = [(i, i) for i in range(5000)]  # none is left on the interpreter's list of free pairs
        b = Sub()
        b.update(Freed() for _ in range(60))
        for k in b:
            b[k] = 1000
        k, it, got = None, iter(b.items()), []
        with collecting(b):
            try:
                while True:
                    got.append(next(it))
            except RuntimeError:
                pass
        for key, n in got:
            self.assertEqual((type(key), n, hasattr(key, "dead"), len(hold)), (Freed, 1000, False, 5000))

    def test_references(self):
        """No reference is lost or kept."""
        kinds = (lambda i: object(), lambda i: f"w{i}", lambda i: 10**20 + i, lambda i: (i,), lambda i: b"%d" % i)
        xs = [make(i) for make in kinds for i in range(300)]
        before = [sys.getrefcount(x) for x in xs]
        for _ in range(5):
            self.all_calls(xs)
            gc.collect()
            self.assertTrue([sys.getrefcount(x) for x in xs] == before)

    def all_calls(self, xs):
        b, c = HashBag(xs * 3), HashBag(xs[::2])
        b.insert(xs[0])
        b[xs[1]], b[xs[2]] = 0, 9
        b.remove(xs[3], 9), b.take(xs[4]), b.pop(xs[5]), b.popitem(), b.get(xs[6], xs[7]), b.setdefault(xs[4], 3)
        d = [b + c, b & c, b | c, b - c][0].copy()
        d.clear()
        d.update(b)
        d.update(dict(b))
        d.update(list(b))
        d.subtract(c)
        d.subtract(dict(c))
        list(d.items()), d.most_common(3), d.most_common(), list(d.elements()), next(iter(d)), repr(d), d == c, d <= c, list(reversed(d.items()))
        pickle.loads(pickle.dumps(HashBag(xs[300:])))
        d.limit = d.total()
        for f in (lambda: d.insert(object()), lambda: d.update(["new"]), lambda: d.update(HashBag(["new"]))):
            self.assertRaises(BagError, f)
        b += c
        b -= c
        b |= c
        b &= c
        d = Sub(b)
        d.x = d

    def test_threads(self):
        sys.setswitchinterval(1e-06)
        b = HashBag()
        errors = []

        class K:

            def __init__(self, n):
                self.n = n

            def __hash__(self):
                return hash(self.n)

            def __eq__(self, o):
                return self.n == o.n

        def work(seed):
            r = random.Random(seed)
            try:
                for _ in range(3000):
                    b.insert(K(r.randrange(100)))
                    b.insert(str(r.randrange(100)))
            except BaseException as e:
                errors.append(e)
        ts = [threading.Thread(target=work, args=(i,)) for i in range(4)]
        [t.start() for t in ts]
        [t.join() for t in ts]
        sys.setswitchinterval(0.005)
        self.assertEqual(errors, [])
        self.assertEqual(b.total(), 24000)
        self.assertEqual(len(b), 200)
if __name__ == '__main__':
    unittest.main()
