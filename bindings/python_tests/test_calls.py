"""What calls do, apart from `Counter`: limits, counts, pickles and pools, the bag as a mapping, walks over what changes."""

import json
import multiprocessing
import operator
import pickle
import unittest
from collections import Counter
from collections.abc import Mapping, MutableMapping

from hashbag import NO_LIMIT, BagError, HashBag
from test_hard import Sub


class Calls(unittest.TestCase):
    def test_iteration_while_it_changes(self):
        b = HashBag('abc')
        with self.assertRaises(RuntimeError):
            for k in b:
                b.insert(k + 'x')
        b = HashBag('abc')
        with self.assertRaises(RuntimeError):
            for k in b:
                b.take(k)
        b = HashBag('abc')
        for k in b:
            b[k] += 1
        self.assertEqual(b.total(), 6)
        it = iter(b)
        b.clear()
        self.assertRaises(RuntimeError, next, it)
        it = b.elements()
        del b
        self.assertEqual(list(it), [])

    def test_limit(self):
        b = HashBag.with_limit(3, 'ab')
        b.insert('c')
        self.assertRaises(BagError, b.insert, 'd')
        self.assertRaises(BagError, b.update, 'xyz')
        self.assertRaises(BagError, b.update, HashBag('x'))
        self.assertRaises(BagError, operator.setitem, b, 'a', 2)
        self.assertRaises(BagError, setattr, b, 'limit', 2)
        self.assertRaises(BagError, lambda: b + HashBag('x'))
        self.assertEqual(b, Counter('abc'))
        self.assertEqual(b.limit, 3)
        self.assertEqual(b.copy().limit, 3)
        self.assertEqual(pickle.loads(pickle.dumps(b)).limit, 3)
        c = HashBag()
        self.assertEqual(c.limit, NO_LIMIT)
        c.insert('a', NO_LIMIT)
        self.assertRaises(BagError, c.insert, 'b')
        self.assertEqual(c['a'], NO_LIMIT)

    def test_counts(self):
        b = HashBag()
        for bad in (-1, 2 ** 64, -2 ** 70):
            self.assertRaises(ValueError, b.insert, 'a', bad)
        for bad in (1.0, '1', None):
            self.assertRaises(TypeError, b.insert, 'a', bad)

        class Index:

            def __index__(self):
                b.insert('z')
                return 5
        b.insert('a', Index())
        b['b'] = Index()
        b.insert('c', True)
        self.assertEqual(b, Counter(a=5, b=5, c=1, z=2))
        try:
            import numpy as np
        except ImportError:
            pass
        else:
            b.insert('n', np.uint8(7))
            b['m'] = np.int64(3)
            b.update(np.array([1, 2, 2]))
            self.assertEqual((b['n'], b['m'], b[2]), (7, 3, 2))
            print('numpy', np.__version__)

    def test_pickle_pool_copy(self):
        s = Sub({'a': 2, 3: 1, (1, 2): 4})
        s.note = 'x'
        for p in range(pickle.HIGHEST_PROTOCOL + 1):
            t = pickle.loads(pickle.dumps(s, p))
            self.assertEqual((t, t.note, type(t), list(t)), (s, 'x', Sub, list(s)))
        with multiprocessing.get_context('fork').Pool(2) as pool:
            parts = pool.map(HashBag, ['abca', 'bcd', 'zz'])
        self.assertEqual(sum(parts, HashBag()), Counter('abcabcdzz'))
        with multiprocessing.get_context('spawn').Pool(1) as pool:
            self.assertEqual(pool.map(HashBag, ['abca']), [Counter('abca')])

    def test_mapping(self):
        b = HashBag('aab')
        self.assertIsInstance(b, Mapping)
        self.assertIsInstance(b, MutableMapping)
        self.assertEqual({**b}, {'a': 2, 'b': 1})
        match b:
            case {'a': 2, 'b': n}:
                self.assertEqual(n, 1)
            case _:
                self.fail()
        self.assertEqual(json.dumps(dict(b)), '{"a": 2, "b": 1}')
        self.assertRaises(TypeError, json.dumps, b)
        self.assertIn(('a', 2), b.items())
        self.assertEqual(b.keys() & {'a', 'z'}, {'a'})
        self.assertEqual(sorted(b.values()), [1, 2])
        self.assertEqual(list(reversed(b.items())), [('b', 1), ('a', 2)])
        self.assertEqual('%(a)s' % b, '2')
        self.assertEqual((lambda **k: k)(**b), {'a': 2, 'b': 1})
        self.assertEqual('{a}'.format_map(b), '2')
        x = HashBag([b.__class__])
        x.insert('me')
        y = Sub()
        y.me = y
        repr(y)


if __name__ == "__main__":
    unittest.main()
