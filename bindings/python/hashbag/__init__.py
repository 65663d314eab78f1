"""A counted multiset of any hashable objects: `HashBag`, with the calls of `collections.Counter`, and counts that are never below 0.

    >>> from hashbag import HashBag
    >>> words = HashBag("the cat and the hat".split())
    >>> words["the"], words["dog"], len(words), words.total()
    (2, 0, 4, 5)
    >>> words.most_common(1)
    [('the', 2)]

If an allocation fails, a call raises `MemoryError`. Calls for one key, operators, and `update`, `+=`, `|=`, `&=` with another bag then leave the
bag as it was; `update` and `subtract` with anything else keep what they did so far. `clear`, and the end of a bag, allocate nothing.
"""

from __future__ import annotations

from collections import Counter
from collections.abc import ItemsView, KeysView, Mapping, MutableMapping, ValuesView
from itertools import chain, repeat, starmap
from operator import index as _index
from types import GenericAlias, MappingProxyType
from typing import Any

from ._hashbag import Bag as _Bag
from ._hashbag import BagError

__all__ = ["BagError", "HashBag", "NO_LIMIT"]

#: The limit of a bag for which none is set.
NO_LIMIT = 2**64 - 1
_absent: Any = object()

# What `_walk` gives: keys, counts or pairs, and with 4 more from the last to the first.
_KEYS, _COUNTS, _PAIRS, _BACK = 0, 1, 2, 4


class _Keys(KeysView):
    __slots__ = ()
    _kind = _KEYS

    def __iter__(self):
        return self._mapping._walk(self._kind)

    def __reversed__(self):
        return self._mapping._walk(self._kind + _BACK)

    @property
    def mapping(self):
        return MappingProxyType(self._mapping)


class _Values(ValuesView):
    __slots__ = ()
    _kind = _COUNTS
    __iter__, __reversed__, mapping = _Keys.__iter__, _Keys.__reversed__, _Keys.mapping

    def __contains__(self, n):
        return any(m is n or m == n for m in self)


class _Items(ItemsView):
    __slots__ = ()
    _kind = _PAIRS
    __iter__, __reversed__, mapping = _Keys.__iter__, _Keys.__reversed__, _Keys.mapping

    def __contains__(self, item):
        if not isinstance(item, tuple) or len(item) != 2:
            return False
        n = self._mapping.get(item[0], 0)
        return n > 0 and n == item[1]


class HashBag(_Bag):
    """A mapping from hashable objects to how often each occurs. A key that is absent counts 0, and a count of 0 removes its key.

    `items` is an iterable of keys, each inserted once, or a mapping from keys to counts. Keyword arguments are counts too.
    Keys are listed in the order of their first insertion.

        >>> bag = HashBag("abca")
        >>> bag["b"] += 2
        >>> bag
        HashBag({'b': 3, 'a': 2, 'c': 1})
        >>> bag.insert("c"), bag.remove("a", 5), bag.take("b"), list(bag.items())
        (1, 0, 3, [('c', 2)])
    """

    __slots__ = ("__weakref__",)
    __hash__ = None  # type: ignore[assignment]
    __class_getitem__ = classmethod(GenericAlias)

    def __init__(self, items=None, /, **counts):
        if items is not None:
            self.update(items)
        if counts:
            self.update(counts)

    @classmethod
    def with_limit(cls, limit, items=None, /):
        """Returns a bag whose total is never above the limit.

        >>> few = HashBag.with_limit(3, "ab")
        >>> few.insert("c", 2)
        Traceback (most recent call last):
            ...
        hashbag.BagError: the total would pass the limit
        """
        made = cls()
        made.limit = limit
        made.update(items)
        return made

    @classmethod
    def fromkeys(cls, keys, value=None):
        """Isn't defined, as with Counter."""
        raise NotImplementedError("HashBag.fromkeys() is undefined. Use HashBag(keys) instead.")

    #: The greatest total that the bag may have.
    limit = property(_Bag._limit, _Bag._set_limit, doc="The greatest total that the bag may have.")

    # ---- many at once

    def update(self, items=None, /, **counts):
        """Inserts each key of an iterable once, or each of a mapping as often as it says.

        >>> bag = HashBag("ab")
        >>> bag.update("bc")
        >>> bag.update({"a": 3}, c=1)
        >>> dict(bag)
        {'a': 4, 'b': 2, 'c': 2}
        """
        if items is not None:
            if _is_bag(items):
                self._merge(items)
            elif type(items) is dict or type(items) is Counter:
                self._insert_dict(items)
            elif isinstance(items, Mapping):
                self._insert_pairs(items.items())
            else:
                self._insert_each(items)
        if counts:
            self._insert_dict(counts)

    def update_split(self, data, separator, /):
        """Inserts each piece of some bytes once: `update(data.split(separator))`, for a separator of one byte, without a list of the pieces.

        >>> bag = HashBag()
        >>> bag.update_split(b"a,b,,a", b",")
        >>> dict(bag)
        {b'a': 2, b'b': 1, b'': 1}
        """
        if len(separator) != 1:
            raise ValueError("a separator is one byte")
        self._insert_split(bytes(data), separator[0])

    def subtract(self, items=None, /, **counts):
        """Removes each key of an iterable once, or each of a mapping as often as it says. No count gets below 0.

        >>> bag = HashBag("aaab")
        >>> bag.subtract("abb")
        >>> dict(bag)
        {'a': 2}
        """
        if items is not None:
            if _is_bag(items):
                self._less(items)
            elif isinstance(items, Mapping):
                self._remove_pairs(items.items())
            else:
                self._remove_each(items)
        if counts:
            self._remove_pairs(counts.items())

    # ---- the mapping

    def items(self):
        """A view of the keys with their counts."""
        return _Items(self)

    def keys(self):
        """A view of the keys."""
        return _Keys(self)

    def values(self):
        """A view of the counts."""
        return _Values(self)

    def __reversed__(self):
        """Gives the keys, the last first."""
        return self._walk(_KEYS + _BACK)

    def elements(self):
        """Returns an iterator that gives each key as often as it occurs.

        >>> list(HashBag("abca").elements())
        ['a', 'a', 'b', 'c']
        """
        return chain.from_iterable(starmap(repeat, self.items()))

    def __missing__(self, key):
        return 0

    def pop(self, key, default=_absent, /):
        """Removes a key and returns its count, or the default, or raises KeyError if there is none.

        >>> HashBag("aab").pop("a")
        2
        """
        n = self.take(key)
        if n == 0:
            if default is _absent:
                raise KeyError(key)
            return default
        return n

    def setdefault(self, key, default=0, /):
        """Returns the count of a key. If it is absent, it is first set to the default."""
        n = self[key]
        if n == 0:
            self[key] = n = default
        return n

    def most_common(self, n=None):
        """Returns the n most common keys with their counts, or all. Keys with equal counts are in the order of their insertion.

        >>> HashBag("abracadabra").most_common(2)
        [('a', 5), ('b', 2)]
        """
        return self._most(len(self) if n is None else min(max(_index(n), 0), len(self)))

    def copy(self):
        """Returns a bag of the same class with the same counts and limit."""
        made = self.__class__(self)
        made.limit = self.limit
        return made

    __copy__ = copy

    def __deepcopy__(self, memo):
        from copy import deepcopy

        made = self.__class__()
        memo[id(self)] = made
        made.limit = self.limit
        for key, n in list(self.items()):
            made.insert(deepcopy(key, memo), n)
        return made

    def __reduce__(self):
        state = getattr(self, "__dict__", None) or None
        check = iter(self)
        keys, counts = list(self), list(self.values())
        next(check, None)  # raises RuntimeError if the keys changed meanwhile
        return _restored, (self.__class__, self.limit, keys, counts), state

    def __repr__(self):
        name = self.__class__.__name__
        if not self:
            return f"{name}()"
        try:
            return f"{name}({dict(self.most_common())!r})"
        except RecursionError:
            return f"{name}(...)"

    # ---- two bags

    def __eq__(self, other):
        other = _comparable(other)
        if other is None:
            return NotImplemented
        return self.total() == other.total() and len(self) == len(other) and self._within(other)

    def __ne__(self, other):
        same = self.__eq__(other)
        return same if same is NotImplemented else not same

    def __le__(self, other):
        other = _as_bag(other)
        return NotImplemented if other is None else self._within(other)

    def __ge__(self, other):
        other = _as_bag(other)
        return NotImplemented if other is None else other._within(self)

    def __lt__(self, other):
        other = _as_bag(other)
        return NotImplemented if other is None else self.total() < other.total() and self._within(other)

    def __gt__(self, other):
        other = _as_bag(other)
        return NotImplemented if other is None else other.total() < self.total() and other._within(self)

    def __add__(self, other):
        """The sums of the counts.

        >>> HashBag("ab") + HashBag("bc")
        HashBag({'b': 2, 'a': 1, 'c': 1})
        """
        return _made(self, other, _Bag._merge)

    def __sub__(self, other):
        """The differences of the counts, where they are above 0.

        >>> HashBag("aab") - HashBag("abb")
        HashBag({'a': 1})
        """
        return _made(self, other, _Bag._less)

    def __or__(self, other):
        """The greater of the counts.

        >>> HashBag("aab") | HashBag("abb")
        HashBag({'a': 2, 'b': 2})
        """
        return _made(self, other, _Bag._most_of)

    def __and__(self, other):
        """The lesser of the counts.

        >>> HashBag("aab") & HashBag("abb")
        HashBag({'a': 1, 'b': 1})
        """
        return _made(self, other, _Bag._keep)

    def __radd__(self, other):
        other = _as_bag(other)
        return NotImplemented if other is None else other + self

    def __rsub__(self, other):
        other = _as_bag(other)
        return NotImplemented if other is None else other - self

    def __rand__(self, other):
        other = _as_bag(other)
        return NotImplemented if other is None else other & self

    def __ror__(self, other):
        other = _as_bag(other)
        return NotImplemented if other is None else other | self

    def __iadd__(self, other):
        self.update(_counted(other))
        return self

    def __isub__(self, other):
        self.subtract(_counted(other))
        return self

    def __ior__(self, other):
        self._most_of(_sure_bag(other))
        return self

    def __iand__(self, other):
        self._keep(_sure_bag(other))
        return self

    def __pos__(self):
        made = HashBag()
        made._merge(self)
        return made

    # ---- joins

    def outer_join(self, other):
        """Gives each key of either bag once, with its count here and there, keys of this bag first.

        >>> list(HashBag("aab").outer_join(HashBag("bc")))
        [('a', 2, 0), ('b', 1, 1), ('c', 0, 1)]
        """
        other = _sure_bag(other)
        for key, n in list(self.items()):
            yield key, n, other[key]
        for key, n in list(other.items()):
            if key not in self:
                yield key, 0, n

    def difference(self, other):
        """Gives each key that this bag has more often than the other, with how many more.

        >>> list(HashBag("aab").difference(HashBag("abb")))
        [('a', 1)]
        """
        return iter((self - other).items())

    def signed_difference(self, other):
        """Gives each key of either bag once, with its count here less its count there.

        >>> list(HashBag("aab").signed_difference(HashBag("bcc")))
        [('a', 2), ('b', 0), ('c', -2)]
        """
        return ((key, here - there) for key, here, there in self.outer_join(other))

    def not_in(self, other):
        """Gives each key of this bag that the other lacks, with its count.

        >>> list(HashBag("aab").not_in(HashBag("bc")))
        [('a', 2)]
        """
        return ((key, n) for key, n in list(self.items()) if key not in other)


def _restored(kind, limit, keys, counts):
    made = kind()
    made.limit = limit
    made._insert_pairs(zip(keys, counts))
    return made


def _is_bag(other):
    """Whether it is a bag itself, and not a proxy for one."""
    return issubclass(type(other), _Bag)


def _as_bag(other):
    """A bag of a dict's, a Counter's or a proxy's counts; None of what is no bag and no dict."""
    if _is_bag(other):
        return other
    if isinstance(other, (dict, _Bag)):
        made = HashBag()
        made._insert_pairs(other.items())
        return made
    return None


def _comparable(other):
    """The same for `==`, and None also of counts that no bag has: below 0, no integers, or too many."""
    if _is_bag(other) or not isinstance(other, (dict, _Bag)):
        return _as_bag(other)
    pairs, total = [], 0
    for key, n in other.items():
        if not hasattr(type(n), "__index__"):
            return None
        n = _index(n)
        total += n
        if n < 0 or total > NO_LIMIT:
            return None
        pairs.append((key, n))
    made = HashBag()
    made._insert_pairs(pairs)
    return made


def _sure_bag(other):
    made = _as_bag(other)
    if made is None:
        raise TypeError(f"expected a bag or a mapping to counts, not {type(other).__name__}")
    return made


def _counted(other):
    return other if isinstance(other, (_Bag, Mapping)) else _sure_bag(other)


def _made(left, right, call):
    right = _as_bag(right)
    if right is None:
        return NotImplemented
    made = HashBag()
    made.limit = left.limit
    made._merge(left)
    call(made, right)
    return made


MutableMapping.register(HashBag)
