"""A map with snapshots that cost one call, whatever the number of pairs.

>>> from tambyulo import Map
>>> stock = Map({"apple": 5, "pear": 7}, keys=str)
>>> before = stock.snapshot()
>>> stock["apple"] = 6
>>> del stock["pear"]
>>> dict(stock), sorted(before.items())
({'apple': 6}, [('apple', 5), ('pear', 7)])

Keys are `bytes`, or `str` with `keys=str`. Values are `int` from 0 to 2**64 - 1, or `bytes` with `values=bytes`.

A `Map` is walked by a snapshot: it may be written during a walk, which goes on as it began.

>>> for key in stock:
...     stock[key + "s"] = 1
>>> sorted(stock)
['apple', 'apples']

Threads may share a map and a snapshot: there is a lock in each. A process that was forked must not use those of its parent
where the parent has threads.
"""

from collections.abc import ItemsView, KeysView, Mapping, MutableMapping, ValuesView

from tambyulo import _core
from tambyulo._core import MOST_PAIRS, Full

__all__ = ["MOST_PAIRS", "Full", "Map", "Snapshot"]


class _Keys(KeysView):
    __slots__ = ()


class _Values(ValuesView):
    __slots__ = ()

    def __iter__(self):
        return self._mapping._walk(1)


class _Items(ItemsView):
    __slots__ = ()

    def __iter__(self):
        return self._mapping._walk(2)


class _Reads:
    """What a map and a snapshot have beside the calls of the core."""

    __slots__ = ()

    def keys(self):
        return _Keys(self)

    def values(self):
        return _Values(self)

    def items(self):
        return _Items(self)

    def __eq__(self, other):
        if not isinstance(other, Mapping):
            return NotImplemented
        return len(self) == len(other) and dict(self.items()) == dict(other.items())

    __hash__ = None

    def __repr__(self):
        kinds = "".join(
            f", {name}={kind.__name__}"
            for name, kind, usual in (("keys", self.key_type, bytes), ("values", self.value_type, int))
            if kind is not usual
        )
        return f"{type(self).__name__}({dict(self.items())!r}{kinds})"

    def __copy__(self):
        return self.copy()

    def __deepcopy__(self, memo):
        return self.copy()


class Map(_Reads, _core.Map, MutableMapping):
    """A map of one owner: Map(pairs=(), *, keys=bytes, values=int, limit=MOST_PAIRS).

    The pairs are a mapping or an iterable of pairs. The keys are `bytes` or `str`, and the values `int` or `bytes`. A new key
    is refused (`Full`) where the map has `limit` pairs.
    """

    __slots__ = ()

    def __init__(self, pairs=(), *, keys=bytes, values=int, limit=MOST_PAIRS):
        self.update(pairs)

    def snapshot(self):
        """The map as it stands now, in the time of one call."""
        return Snapshot._fork(self)

    def copy(self):
        """Another map with the same pairs and limit, in the time of one call."""
        return type(self)._fork(self)


class Snapshot(_Reads, _core.Snapshot, Mapping):
    """A map as it stood at one moment, which no write changes: `Map.snapshot` makes one."""

    __slots__ = ()

    def copy(self):
        """This snapshot, which never changes."""
        return self

    def to_map(self):
        """A map with these pairs, to be written, in the time of one call."""
        return Map._fork(self)
