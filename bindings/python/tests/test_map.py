"""The map beside a dict, its surface as a mapping, snapshots, and threads."""

import collections.abc
import copy
import doctest
import random
import threading
import unittest

import tambyulo
from tambyulo import Full, Map, Snapshot


def key_of(chance, kind):
    """Keys of up to 40 bytes: some lie in place in the map's own keys, and some do not."""
    key = bytes([chance.randrange(128)]) * chance.randrange(41)
    return key.decode() if kind is str else key


def value_of(chance, kind):
    number = chance.randrange(7)
    return bytes([number]) * (number * 60) if kind is bytes else number


class BesideADict(unittest.TestCase):
    def call(self, chance, map, model, keys, values):
        """One random call on both."""
        key, value, old = key_of(chance, keys), value_of(chance, values), value_of(chance, values)
        before, is_equal = model.get(key), model.get(key) == old
        what = chance.randrange(10)
        if what == 0:
            map[key] = model[key] = value
        elif what == 1:
            self.assertEqual(map.put(key, value), before)
            model[key] = value
        elif what == 2:
            self.assertEqual(map.put_if_absent(key, value), before)
            model.setdefault(key, value)
        elif what == 3:
            self.assertEqual(map.setdefault(key, value), model.setdefault(key, value))
        elif what == 4:
            self.assertEqual(map.replace(key, value), before)
            if key in model:
                model[key] = value
        elif what == 5:
            self.assertIs(map.replace_if(key, old, value), is_equal)
            if is_equal:
                model[key] = value
        elif what == 6:
            self.assertIs(map.remove_if(key, old), is_equal)
            if is_equal:
                del model[key]
        elif what == 7:
            self.assertEqual(map.pop(key, "none"), model.pop(key, "none"))
        elif what == 8:
            self.assertEqual(map.get(key, 9), model.get(key, 9))
            if key in model:
                self.assertEqual(map[key], model[key])
                del map[key], model[key]
            else:
                with self.assertRaises(KeyError):
                    del map[key]
        else:
            self.assertEqual(key in map, key in model)
        self.assertEqual(len(map), len(model))

    def test_random_calls(self):
        for seed, (keys, values) in enumerate([(bytes, int), (str, int), (bytes, bytes), (str, bytes)]):
            chance = random.Random(seed)
            map, model, kept = Map(keys=keys, values=values), {}, []
            for step in range(30_000):
                self.call(chance, map, model, keys, values)
                if step % 6_000 == 0:
                    kept.append((map.snapshot(), dict(model)))
            kept.append((map, model))
            for it, then in kept:
                self.assertEqual(it, then)
                self.assertEqual(dict(it), then)
                self.assertEqual(sorted(it.items()), sorted(then.items()))
                self.assertEqual(sorted(it.values()), sorted(then.values()))
            prefix = "a" if keys is str else b"a"
            self.assertEqual(map.count_prefix(prefix), sum(it.startswith(prefix) for it in model))


class Surface(unittest.TestCase):
    def test_it_is_a_mapping(self):
        map = Map({b"a": 1})
        self.assertIsInstance(map, collections.abc.MutableMapping)
        self.assertIsInstance(map.snapshot(), collections.abc.Mapping)
        self.assertNotIsInstance(map.snapshot(), collections.abc.MutableMapping)
        for view, kind in ((map.keys(), "KeysView"), (map.values(), "ValuesView"), (map.items(), "ItemsView")):
            self.assertIsInstance(view, getattr(collections.abc, kind))
            self.assertEqual(len(view), 1)
        self.assertIn((b"a", 1), map.items())
        self.assertIn(1, map.values())
        self.assertEqual(map.keys() | {b"b"}, {b"a", b"b"})
        map.update({b"b": 2}, **{})
        map.update([(b"c", 3)])
        self.assertEqual(map.popitem()[0] in (b"a", b"b", b"c"), True)
        self.assertEqual(len(map), 2)
        map.clear()
        self.assertFalse(map)
        self.assertRaises(KeyError, map.popitem)
        self.assertRaises(KeyError, map.pop, b"a")
        with self.assertRaises(KeyError) as raised:
            map[b"a"]
        self.assertEqual(raised.exception.args, (b"a",))

    def test_equality_and_printing(self):
        map = Map({"é": 2}, keys=str)
        self.assertEqual(map, {"é": 2})
        self.assertEqual({"é": 2}, map)
        self.assertEqual(map, map.snapshot())
        self.assertNotEqual(map, Map({"é".encode(): 2}))
        self.assertNotEqual(map, [("é", 2)])
        self.assertEqual(repr(map), "Map({'é': 2}, keys=str)")
        self.assertEqual(repr(map.snapshot()), "Snapshot({'é': 2}, keys=str)")
        self.assertEqual(repr(Map({b"a": b"b"}, values=bytes)), "Map({b'a': b'b'}, values=bytes)")
        self.assertEqual(eval(repr(map)), map)
        self.assertRaises(TypeError, hash, map)

    def test_kinds(self):
        map = Map({b"a\0b": 1, b"": 3})
        self.assertEqual((map[b"a\0b"], map[b""], map.get(b"a")), (1, 3, None))
        self.assertEqual((map.key_type, map.value_type), (bytes, int))
        texts = Map(keys=str, values=bytes)
        texts["long"] = bytes(range(256)) * 100
        self.assertEqual((texts["long"], texts.key_type, texts.value_type), (bytes(range(256)) * 100, str, bytes))
        self.assertEqual((texts.put("long", b""), texts["long"]), (bytes(range(256)) * 100, b""))
        for wrong in ("a", 5, None, bytearray(b"a")):
            self.assertRaises(TypeError, map.get, wrong)
            self.assertRaises(TypeError, map.put, wrong, 1)
        for wrong in (b"a", 5, None):
            self.assertRaises(TypeError, texts.get, wrong)
        self.assertRaises(TypeError, map.put, b"a", "1")
        self.assertRaises(TypeError, map.put, b"a", 1.0)
        self.assertRaises(OverflowError, map.put, b"a", 2**64)
        self.assertRaises(OverflowError, map.put, b"a", -1)
        self.assertRaises(TypeError, texts.put, "a", "b")
        self.assertRaises(UnicodeEncodeError, texts.put, "\ud800", b"")
        map[b"most"] = 2**64 - 1
        self.assertEqual((map[b"most"], len(map)), (2**64 - 1, 3))
        self.assertRaises(TypeError, Map, keys=int)
        self.assertRaises(TypeError, Map, values=str)
        self.assertRaises(TypeError, Map, 5)
        self.assertRaises(TypeError, Map, {}, {})
        self.assertRaises(TypeError, Snapshot)
        self.assertRaises(TypeError, Snapshot._fork, {})

    def test_a_full_map_refuses_new_keys_alone(self):
        map = Map({b"a": 1, b"b": 2}, limit=2)
        for write in (map.put, map.put_if_absent, map.setdefault, map.__setitem__):
            self.assertRaises(Full, write, b"c", 3)
        self.assertEqual((map.put(b"a", 4), map.replace(b"c", 1), len(map)), (1, None, 2))
        self.assertRaises(Full, map.copy().put, b"c", 3)
        self.assertRaises(Full, Map, {b"a": 1, b"b": 2}, limit=1)
        for wrong in (0, tambyulo.MOST_PAIRS + 1):
            self.assertRaises(ValueError, Map, limit=wrong)

    def test_snapshots_and_copies(self):
        map = Map({b"a": 1})
        snapshot, fork = map.snapshot(), map.copy()
        map[b"a"] = 2
        fork[b"a"] = 3
        self.assertEqual((map[b"a"], snapshot[b"a"], fork[b"a"]), (2, 1, 3))
        again = snapshot.to_map()
        again[b"b"] = 4
        self.assertEqual((len(again), len(snapshot), type(again), type(fork)), (2, 1, Map, Map))
        self.assertEqual((copy.copy(map), copy.deepcopy(map)), (map, map))
        self.assertIs(copy.copy(snapshot), snapshot)
        self.assertFalse(hasattr(snapshot, "put") or hasattr(snapshot, "pop") or hasattr(snapshot, "update"))
        with self.assertRaises(TypeError):
            snapshot[b"a"] = 1
        with self.assertRaises(AttributeError):
            map.other = 1

    def test_a_walk_goes_on_as_it_began(self):
        map = Map({bytes([n]): n for n in range(200)})
        seen = []
        for key, value in map.items():
            seen.append(value)
            del map[key]
            map[key * 2] = value
        self.assertEqual(sorted(seen), list(range(200)))
        self.assertEqual(set(map), {bytes([n]) * 2 for n in range(200)})
        walk = iter(map)
        next(walk)
        del map
        self.assertEqual(len(list(walk)), 199)
        self.assertRaises(StopIteration, next, walk)
        large = Map({b"k" * 100_000: b"v" * 50_000, b"a": b"b"}, values=bytes)
        self.assertEqual(sorted(len(value) for value in large.values()), [1, 50_000])

    def test_a_subclass(self):
        class Stock(Map):
            def add(self, key, count):
                self[key] = self.get(key, 0) + count

        stock = Stock({b"a": 1})
        stock.add(b"a", 2)
        stock.note = "of the class"
        self.assertEqual((stock[b"a"], type(stock.copy()), stock.copy()[b"a"]), (3, Stock, 3))

    def test_the_documentation(self):
        self.assertEqual(doctest.testmod(tambyulo).failed, 0)


class Threads(unittest.TestCase):
    def run_all(self, works):
        """Runs each in a thread of its own; what one raises is raised."""
        faults = []

        def run(work):
            try:
                work()
            except BaseException as fault:
                faults.append(fault)

        threads = [threading.Thread(target=run, args=(work,)) for work in works]
        for it in threads:
            it.start()
        for it in threads:
            it.join()
        if faults:
            raise faults[0]

    def test_snapshots_are_read_while_the_map_is_written(self):
        map = Map({str(n): n for n in range(5_000)}, keys=str)
        snapshot = map.snapshot()

        def read():
            for n in range(5_000):
                self.assertEqual(snapshot[str(n)], n)
            self.assertEqual(sum(snapshot.values()), 4_999 * 2_500)

        def write():
            for n in range(5_000):
                map[str(n)] = n + 1

        self.run_all([read, read, read, write])
        self.assertEqual(map["7"], 8)

    def test_threads_share_a_map(self):
        map = Map()
        # a walk over many pairs lets other threads run, which then wait for the lock of the handle
        map.update((n.to_bytes(8, "big"), n) for n in range(100_000))

        def count():
            for _ in range(20):
                self.assertGreaterEqual(map.count_prefix(b""), 100_000)

        def write():
            for n in range(100_000, 110_000):
                map.put_if_absent(n.to_bytes(8, "big"), n)
                self.assertEqual(map[n.to_bytes(8, "big")], n)

        self.run_all([count, count, write, write])
        self.assertEqual(len(map), 110_000)


if __name__ == "__main__":
    unittest.main()
