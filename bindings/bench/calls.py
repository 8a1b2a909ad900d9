"""Times the Python package beside a dict and, where it is there, pyrsistent's PMap, with the same keys and the same work, each in
turn in every round: calls.py PAIRS ROUNDS. It prints a line a measurement: PROGRAM NAME 1 NANOSECONDS, the least of the rounds,
in processor time."""

import sys
import time

from tambyulo import Map

try:
    from pyrsistent import pmap
except ImportError:
    pmap = None

SNAPSHOTS = 1000
COPIES = 3
figures = {}


def timed(program, name, pieces, work):
    begun = time.process_time_ns()
    done = work()
    each = (time.process_time_ns() - begun) / pieces
    figures[program, name] = min(each, figures.get((program, name), each))
    return done


def put_all(map, keys):
    for number, key in enumerate(keys):
        map[key] = number
    return map


def set_all(map, keys):
    for number, key in enumerate(keys):
        map = map.set(key, number)
    return map


def get_all(map, keys):
    for key in keys:
        map[key]


def walk(map):
    for _ in map.items():
        pass


def snapshots(map, keys, snapshot):
    for key in keys:
        before = snapshot(map)
        map[key] = 1
    return before


def set_some(map, keys):
    for key in keys:
        map = map.set(key, 1)


def remove_all(map, keys):
    for key in keys:
        del map[key]


def round_of(keys):
    count = len(keys)
    some, few = keys[:SNAPSHOTS], keys[:COPIES]
    ours = timed("tambyulo", "put", count, lambda: put_all(Map(), keys))
    plain = timed("dict", "put", count, lambda: put_all({}, keys))
    for program, map in [("tambyulo", ours), ("dict", plain)]:
        timed(program, "get", count, lambda: get_all(map, keys))
        timed(program, "replace", count, lambda: put_all(map, keys))
        timed(program, "walk", count, lambda: walk(map))
    timed("tambyulo", "snapshot", len(some), lambda: [ours.snapshot() for _ in some])
    timed("tambyulo", "snapshot_then_put", len(some), lambda: snapshots(ours, some, Map.snapshot))
    timed("dict", "snapshot_then_put", len(few), lambda: snapshots(plain, few, dict))
    timed("tambyulo", "remove", count, lambda: remove_all(ours, keys))
    timed("dict", "remove", count, lambda: remove_all(plain, keys))
    if pmap is not None:
        persistent = timed("pyrsistent", "put", count, lambda: set_all(pmap(), keys))
        timed("pyrsistent", "get", count, lambda: get_all(persistent, keys))
        timed("pyrsistent", "walk", count, lambda: walk(persistent))
        timed("pyrsistent", "snapshot_then_put", len(some), lambda: set_some(persistent, some))


def main():
    pairs, rounds = map(int, sys.argv[1:])
    keys = [b"k%07d" % number for number in range(pairs)]
    for _ in range(rounds):
        round_of(keys)
    for (program, name), each in figures.items():
        print(f"{program} {name} 1 {each:.0f}")


main()
