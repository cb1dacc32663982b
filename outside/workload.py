"""A workload with calls of every kind, and the digest of a workload.

The digest is written from docs/PERFORMANCE.md, and from nothing else.

    python3 outside/workload.py < workload
"""

import random
import sys

sys.dont_write_bytecode = True  # no __pycache__ in the repository

import sets

LIMIT = 65535
FIRST_DIGEST = 1
FACTOR = 1099511628211

# Where the workload's ranges begin, as replica and counter: about the ends of replicas, so that ranges adjoin and never join.
REGIONS = ((1, 0), (1, sets.LAST_COUNTER - 60), (2, 0), (sets.LAST_REPLICA, sets.LAST_COUNTER - 60))


# The digest. Each function gives the values that are mixed in.


def granted(change, *arguments):
    try:
        change(0, *arguments)
    except sets.Refused:
        return [0]
    return [1]


def walk(store, which):
    values, asked = [], 0
    while found := store.next(which, asked):
        values += found
        asked = found[1] + 1
    return [*values, 0]


def there_and_back(store, times):
    for _ in range(times):
        store.move(0, 1)
        store.move(1, 0)
    store.move(0, 1)
    return []


def call_values(store, name, *numbers):
    if name in ("put", "take"):
        return granted(getattr(store, name), *numbers)
    if name == "hold":
        return [int(store.holds(0, *numbers))]
    return walk(store, 0) if name == "walk" else there_and_back(store, *numbers)


def end_values(store):
    return [store.total(), *(value for which in range(sets.SET_COUNT) for value in walk(store, which))]


def digest(workload):
    store, values = sets.Store(LIMIT), []
    for name, *numbers in map(str.split, workload.splitlines()):
        if name != "time":
            values += call_values(store, name, *map(int, numbers))
    result = FIRST_DIGEST
    for value in values + end_values(store):
        result = (result ^ value) * FACTOR % 2**64
    return result


def output(workload):
    """All that a program prints of a workload without further runs."""
    return f"digest {digest(workload)}\n"


# The workload.


def random_range(chance):
    replica, start = chance.choice(REGIONS)
    low = start + chance.randrange(61)
    high = min(low + chance.choice((0, 0, 1, 4, 12)), sets.LAST_COUNTER)
    return sets.id_of(replica, low), sets.id_of(replica, high)


def random_call(chance):
    low, high = random_range(chance)
    calls = (f"put {low} {high}", f"take {low} {high}", f"hold {low}", "walk", f"move {chance.randrange(4)}")
    return chance.choices(calls, (12, 6, 6, 2, 1))[0]


def workload():
    """Calls before and calls that are timed, and a walk at the end of both."""
    chance = random.Random(1)
    half = [[random_call(chance) for _ in range(200)] for _ in range(2)]
    return "".join(line + "\n" for line in [*half[0], "walk", "time", *half[1], "walk"])


if __name__ == "__main__":
    sys.stdout.write(output(sys.stdin.read()))
