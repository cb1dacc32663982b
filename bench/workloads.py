"""The workloads of the benchmark, each over a set of N ranges, as text with one call to a line.

    python3 bench/workloads.py WORD N    prints a workload, as: python3 bench/workloads.py insert 1000

docs/PERFORMANCE.md says what the lines mean. Random places are the same each time.
"""

import random
import sys
from typing import Callable, NamedTuple

FIRST_ID = 2**48  # REPLID 1 and counter 0
EXTENSIONS, CALLS, MOVES = 20_000, 2_000, 10_000


class Workload(NamedTuple):
    about: str
    lines: Callable


def put(first, last):
    """By counters, of REPLID 1, as all that follow."""
    return f"put {FIRST_ID + first} {FIRST_ID + last}"


def take(first, last):
    return f"take {FIRST_ID + first} {FIRST_ID + last}"


def put_five(place):
    """Ranges of five IDs, ten apart: that of one place."""
    return put(10 * place, 10 * place + 4)


def take_piece(turn, place):
    """From the range of a place, in turn all of it, its first two IDs, and the one in the middle."""
    first, last = ((0, 4), (0, 1), (2, 2))[turn % 3]
    return take(10 * place + first, 10 * place + last)


def fives(size):
    return [put_five(place) for place in range(size)]


def some_places(size):
    """Up to so many of the places, in random order."""
    return random.Random(1).sample(range(size), min(size, CALLS))


def extend(size):
    end = 10 * size - 5
    return [*fives(size), "time", *(put(end + i, end + i) for i in range(EXTENSIONS))]


def append(size):
    return ["time", *fives(size)]


def insert(size):
    before = [put_five(2 * place) for place in range(size)]
    return [*before, "time", *(put_five(2 * place + 1) for place in some_places(size))]


def take_some(size):
    return [*fives(size), "time", *(take_piece(turn, place) for turn, place in enumerate(some_places(size)))]


def hold(size):
    chance = random.Random(1)
    return [*fives(size), "time", *(f"hold {FIRST_ID + chance.randrange(10 * size)}" for _ in range(CALLS))]


def walk(size):
    return [*fives(size), "time", "walk"]


def move(size):
    return [*fives(size), "time", f"move {MOVES}"]


WORKLOADS = {
    "extend": Workload("20,000 rising puts that extend the last of N ranges", extend),
    "append": Workload("N rising puts of separate ranges, from an empty set", append),
    "insert": Workload("up to 2,000 puts of separate ranges at random between N others", insert),
    "take": Workload("up to 2,000 takes at random from N ranges: whole ones, beginnings, middles", take_some),
    "hold": Workload("2,000 holds at random over N ranges", hold),
    "walk": Workload("nexts, one behind the other, through N ranges to the end", walk),
    "move": Workload("a set of N ranges moved to another and back, 10,000 times, and once more", move),
}


def text(name, size):
    return "".join(line + "\n" for line in WORKLOADS[name].lines(size))


if __name__ == "__main__":
    if len(sys.argv) != 3 or sys.argv[1] not in WORKLOADS or not sys.argv[2].isdigit():
        sys.exit(f"usage: workloads.py {'|'.join(WORKLOADS)} N")
    sys.stdout.write(text(sys.argv[1], int(sys.argv[2])))
