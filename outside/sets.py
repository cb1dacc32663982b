"""Sets of IDs, and a store of eleven of them, in the simplest form that can be right.

A set is the sorted list of its maximal ranges, each a pair (low, high) of IDs of one REPLID.
The functions on sets make a new list and leave the one that they are given as it is.
"""

COUNTER_BITS = 48
LAST_COUNTER = 2**COUNTER_BITS - 1
LAST_REPLICA = 65535
HIGHEST = 2**64 - 1

SET_COUNT = 11
LEAST_LIMIT = 64
MOST_LIMIT = 65535


class Refused(Exception):
    """A refusal, by its number and the layer that refuses."""

    def __init__(self, number, layer):
        super().__init__(number, layer)
        self.number = number
        self.layer = layer


def id_of(replica, counter):
    return replica * 2**COUNTER_BITS + counter


def replica_of(number):
    """The REPLID of an ID; 0 for a number that is no ID."""
    return number >> COUNTER_BITS


def is_range(low, high):
    return replica_of(low) >= 1 and replica_of(low) == replica_of(high) and low <= high


def are_one(lower, upper):
    """Whether two ranges, given in order of their low ends, overlap or adjoin in one REPLID."""
    return replica_of(lower[0]) == replica_of(upper[0]) and upper[0] <= lower[1] + 1


def add(ranges, low, high):
    """The set with the IDs low to high added."""
    merged = []
    for piece in sorted(ranges + [(low, high)]):
        if merged and are_one(merged[-1], piece):
            last = merged.pop()
            piece = (last[0], max(last[1], piece[1]))
        merged.append(piece)
    return merged


def remove(ranges, low, high):
    """The set with the IDs low to high removed."""
    left = []
    for first, last in ranges:
        if first < low:
            left.append((first, min(last, low - 1)))
        if last > high:
            left.append((max(first, high + 1), last))
    return left


def holds(ranges, number):
    return any(low <= number <= high for low, high in ranges)


def next_range(ranges, number):
    """The lowest range whose high end is not below the number, or None."""
    for low, high in ranges:
        if high >= number:
            return (low, high)
    return None


class Store:
    """Eleven sets and a limit, which the total of their ranges never passes."""

    def __init__(self, limit):
        if not LEAST_LIMIT <= limit <= MOST_LIMIT:
            raise Refused(1, "store")
        self.limit = limit
        self.sets = [[] for _ in range(SET_COUNT)]

    def total(self):
        return sum(len(ranges) for ranges in self.sets)

    def put(self, number, low, high):
        self._replace(number, add(self.sets[number], low, high))

    def take(self, number, low, high):
        self._replace(number, remove(self.sets[number], low, high))

    def move(self, source, target):
        if source != target:
            self.sets[target] = self.sets[source]
            self.sets[source] = []

    def clear(self, number):
        self.sets[number] = []

    def holds(self, number, asked):
        return holds(self.sets[number], asked)

    def next(self, number, asked):
        return next_range(self.sets[number], asked)

    def _replace(self, number, ranges):
        """Gives a set its new ranges, or refuses and leaves all as it was."""
        if self.total() - len(self.sets[number]) + len(ranges) > self.limit:
            raise Refused(25, "store")
        self.sets[number] = ranges
