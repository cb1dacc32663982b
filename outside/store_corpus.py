"""Prints the corpus of calls on the store: the same bytes each time.

    python3 outside/store_corpus.py > script

Each line is also given to the outside reader, so that the generator knows where the ranges are.
"""

import random
import sys
from itertools import combinations_with_replacement, cycle, islice, product

sys.dont_write_bytecode = True  # no __pycache__ in the repository

import reader
from sets import HIGHEST, LAST_COUNTER, SET_COUNT, add, id_of, remove, replica_of

ALL_SETS = range(SET_COUNT)


class Corpus:
    """The lines so far, and a session that has answered them."""

    def __init__(self):
        self.lines = []
        self.session = reader.Session()

    def line(self, line):
        self.lines.append(line)
        return reader.answer_line(self.session, line)

    def part(self, about):
        self.line(b"# " + about.encode())

    def run(self, calls):
        """Writes calls, with a semicolon between two. R:C is the ID of replica R and counter C, R:-1 its last ID."""
        for call in calls.split("; "):
            answer = self.line(" ".join(map(plain, call.split(" "))).encode())
        return answer

    def ranges(self, which):
        return self.session.store.sets[which]

    def room(self):
        return self.session.store.limit - self.session.store.total()

    def fill(self, *numbers):
        """Ranges of five IDs, ten apart, over the sets in turn, until the store is full."""
        for place in range(self.room()):
            self.run(f"put {numbers[place % len(numbers)]} 1:{10 * place} 1:{10 * place + 4}")

    def walk(self, which):
        """Nexts from 0 through every range of the set to none."""
        for start in [0] + [high + 1 for _low, high in self.ranges(which) if high < HIGHEST]:
            self.run(f"next {which} {start}")

    def show(self, *numbers):
        for which in numbers:
            self.walk(which)
        self.run("total")

    def ask_around(self, which):
        """Queries and nexts at, before and behind both ends of every range."""
        for low, high in self.ranges(which):
            for number in sorted({low - 1, low, low + 1, (low + high) // 2, high - 1, high, min(high + 1, HIGHEST)}):
                self.run(f"query {which} {number}; next {which} {number}")


def plain(word):
    replica, colon, counter = word.partition(":")
    return str(id_of(int(replica), int(counter) % (LAST_COUNTER + 1))) if colon else word


def before_the_first_make(c):
    c.part("Before the first make: no copy, bad calls, and refused makes after which there is no copy still")
    for rows in (0, 63, 65536):
        c.run("put 0 1:5 1:9; take 1 1:5 1:9; move 0 1; clear 10; query 0 0; next 0 0; total; limit; query 007 0009")
        c.run(f"put 0 7 9; put 11 1:5 1:9; total 0; copy; make; make rows {rows}; total")


def makes(c):
    c.part("Makes: an accepted one empties every set, a refused one leaves the store in use with what it holds")
    for rows in (64, 65535, 65):
        c.run(f"make rows {rows}; limit")
        c.show(*ALL_SETS)
        c.run("put 0 1:5 1:9; put 10 65535:7 65535:7")
        for refused in (0, 1, 63, 65536, 65536 + 64, 2**32, 2**32 + 64, HIGHEST):
            c.run(f"make rows {refused}; query 0 1:7; total")
        c.run("limit; next 0 0; next 5 0; next 10 0")


def every_set(c):
    c.part("Every set has its own IDs")
    c.run("make rows 64")
    for which in ALL_SETS:
        c.run(f"put {which} 1:{100 + 10 * which} 1:{125 + 10 * which}")
    for which in ALL_SETS:
        c.run(f"take {which} 1:{110 + 10 * which} 1:{112 + 10 * which}")
        for counter in (99, 109, 110, 112, 113):
            c.run(f"query {which} 1:{counter + 10 * which}")
    for which in reversed(ALL_SETS):
        c.run(f"take {which} 1:0 1:1000")
        c.show(which, (which + 10) % SET_COUNT)


def two_ranges(c):
    c.part("Every put and every take of a small universe, behind the end of REPLID 1 in the same set")
    for which, name in ((2, "put"), (6, "take")):
        c.run(f"put {which} 1:-1 1:-1")
        for low, high in combinations_with_replacement(range(7), 2):
            c.run(f"put {which} 2:2 2:3; put {which} 2:5 2:5; {name} {which} 2:{low} 2:{high}")
            c.walk(which)
            c.run(f"take {which} 2:0 2:20")


def several_ranges(c):
    c.part("Puts and takes beside ranges, one ID apart, inside, equal, around, across several and all of them")
    spans = ((5, 9), (5, 8), (45, 50), (46, 50), (15, 15), (15, 19), (16, 18), (12, 13), (10, 14), (9, 15),
             (12, 22), (12, 42), (14, 20), (20, 34), (19, 35), (10, 44), (0, -1))
    for which, replica, name in ((3, 1, "put"), (9, 300, "take")):
        for low, high in spans:
            for place in range(10, 50, 10):
                c.run(f"put {which} {replica}:{place} {replica}:{place + 4}")
            c.run(f"{name} {which} {replica}:{low} {replica}:{high}")
            c.walk(which)
            c.run(f"clear {which}")


def ends_of_replicas(c):
    c.part("Both ends of replicas, whole replicas, and neighbours of two REPLIDs that stay two")
    put_spans = ((0, 0), (-1, -1), (1, 1), (-2, -2), (2, -3), (0, -1))
    take_spans = ((0, 0), (-1, -1), (500, 600), (1, -2), (0, -1))
    for name, spans, order in (("put", put_spans, (1, 2, 65534, 65535)), ("take", take_spans, (2, 65535, 65534, 1))):
        for replica in order:
            for low, high in spans:
                c.run(f"{name} 4 {replica}:{low} {replica}:{high}; next 4 {replica}:0; total")
        c.ask_around(4)
        c.show(4)
    for lower in (1, 65534):
        ends = f"8 {lower}:-1 {lower}:-1", f"8 {lower + 1}:0 {lower + 1}:0"
        for one, other in (ends, reversed(ends)):
            for call in (f"put {one}", f"put {other}", f"take {one}", f"take {other}"):
                c.run(call)
                c.show(8)


def full_stores(c):
    c.part("Full stores: what is refused by 25, what is not, and that a refusal changes nothing")
    for rows, numbers, other in ((64, [0], 10), (65, [1, 4, 9], 5), (64, list(ALL_SETS), 8)):
        c.run(f"make rows {rows}")
        c.fill(*numbers)
        for which in numbers[-2:]:
            at_the_limit(c, which, [low - id_of(1, 0) for low, _high in c.ranges(which)], other)
        c.show(*numbers)
        c.run(f"move {numbers[0]} {other}; next {other} 0; next {numbers[0]} 0; put {numbers[0]} 1:0 1:0; total")


def at_the_limit(c, which, lows, other):
    """Calls on a full store, where a range of five IDs begins at each of the lows."""
    first, second, third, fourth, fifth = lows[:5]
    split, new = ("take", third + 1, third + 3), ("put", 8000, 8002)
    for name, low, high in (
        split, new, ("put", first + 6, first + 8), ("take", fifth + 2, fifth + 2),  # all refused
        ("put", first, first + 4), ("put", first + 1, first + 2), ("take", first + 5, first + 5), ("take", 8500, 8600),
        ("put", first, first + 5), ("take", first + 4, first + 5), ("take", first, first), split, new,
        ("put", first + 4, second), split, ("take", fourth + 1, fourth + 1), new,  # a join makes room for one split
        ("take", first, second + 4), new, ("take", fourth + 3, fourth + 3),  # a range gone makes room for one put
        ("take", fourth, fourth + 4), ("take", fifth + 1, fifth + 1), ("take", fifth + 3, fifth + 3),
        ("put", third, third + 4), ("put", first, first + 4), ("take", first + 2, first + 2), ("put", 8004, 8004),
    ):
        answer = c.run(f"{name} {which} 1:{low} 1:{high}")
        c.run("total")
        if b"refused" in answer:
            c.run(f"query {which} 1:{low}; next {which} 1:{low}")
    c.run(f"put {other} 3:0 3:-1; next {other} 3:0; put {which} 2:0 2:-1; next {which} 2:0; total")


def moves_and_clears(c):
    c.part("Moves between all pairs of sets, and onto itself")
    c.run("make rows 64")
    for which in ALL_SETS:
        c.run(f"put {which} 1:{100 * which} 1:{100 * which + 9}; take {which} 1:{100 * which + 5} 1:{100 * which + 5}")
    for source, target in product(ALL_SETS, ALL_SETS):
        replica, low = 1 + target % 2, 100 * source + target
        c.run(f"move {source} {target}; next {target} 0; put {source} {replica}:{low} {replica}:{low + 9}")
    c.show(*ALL_SETS)
    c.part("Moves from an empty set, onto a full one and of a full one, clears of empty and full sets, puts after them")
    c.run("make rows 64; next 0 0")
    c.fill(2, 5, 8, 10)
    for change in ("move 2 2", "move 3 3", "move 2 8", "clear 2", "clear 8", "move 3 10", "move 10 0"):
        c.run(f"put 7 2:1 2:3; {change}")
        c.show(*sorted(set(map(int, change.split()[1:]))))
        c.run(f"put 7 2:1 2:3; query 7 2:2; query {change.split()[-1]} 1:2; take 7 2:1 2:3")
        c.fill(int(change.split()[-1]))


def queries_and_nexts(c):
    c.part("Queries and nexts at the ends of all numbers, and around every range")
    c.run("make rows 64; put 1 1:5 1:9; put 1 1:20 1:20; put 1 1:22 1:30; put 1 2:0 2:3; put 1 2:-5 2:-1")
    c.run("put 1 3:7 3:9; put 2 1:0 1:0; put 2 65535:-9 65535:-1")
    for which in (0, 1, 2):
        for number in (0, 1, 9, 2**32, 2**48 - 1, 2**48, 2**48 + 1, 2**63, HIGHEST - 9, HIGHEST - 8, HIGHEST):
            c.run(f"query {which} {number}; next {which} {number}")
        c.ask_around(which)
        c.show(which)


def bad_calls(c):
    c.part("Bad calls: names, words too few and too many, a # behind a call, words that are no numbers, sets above 10")
    c.run("make rows 64; put 0 1:5 1:9; put 5 1:5 1:9")
    c.run("copy; Total; TOTAL; totals; tota; total.; puts 0 1:5 1:9; PUT 0 1:5 1:9; pUt 0 1:5 1:9; put0 1:5 1:9; =>; 0")
    c.run("make; make cells 64; make Rows 64; make row 64; make 64; make 64 rows; make rows rows; MAKE rows 64")
    c.run("total 0; limit 64; total # of all; limit #; total#; put 0 1:5 1:9 # again; make rows 64 #; clear #0")
    wrong = cycle(("-1", "+1", "0x1", "1a", "a", "1.0", "1_0", "1,000", '""', "''", "-", "²", "٣", "1", "2^64", "1e1"))
    for call in ("make rows 64", "put 5 1:7 1:12", "take 0 1:6 1:8", "move 0 5", "clear 0", "query 0 1:5", "next 0 0"):
        words = list(map(plain, call.split(" ")))
        c.run(f"{call} 0; {call} {call}; {call.capitalize()}")
        for place, value in ((place, int(word)) for place, word in enumerate(words) if word.isdigit()):
            c.run(" ".join(words[:place]))
            for other in (2**64, 2**64 + value, 10 * 2**64 + value, "9" * 20, "1" * 99, f"+{value}", f"-{value}",
                          f"{value}.", *islice(wrong, 4)):
                c.run(" ".join([*words[:place], str(other), *words[place + 1:]]))
    for which in (11, 12, 100, 256, 65536, 2**32, 2**63, HIGHEST, 2**64):
        c.run(f"put {which} 1:5 1:9; clear {which}; move {which} 0; move 0 {which}; query {which} 0")
    c.part("Bad calls: a LOW and HIGH that are no range, and that none of all these changed anything")
    for pair in ("1:6 1:5", "1:9 1:0", "1:-1 1:0", "0 0", "0 1:9", "0:-1 1:9", "0:5 0:9", "0:-1 0:-1",
                 "1:-1 2:0", "2:0 1:-1", "1:5 2:9", "1:0 65535:-1", "65534:-1 65535:0"):
        c.run(f"put 0 {pair}; take 5 {pair}")
    c.show(0, 5)


def odd_lines(c):
    c.part("Blanks of all sorts, leading zeros, bytes that are no UTF-8, zero bytes, long lines")
    c.run("make rows 64; put 3 1:5 1:9")
    low, high = b"281474976710664", b"281474976710670"
    for line in (
        b"", b" ", b"\t", b"\r", b" \t \r", b"#", b" #", b"\t# x", b"\r#\r", b"##total", b"#total", b" #\xff\x00 x",
        b"total\t", b"\ttotal", b"  total  ", b"total\r", b"\r\rtotal\r\r", b"next\t3\t0\r", b"next  3 \t\r 0",
        b" \t\rput\t 3 \r " + low + b"\t\t " + high + b" \r", b"put 003 0" + low + b" 00000" + high, b"next 03 000",
        b"take 3  00" + low + b" " + low, b"query 3 0" + low, b"next 0000000003 " + b"0" * 300, b"move 03 0004",
        b"next 4 " + b"0" * 40 + high, b"clear 010", b"make rows 00063", b"make rows 000", b"query 00 0", b"query 3\r0",
        b"move 004 003", b"put 0011 " + low + b" " + high, b"next \t 3  00x", b"to\rtal", b"to\ttal", b" bad\tcall \r",
        b"total\x0b", b"\x0btotal", b"next\x0c3 0", b"total \x0c", b"total\xc2\xa0", b"total\x85", b"\xef\xbb\xbftotal",
        b"total\x1c", b"\xff\xfe\xfd", b"\x80 \t \x81", b"put \xc3\x28 1 2", b"query 3 28147\xe9", b"\xed\xa0\x80 #",
        b"total \xff", b"\x00", b"total\x00", b"\x00total", b"\x00 #", b"next 3\x00 5", b"query 3 5\x00", b"total \x00",
        b"\x00\xff\x00\t\x00", bytes(byte for byte in range(256) if byte != 10), bytes(range(128, 256)) * 2,
        b"x" * 3000, b" " * 2000 + b"total" + b"\t" * 500, b"total " * 200,
    ):
        c.line(line)
    c.show(3, 4)
    c.run("make rows 000065; limit")


def random_change(c, chance, numbers, universe):
    """By how much a put or take by chance makes the ranges of its set more, and the call."""
    name, which, low = chance.choice(("put", "take")), chance.choice(numbers), chance.choice(universe)
    high = min(low + chance.choice((0, 0, 0, 0, 1, 2, 6)), universe[-1], id_of(replica_of(low), LAST_COUNTER))
    change = add if name == "put" else remove
    return len(change(c.ranges(which), low, high)) - len(c.ranges(which)), f"{name} {which} {low} {high}"


def random_call(c, chance, numbers, universe):
    """A change is the best of four at times, so that the limit is met often."""
    changes = [random_change(c, chance, numbers, universe) for _ in range(chance.choice((1, 4)))]
    which, number, rare = chance.choice(numbers), chance.choice(universe), len(numbers) / c.session.store.limit
    calls = {max(changes, key=lambda change: change[0])[1]: 66, f"query {which} {number}": 10, "total": 8, "limit": 0.5,
             f"next {which} {number}": 10, f"put {which} {number}": 0.5, "make rows 63": 0.5,
             f"move {which} {chance.choice(numbers)}": 5 * rare, f"clear {which}": rare}
    c.run(chance.choices(list(calls), list(calls.values()))[0])


def random_stretch(c, seed, rows, numbers, universe, count):
    c.part(f"Calls by chance on {rows} rows, almost full, over {len(numbers)} sets and {len(universe)} IDs")
    chance = random.Random(seed)
    c.run(f"make rows {rows}")
    for low, which in islice(product(universe[1::6], numbers), rows - 3):
        c.run(f"put {which} {low} {low + 2}")
    for _ in range(count):
        random_call(c, chance, numbers, universe)
    c.show(*ALL_SETS)
    for which in numbers:
        for low, high in chance.sample(c.ranges(which), min(2, len(c.ranges(which)))):
            c.run(f"query {which} {low}; query {which} {low - 1}; query {which} {min(high + 1, HIGHEST)}")
    c.run("limit; total")


def corpus():
    c = Corpus()
    for part in (before_the_first_make, makes, every_set, two_ranges, several_ranges, ends_of_replicas, full_stores,
                 moves_and_clears, queries_and_nexts, bad_calls, odd_lines):
        part(c)
    start_of_2, start_of_last = id_of(2, 0), id_of(65535, 0)
    random_stretch(c, 1, 64, ALL_SETS, range(start_of_2 - 18, start_of_2 + 18), 420)
    random_stretch(c, 2, 64, [0, 10], range(start_of_last - 138, start_of_last + 60), 340)
    random_stretch(c, 3, 65, [3, 5, 7], range(HIGHEST - 131, HIGHEST + 1), 340)
    random_stretch(c, 4, 300, ALL_SETS, range(start_of_2 - 84, start_of_2 + 84), 300)
    return b"\n".join(c.lines)


if __name__ == "__main__":
    sys.stdout.buffer.write(corpus())
