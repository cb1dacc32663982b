"""Checks that the crates answer their scripts and workloads as the outside readers do.

    python3 outside/check.py            checks storebench, and every crate that has the files stdin and stdout and no file args
    python3 outside/check.py --write    writes the files stdin and stdout of mailcopy and storebench instead

Either way the sets are first checked against Python's own sets of numbers.
"""

import random
import sys
from itertools import combinations, combinations_with_replacement, zip_longest
from pathlib import Path

sys.dont_write_bytecode = True  # no __pycache__ in the repository

import reader
import sets
import store_corpus
import workload

CRATES = Path(__file__).resolve().parent.parent / "crates"
CORPUS_CRATE = CRATES / "mailcopy"
WORKLOAD_CRATE = CRATES / "storebench"


# The sets against Python's own.


def around_boundary(count):
    """The last IDs of REPLID 1 and as many of the first of REPLID 2."""
    boundary = sets.id_of(2, 0)
    return range(boundary - count, boundary + count)


def is_beside(number, other, members):
    return other in members and sets.replica_of(other) == sets.replica_of(number)


def maximal_ranges(members):
    """Each ID without a predecessor of its REPLID begins a range, each without a successor ends one."""
    lows = sorted(number for number in members if not is_beside(number, number - 1, members))
    highs = sorted(number for number in members if not is_beside(number, number + 1, members))
    return list(zip(lows, highs))


def all_ranges(universe):
    pairs = combinations_with_replacement(universe, 2)
    return [(low, high) for low, high in pairs if sets.is_range(low, high)]


def all_sets(universe):
    return [set(members) for size in range(len(universe) + 1) for members in combinations(universe, size)]


def check_one_set(members, universe, spans):
    ranges = maximal_ranges(members)
    for low, high in spans:
        span = set(range(low, high + 1))
        assert sets.add(ranges, low, high) == maximal_ranges(members | span), (ranges, low, high)
        assert sets.remove(ranges, low, high) == maximal_ranges(members - span), (ranges, low, high)
    for number in [0, universe[0] - 1, *universe, universe[-1] + 1, sets.HIGHEST]:
        at_or_above = [(low, high) for low, high in ranges if high >= number]
        assert sets.holds(ranges, number) == (number in members), (ranges, number)
        assert sets.next_range(ranges, number) == (min(at_or_above) if at_or_above else None), (ranges, number)


def check_every_small_set():
    universe = around_boundary(4)
    spans = all_ranges(universe)
    for members in all_sets(universe):
        check_one_set(members, universe, spans)


def change_by_chance(chance, members, spans):
    """A call on the store, and the eleven sets of numbers after it."""
    name = chance.choices(("put", "take", "move", "clear"), (200, 200, 1, 1))[0]
    which, other, span = chance.randrange(sets.SET_COUNT), chance.randrange(sets.SET_COUNT), chance.choice(spans)
    after = list(members)
    if name == "move":
        after[which], after[other] = set(), members[which]
        return name, (which, other), after
    if name == "clear":
        after[which] = set()
        return name, (which,), after
    numbers = set(range(span[0], span[1] + 1))
    after[which] = members[which] | numbers if name == "put" else members[which] - numbers
    return name, (which, *span), after


def check_store():
    """A store of 64 against eleven sets of numbers, over a universe where the limit is met."""
    chance, store, refused = random.Random(64), sets.Store(64), {"put": 0, "take": 0}
    members = [set() for _ in range(sets.SET_COUNT)]
    spans = [(low, high) for low, high in all_ranges(around_boundary(20)) if high - low < 2]
    for _ in range(3000):
        name, arguments, after = change_by_chance(chance, members, spans)
        try:
            getattr(store, name)(*arguments)
        except sets.Refused as refusal:
            assert (refusal.number, refusal.layer) == (25, "store")
            assert sum(len(maximal_ranges(one)) for one in after) > 64, (name, arguments)
            refused[name] += 1
        else:
            members = after
        assert store.sets == [maximal_ranges(one) for one in members], (name, arguments)
        assert store.total() <= store.limit == 64
    assert min(refused.values()) > 20, refused


def check_limits():
    for rows in (0, 63, 65536, sets.HIGHEST):
        try:
            sets.Store(rows)
        except sets.Refused as refusal:
            assert (refusal.number, refusal.layer) == (1, "store")
        else:
            raise AssertionError(rows)
    assert [sets.Store(rows).limit for rows in (64, 65535)] == [64, 65535]


def check_sets():
    check_every_small_set()
    check_store()
    check_limits()
    print("outside: sets.py agrees with sets of numbers")


# The crates against the reader.


def is_script_crate(folder):
    return (folder / "stdin").is_file() and (folder / "stdout").is_file() and not (folder / "args").exists()


def shown(line):
    return "no line" if line is None else ascii(line.decode("latin-1"))


def check_crate(folder):
    theirs = (folder / "stdout").read_bytes()
    ours = reader.answer_script((folder / "stdin").read_bytes())
    if theirs == ours:
        print(f"outside: {folder.name}: {ours.count(bytes([10]))} lines agree")
        return True
    pairs = zip_longest(theirs.split(b"\n"), ours.split(b"\n"))
    number, (their, our) = next((number, pair) for number, pair in enumerate(pairs, 1) if pair[0] != pair[1])
    print(f"outside: {folder.name}: line {number} differs: stdout has {shown(their)}, the reader {shown(our)}")
    return False


def check_corpus():
    path = CORPUS_CRATE / "stdin"
    if path.is_file() and path.read_bytes() == store_corpus.corpus():
        return True
    print(f"outside: {CORPUS_CRATE.name}: stdin is not what store_corpus.py makes")
    return False


def check_workload():
    made = workload.workload()
    files = {"stdin": made, "stdout": workload.output(made)}
    for name, text in files.items():
        path = WORKLOAD_CRATE / name
        if not path.is_file() or path.read_bytes() != text.encode():
            print(f"outside: {WORKLOAD_CRATE.name}: {name} is not what workload.py makes")
            return False
    print(f"outside: {WORKLOAD_CRATE.name}: the digest of {made.count(chr(10))} lines agrees")
    return True


def check_crates():
    folders = sorted(folder for folder in CRATES.iterdir() if is_script_crate(folder))
    if CORPUS_CRATE not in folders:
        print(f"outside: {CORPUS_CRATE.name}: stdin or stdout is missing")
        return False
    return all([check_corpus(), *map(check_crate, folders), check_workload()])


def write_files(folder, stdin, stdout):
    (folder / "stdin").write_bytes(stdin)
    (folder / "stdout").write_bytes(stdout)
    print(f"outside: {folder.name}: stdin and stdout written")


def write():
    corpus, made = store_corpus.corpus(), workload.workload()
    write_files(CORPUS_CRATE, corpus, reader.answer_script(corpus))
    write_files(WORKLOAD_CRATE, made.encode(), workload.output(made).encode())


def main(arguments):
    if arguments not in ([], ["--write"]):
        sys.exit("usage: check.py [--write]")
    check_sets()
    if arguments:
        write()
    elif not check_crates():
        sys.exit(1)


if __name__ == "__main__":
    main(sys.argv[1:])
