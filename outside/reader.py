"""The outside reader: reads a script of calls on standard input and prints the answers.

Written from docs/SCRIPT.md and the documents that it names, and from nothing else.

    python3 outside/reader.py < script
"""

import re
import sys
from typing import Callable, NamedTuple

sys.dont_write_bytecode = True  # no __pycache__ in the repository

import sets

WORD = re.compile(rb"[^ \t\r]+")
MOST_DIGITS = len(str(sets.HIGHEST))


class BadCall(Exception):
    """The line is no call."""


class Session:
    """What stays from one call to the next."""

    def __init__(self):
        self.store = None


# Words. Each function gives a word's value, or raises BadCall.


def number(word):
    """A number of 64 bits. Counts the digits first, for a word may have thousands of them."""
    if not word.isdigit():
        raise BadCall
    digits = word.lstrip(b"0") or b"0"
    if len(digits) > MOST_DIGITS or int(digits) > sets.HIGHEST:
        raise BadCall
    return int(digits)


def set_number(word):
    value = number(word)
    if value >= sets.SET_COUNT:
        raise BadCall
    return value


def literal(text):
    def same(word):
        if word != text.encode():
            raise BadCall
        return text

    return same


# Parsers. Each takes the words behind the call's name and gives its arguments, or raises BadCall.
# The arguments are what the normal form prints.


def arguments(*kinds):
    def parse(words):
        if len(words) != len(kinds):
            raise BadCall
        return [kind(word) for kind, word in zip(kinds, words)]

    return parse


def set_and_range(words):
    which, low, high = arguments(set_number, number, number)(words)
    if not sets.is_range(low, high):
        raise BadCall
    return [which, low, high]


# Actions. Each takes the session and the arguments, and gives what is printed behind `ok`, or raises Refused.


def make(session, _rows, count):
    session.store = sets.Store(count)
    return ""


def put(session, which, low, high):
    session.store.put(which, low, high)
    return ""


def take(session, which, low, high):
    session.store.take(which, low, high)
    return ""


def move(session, source, target):
    session.store.move(source, target)
    return ""


def clear(session, which):
    session.store.clear(which)
    return ""


def query(session, which, asked):
    return "true" if session.store.holds(which, asked) else "false"


def next_range(session, which, asked):
    found = session.store.next(which, asked)
    return f"{found[0]} {found[1]}" if found else "none"


def total(session):
    return str(session.store.total())


def limit(session):
    return str(session.store.limit)


class Call(NamedTuple):
    parse: Callable
    act: Callable
    needs_copy: bool = True


CALLS = {
    b"make": Call(arguments(literal("rows"), number), make, needs_copy=False),
    b"put": Call(set_and_range, put),
    b"take": Call(set_and_range, take),
    b"move": Call(arguments(set_number, set_number), move),
    b"clear": Call(arguments(set_number), clear),
    b"query": Call(arguments(set_number, number), query),
    b"next": Call(arguments(set_number, number), next_range),
    b"total": Call(arguments(), total),
    b"limit": Call(arguments(), limit),
}


def answer_call(session, call, values):
    if call.needs_copy and session.store is None:
        return "no copy"
    try:
        return f"ok {call.act(session, *values)}".rstrip()
    except sets.Refused as refusal:
        return f"refused {refusal.number} {refusal.layer}"


def answer_words(session, words):
    name = words[0]
    try:
        if name not in CALLS:
            raise BadCall
        values = CALLS[name].parse(words[1:])
    except BadCall:
        return b" ".join(words) + b" => bad call"
    shown = " ".join([name.decode(), *map(str, values)])
    return f"{shown} => {answer_call(session, CALLS[name], values)}".encode()


def answer_line(session, line):
    """What one line of the script prints, without the line feed; None where the line is skipped."""
    words = WORD.findall(line)
    if not words or words[0].startswith(b"#"):
        return None
    return answer_words(session, words)


def answer_script(script):
    """All that a script prints."""
    session = Session()
    answers = [answer_line(session, line) for line in script.split(b"\n")]
    return b"".join(answer + b"\n" for answer in answers if answer is not None)


if __name__ == "__main__":
    sys.stdout.buffer.write(answer_script(sys.stdin.buffer.read()))
