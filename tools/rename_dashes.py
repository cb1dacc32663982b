"""Brings the repository's own names to one spelling: words in snake case, facts and modules in camel case.

    python3 tools/rename_dashes.py [--list]      once, at the top of the repository, right after the toolchain's own script

A name of ours with dashes (declared in specs/ or proofs/) is written with underscores, and a fact, which begins with a capital, in camel case. A
dash stays where it joins a function to the list function or the operator that it is applied to, as in `spans-take` and `has-++`. Names that the
toolchain makes from the code, and those of its library, stay. With --list it changes nothing and prints what it would rename, and the names that
would fall together.
"""

import re
import sys
from pathlib import Path

NAME = r"[A-Za-z◌_][\w'◌+]*(?:-[\w'+]+)+"
TOKEN = re.compile(r"(?<![\w'◌+-])" + NAME)
LIST_FUNCTIONS = {"++", "take", "drop", "length"}
# A name of ours that fell together with a tactic.
BY_HAND = {"first_of": "first_from"}
# Variables that are bound without a type, and a name that ends in the list function `set`.
ADDED, KEPT = {"in-set", "by-set"}, {"sum-set"}

DECLARED = re.compile(r"^\s*(?:(?:pub|abbrev|unfoldable|record|data)\s+)*(" + NAME + r")\s*(?::|\()(?!:)")
BOUND = re.compile(r"(?:\blet|\bin let|where)\s+(" + NAME + r")\s*(?::|=)")
PARAMETERS = re.compile(r"[({]((?:[\w'-]+\s+)*[\w'-]+)\s*:")
LAMBDAS = re.compile(r"λ\s+((?:[\w'-]+\s+)*[\w'-]+)\s*\.")


def is_answer(path):
    return path.name in ("Answers.antt", "Invariants.antt", "Choices.antt", "Proof.antt")


def ghost_files(root):
    for folder in ("specs", "proofs"):
        yield from sorted(root.glob(f"crates/*/{folder}/**/*.antt"))


def without_comment(line):
    return re.split(r"(?:^|\s)--(?:\s|$)", line)[0]


def declared_in(path):
    found, goals = set(), set()
    for line in path.read_text(encoding="utf-8").splitlines():
        code = without_comment(line)
        if is_answer(path) and re.match(r"^\s*(?:abbrev\s+)?pub\s+" + NAME + r"\s*:\s*goal\.", code):
            goals.add(re.search(NAME, code.split(":")[0]).group())
            continue
        for match in (DECLARED.match(code), *BOUND.finditer(code)):
            if match:
                found.add(match.group(1))
        for group in (*PARAMETERS.finditer(code), *LAMBDAS.finditer(code)):
            found.update(word for word in group.group(1).split() if "-" in word)
    return found - goals


def respelled(name):
    if name in BY_HAND:
        return BY_HAND[name]
    if name[0].isupper():
        return "".join((part.capitalize() if part.isupper() or part == "IDs" else part[0].upper() + part[1:]) for part in name.split("-"))
    words = name.split("-")
    if len(words) > 1 and words[-1] in LIST_FUNCTIONS and len(words) == 2:
        return name
    return "_".join(words[:-1]) + "-++" if words[-1] == "++" else "_".join(words)


def text_files(root):
    yield from ghost_files(root)
    yield from sorted(root.glob("crates/*/src/**/*.rt"))


def main(root, only_list):
    own = set(ADDED)
    for path in ghost_files(root):
        own |= declared_in(path)
    renamed = {name: respelled(name) for name in own - KEPT if respelled(name) != name}
    taken = set()
    for path in text_files(root):
        taken |= set(re.findall(r"[A-Za-z_][\w']*", path.read_text(encoding="utf-8")))
    together = sorted(name for name, new in renamed.items() if new in taken or list(renamed.values()).count(new) > 1)
    if only_list:
        for name in sorted(renamed):
            print(name, "->", renamed[name], "(falls together)" if name in together else "")
        return
    for path in text_files(root):
        text = path.read_text(encoding="utf-8")
        new = TOKEN.sub(lambda match: renamed.get(match.group(), match.group()), text)
        for old, other in BY_HAND.items():
            if path.suffix == ".antt":
                new = re.sub(rf"(?<![\w'.-]){old}(?![\w'-])", other, new)
        if new != text:
            path.write_text(new, encoding="utf-8")


if __name__ == "__main__":
    main(Path.cwd(), sys.argv[1:] == ["--list"])
