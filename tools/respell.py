#!/usr/bin/env python3
"""Respells the repository's own antt names as the kit spells its names: words in snake case, facts and types in camel case.

    tools/respell.py          rewrites crates/*/{src,specs,proofs} and the names in back quotes of README.md and docs/
    tools/respell.py --list   prints each name with its new spelling

Run once, after the kit's own port.py. Two kinds of names keep their dashes: those of the kit, which a text imports from it,
and those that the prover makes, which stand as a goal's answer, in an import from a function's goals, or after a dot.
"""
import re
import sys
from pathlib import Path

ROOT = Path(__file__).resolve().parent.parent
CRATES = [path.name for path in ROOT.glob("crates/*")]
ANTT = sorted(path for part in ("specs", "proofs") for path in ROOT.glob(f"crates/*/{part}/**/*.antt"))
CODE = sorted(ROOT.glob("crates/*/src/*.rt"))
PAGES = [ROOT / "README.md", *sorted(ROOT.glob("docs/*.md"))]

NAME = re.compile(r"(?<![\w'◌+-])[A-Za-z]\w*(?:-\w+)+'*(?![\w◌+-])")
USE = re.compile(r"^(?:pub |ghost )?use ([\w'.+·-]+)\.\{([^}]*)\};?$", re.M)
GOAL = re.compile(r"goal\.([\w'-]+)")
BLOCK = re.compile(r"^(?:pub )?(?:data|record)\b.*\n((?:(?: .*)?\n)*)", re.M)
MEMBER = re.compile(r"^ +(?:pub )?([A-Za-z][\w'-]*) : ", re.M)
HEADER = re.compile(r"^(--   \S.*?)(  +)(?=\S)", re.M)

# Where the rule gives a name that is taken, another that says the same.
TAKEN = {"bit-and": "bit_of_and", "bit-or": "bit_of_or", "bit-xor": "bit_of_xor", "Of-rules": "ArenaOfRules"}


def own(path):
    """Whether a module is the repository's: it is in one of its crates, and not among the goals of a function."""
    return bool(re.match(rf"Rattle[.·](?:{'|'.join(CRATES)})\b", path)) and not re.search(r"\.(?:Goals|Given)$", path)


def names(text):
    """The dashed names in a text that are the repository's own, and among them those of fields and constructors."""
    text = re.sub(r"--.*", "", text)
    foreign = {word for path, words in USE.findall(text) if not own(path) for word in re.split(r"[,\s]+", words)}
    foreign |= set(GOAL.findall(text))
    found = {word[0] for word in NAME.finditer(text) if text[word.start() - 1 : word.start()] != "."}
    members = {name for block in BLOCK.findall(text) for name in MEMBER.findall(block) if "-" in name}
    return found - foreign, members


def respelt(name):
    """The new spelling of one name."""
    if name in TAKEN:
        return TAKEN[name]
    words = name.replace("getD", "get_or").split("-")
    if name[0].isupper():
        return "".join(word[0].upper() + word[1:] for word in words)
    return "_".join(words)


def rewrite(text, words, members):
    """The text with each of the names respelt; after a dot only a field or a constructor is one."""

    def spelling(found):
        after_dot = text[found.start() - 1 : found.start()] == "."
        return respelt(found[0]) if found[0] in (members if after_dot else words) else found[0]

    return NAME.sub(spelling, text)


def with_columns(text, words, members):
    """The text rewritten, where what a header says of its names stays in its column."""

    def heading(found):
        head = rewrite(found[1], words, members)
        return head + " " * max(2, len(found[0]) - len(head))

    return rewrite(HEADER.sub(heading, text), words, members)


def clashes(words):
    """New names that an antt text has already, but for a part of a path or a remark, or that two names get."""
    there, seen = set(), {}
    for path in ANTT:
        text = re.sub(r"--.*", "", path.read_text())
        there |= set(re.findall(r"(?<![\w'.+-])[\w'-]+", text))
    for old in sorted(words):
        new = respelt(old)
        if new in there or seen.setdefault(new, old) != old:
            yield f"{old} as {new}"


def main():
    found = [names(path.read_text()) for path in ANTT]
    words = set().union(*(words for words, _ in found))
    members = set().union(*(members for _, members in found))
    if sys.argv[1:] == ["--list"]:
        print("\n".join(f"{old} {respelt(old)}" for old in sorted(words)))
        return
    if taken := list(clashes(words)):
        sys.exit("respell: taken already: " + ", ".join(taken))
    for path in ANTT + CODE:
        path.write_text(with_columns(path.read_text(), words, members))
    for path in PAGES:
        path.write_text(re.sub(r"`[^`\n]*`", lambda quote: rewrite(quote[0], words, members), path.read_text()))


if __name__ == "__main__":
    main()
