#!/usr/bin/env python3
"""Writes the bytes of rules files as antt lists, so that theorems can speak of the files' own bytes.

    tools/rules_as_antt.py > crates/shipped/specs/Bytes.antt
    tools/rules_as_antt.py --check     fails if crates/shipped/specs/Bytes.antt is not what the files give
"""
import sys
from pathlib import Path

ROOT = Path(__file__).resolve().parent.parent
SPEC = ROOT / "crates/shipped/specs/Bytes.antt"
GAMES = ["a", "b", "c", "c1", "d", "e", "f", "g"]
HEAD = """-- The bytes of the shipped rules files: made from them by tools/rules_as_antt.py, and not by hand. Assumes nothing.
--   {names}  the bytes of the file of that name in examples/
use Rattle.std.specs.Prelude.{{ℕ, List, [], ◌∷◌}}
"""


def as_list(game):
    """The definition of one file's bytes, twenty to a line."""
    cells = [f"{byte} ∷" for byte in (ROOT / f"examples/{game}.rules").read_bytes()] + ["[]"]
    lines = [" ".join(cells[at : at + 20]) for at in range(0, len(cells), 20)]
    return f"\n-- examples/{game}.rules\nabbrev pub {game}_bytes : List ℕ\n{game}_bytes =\n    " + "\n    ".join(lines) + "\n"


made = HEAD.format(names=", ".join(f"{game}_bytes" for game in GAMES)) + "".join(map(as_list, GAMES))
if sys.argv[1:] != ["--check"]:
    sys.stdout.write(made)
elif SPEC.read_text() != made:
    sys.exit("rules_as_antt: crates/shipped/specs/Bytes.antt is not what the rules files give")
