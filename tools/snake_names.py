#!/usr/bin/env python3
"""Spells the repository's own definitions and lemmas in snake case, where an older Rattle had camel case.

usage: tools/snake_names.py [FOLDER]

FOLDER is the top of the repository (default: here), after port.py has run there. It changes specs/ and proofs/ (*.antt), the clauses and
comments of src/ (*.rt), and the `old:` and `new:` lines of must-fail/*.edit. Types and modules keep their camel case, and so does each
part of a name that begins with a capital. Names of Rust items have no capitals, so none changes. It changes nothing when run again.

Four names would fall together with another in one file; `FIRST` gives them another name before the rest is spelled.
"""

import pathlib
import re
import sys

NAME = re.compile(r"[A-Za-z_][A-Za-z0-9_'-]*")

# (file, name, new name): a lemma that would get its function's name ends in _lem
FIRST = [
    ("crates/model/proofs/Keeps/WakingOrder.antt", "by_call", "by_call_lem"),
    ("crates/demand3/proofs/ActsKeep.antt", "goes_on", "goes_on_lem"),
    ("crates/sites/proofs/LookLaws.antt", "held_found", "held_found_lem"),
    ("crates/row_rules/proofs/BlankLaws.antt", "zeroRow", "isZeroRow"),
]

# the library's getD is get_or now
OTHERWISE = {"getD-sets-after": "get_or-sets-after"}


def snake(name):
    if name in OTHERWISE:
        return OTHERWISE[name]
    parts = name.split("-")
    return "-".join(re.sub(r"(?<=[a-z0-9])[A-Z]", lambda m: "_" + m[0].lower(), p) if p[:1].islower() else p for p in parts)


def spelled(text):
    return NAME.sub(lambda m: snake(m[0]), text)


def spelled_edit(text):
    lines = text.split("\n")
    return "\n".join(spelled(line) if line.startswith(("old:", "new:")) else line for line in lines)


def main():
    top = pathlib.Path(sys.argv[1] if len(sys.argv) > 1 else ".")
    for name, old, new in FIRST:
        path = top / name
        text = path.read_text(encoding="utf-8")
        again = re.sub(rf"(?<![\w'.-]){re.escape(old)}(?![\w'-])", new, text)
        if again != text:
            path.write_text(again, encoding="utf-8")
    for pattern, turn in (("crates/*/specs/**/*.antt", spelled), ("crates/*/proofs/**/*.antt", spelled), ("crates/*/src/**/*.rt", spelled),
                          ("crates/*/must-fail/*.edit", spelled_edit)):
        for path in sorted(top.glob(pattern)):
            text = path.read_text(encoding="utf-8")
            again = turn(text)
            if again != text:
                path.write_text(again, encoding="utf-8")


main()
