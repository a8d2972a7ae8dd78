#!/usr/bin/env python3
"""Brings the repository's own names in crates/ to one spelling: definitions, constructors and fields in snake case; in a law's name a dash
joins the names that it speaks of. Types, modules, functions of src/ and exported names keep theirs.

usage: python3 tools/respell.py [--list]      at the top; --list prints the names and changes nothing
"""

import glob
import re
import sys

NAME = re.compile(r"(?<![\w'·-])[a-z][\w'-]*(?<!-)")
HEAD = re.compile(r"^(?P<indent>\s*)(?:pub )?(?:(?:unfoldable|abbrev|irrelevant) )?(?:pub )?(?P<names>[a-z][\w' -]*?)(?: [({][^:]*)? : ")


# Names of laws that a definition's would fall together with, by where they stand.
APART = {
    "number_fits": ("number-fits", "crates/definitions/proofs/"),
    "not_yet": ("not-yet", "crates/definitions/proofs/CheckCases"),
    "one_more": ("one-more", "crates/definitions/proofs/"),
    "first_entry": ("first-entry", "crates/definitions/proofs/UnlawfulWays"),
    "back_to": ("back_to-some", "crates/ledger/proofs/"),
}


def snake(part):
    part = part.replace("S4U2", "_s4u2")
    return re.sub(r"(?<=[a-z0-9'])([A-Z])(?=[a-z0-9]|$)", lambda m: "_" + m.group(1).lower(), part)


def spelled(name, law):
    if law:
        return "-".join(snake(part) for part in name.split("-"))
    return snake(name).replace("-", "_")


def owned(path):
    """The names that a file declares, each with whether it is a law's."""
    inside = None
    for line in open(path, encoding="utf-8"):
        start = re.match(r"^(\s*)(?:pub )?(?:record|data) ", line)
        if start:
            inside = len(start.group(1))
            continue
        head = HEAD.match(line)
        if line.strip() and not line.lstrip().startswith("--") and inside is not None and len(line) - len(line.lstrip()) <= inside:
            inside = None
        if head:
            for name in head.group("names").split():
                if name[0].islower() and name not in ("pub", "abbrev", "unfoldable", "irrelevant", "record", "data"):
                    yield name, "/proofs/" in path


def table():
    names = {}
    for path in sorted(glob.glob("crates/*/specs/*.antt")) + sorted(glob.glob("crates/*/proofs/*.antt")):
        for name, law in owned(path):
            names.setdefault(name, spelled(name, law))
    return {old: new for old, new in names.items() if old != new}, set(names)


def main():
    changes, names = table()
    for old, new in sorted(changes.items()):
        if "--list" in sys.argv:
            print(old, new, "(stands already)" if new in names else "")
    together = {}
    for old, new in changes.items():
        together.setdefault(new, []).append(old)
    for new, olds in sorted(together.items()):
        if len(olds) > 1:
            print("fall together:", new, *olds)
    if "--list" in sys.argv:
        return
    files = [p for form in ("crates/*/src/**/*.rt", "crates/*/specs/**/*.antt", "crates/*/proofs/**/*.antt", "crates/*/must-fail/*.edit", "wrong/*/*.edit") for p in glob.glob(form, recursive=True)]
    for path in files:
        text = open(path, encoding="utf-8").read()
        apart = {old: new for old, (new, where) in APART.items() if path.startswith(where)}
        after = NAME.sub(lambda m: apart.get(m.group(0)) or changes.get(m.group(0), m.group(0)), text)
        if after != text:
            open(path, "w", encoding="utf-8").write(after)


main()
