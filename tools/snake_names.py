#!/usr/bin/env python3
"""Spells the definitions and lemmas of specs/ and proofs/ in snake case: firstAt becomes first_at.

    snake_names.py [--list]      at the top of the repository, once, after the kit's port.py

Taken are the names that a file of specs/ or proofs/ declares with a small first letter and a capital inside: definitions, lemmas, fields, local
ones. They are turned wherever they stand as whole words in .antt and .rt files and in must-fail edits. Types, modules, functions of src/, exported
names and strings keep theirs, and documents are not touched. --list prints the names and changes nothing.
"""
import pathlib
import re
import sys

WORD = re.compile(r"[A-Za-z_«][\w'»]*(?:[-·][\w'·]+)*")
DECLARED = re.compile(r"^\s*(?:pub\s+)?(?:abbrev\s+|unfoldable\s+)?(?:pub\s+)?([a-z][\w'-]*)\s*:(?!:)", re.M)
# Lemmas that would have the name of a definition, and two that the kit's script left apart from their like.
LEMMAS = {n: n + "_lem" for n in ("digits_of", "each_part", "next_place", "one_more", "rows_in", "runs_done")}
LEMMAS |= {"below-at2": "below_at2", "below-at3": "below_at3"}
PART = re.compile(r"([A-Z])")


def snake(name):
    """Each part between dashes by itself, getD as the library has it; a part with a capital first letter is the name of a type and stays."""
    return "-".join("get_or" if p == "getD" else p if not p[:1].islower() else PART.sub(lambda m: "_" + m[1].lower(), p) for p in name.split("-"))


def declared(root):
    names = set()
    for part in ("specs", "proofs"):
        for f in root.glob(f"crates/*/{part}/**/*.antt"):
            names |= {n for n in DECLARED.findall(f.read_text(encoding="utf-8"))}
    return {n: snake(n) for n in names if snake(n) != n}


def main():
    root = pathlib.Path(".")
    table = declared(root)
    if "--list" in sys.argv:
        print("\n".join(f"{a} {b}" for a, b in sorted(table.items())))
        return
    turn = lambda text: WORD.sub(lambda m: table.get(m[0], m[0]), text)
    for f in root.glob("crates/*/proofs/**/*.antt"):
        old = f.read_text(encoding="utf-8")
        new = WORD.sub(lambda m: m[0] if old[:m.start()].endswith(".") else LEMMAS.get(m[0], m[0]), old)
        if new != old:
            f.write_text(new, encoding="utf-8")
    for pattern in ("crates/*/specs/**/*.antt", "crates/*/proofs/**/*.antt", "crates/*/src/**/*.rt", "crates/*/must-fail/*.edit"):
        for f in root.glob(pattern):
            old = f.read_text(encoding="utf-8")
            new = turn(old)
            if new != old:
                f.write_text(new, encoding="utf-8")


if __name__ == "__main__":
    main()
