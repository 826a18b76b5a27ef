#!/usr/bin/env python3
"""Holds each wrong program of crates/*/must-fail against its crate as it stands, so that one whose text a change took away is told at
once, and not by `rt ci` behind all proofs: python3 tests/edits.py. Whether it compiles only the prover says: `rt ci` calls one that does not
a BAD EDIT, and ./test fails there."""
import pathlib
import re
import sys

CRATES = pathlib.Path("crates")
NAME = r"[A-Za-z0-9_-][A-Za-z0-9_.-]*\.edit"
FILE = r"(?:src|specs|proofs)(?:/[A-Za-z0-9_+-][A-Za-z0-9_.+-]*)+"


def fault(crate, edit):
    """What keeps an edit from being applied, as the prover would; none where it makes another program."""
    if edit.is_dir() or not re.fullmatch(NAME, edit.name):
        return "an edit is a file of its own, and its name ends in .edit"
    path, old, were, texts = None, None, {}, {}
    for row in edit.read_text(encoding="utf-8").split("\n"):
        if row.startswith("file: "):
            path = row[len("file: ") :].strip()
            if not re.fullmatch(FILE, path) or not (crate / path).is_file():
                return f"its crate has no file {path} in src/, specs/ or proofs/"
            were.setdefault(path, (crate / path).read_text(encoding="utf-8"))
            texts.setdefault(path, were[path])
        elif row.startswith("old: "):
            if old:
                return f"no 'new:' behind 'old: {old}'"
            old = row[len("old: ") :]
        elif row.startswith("new:"):
            if not path or not old:
                return f"no 'file:' and 'old:' in front of '{row}'"
            if texts[path].count(old) != 1:
                return f"stands {texts[path].count(old)} times in {path}: {old}"
            new = row[len("new:") :].removeprefix(" ")
            if new == old:
                return f"changes nothing: {old}"
            texts[path], old = texts[path].replace(old, new), None
        elif row.strip() and not row.startswith(("#", "--", "//")):
            return f"a line that is not read: {row}"
    if old:
        return f"no 'new:' behind 'old: {old}'"
    return None if texts != were else "no replacement, or one that changes nothing"


def main():
    count, wrong = 0, []
    for edit in sorted(CRATES.glob("*/must-fail/*")):
        crate = edit.parent.parent
        found = fault(crate, edit)
        if found:
            wrong.append(f"{crate.name}/{edit.name}: {found}")
        count += 1
    for found in wrong:
        print(f"test: {found}")
    if wrong or not count:
        sys.exit(1)
    print(f"test: {count} wrong programs: each changes its crate in the places that it names")


main()
