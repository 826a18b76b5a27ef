#!/usr/bin/env python3
"""Prints the table of the carry as the printer maker ships it, from the code's table in crates/check_characters/src/steps.rt:
python3 tests/carry_table.py. docs/carry-table.txt holds what it prints. A table of another shape is told, and nothing is printed."""
import pathlib
import re
import string
import sys

CODE = pathlib.Path(__file__).resolve().parent.parent / "crates/check_characters/src/steps.rt"
SYMBOLS = string.digits + string.ascii_uppercase

HEAD = """\
The carry of a DPD number after one more symbol (ISO/IEC 7064, MOD 37,36).
Row: the carry before the symbol. Column: the symbol. Where the two meet stands the carry after it.
Before the first symbol the carry is 36. Behind the check of a number that passes it is 2.
For the symbols 0, 9, 9 and 8 it goes from 36 to 35, 16, 13 and 5.
"""


def entries(code):
    """The entries of the code's table. A comment, which ends its line, names the carry behind the first entry of each."""
    table = re.findall(r"^const STEPS: \[u8; 1296\] = \[\n(.*?)^\];$", code, re.DOTALL | re.MULTILINE)
    if len(table) != 1:
        sys.exit(f"test: {CODE.name} has {len(table)} tables of the form `const STEPS: [u8; 1296] = [..];`")
    found = []
    for line in table[0].splitlines():
        laid = re.fullmatch(r" *((?:[0-9]+, )*)([0-9]+),(?: // carry ([0-9]+))?", line)
        if not laid:
            sys.exit(f"test: {CODE.name}, behind entry {len(found) - 1}: no entries: {line!r}")
        for number, told in [(number, None) for number in laid[1].split(", ")[:-1]] + [(laid[2], laid[3])]:
            number, named = int(number), told and int(told)
            if not 1 <= number <= 36:
                sys.exit(f"test: {CODE.name}, entry {len(found)}: {number} is no carry")
            carry, value = divmod(len(found), len(SYMBOLS))
            if named != (None if value else carry + 1):
                sys.exit(f"test: {CODE.name}, entry {len(found)}, value {value} of carry {carry + 1}: names {named or 'no carry'}")
            found.append(number)
    if len(found) != 1296:
        sys.exit(f"test: {CODE.name} has {len(found)} entries, and not 1296")
    return found


def row(name, cells):
    return f"{name:>6} |" + "".join(f"{cell:>3}" for cell in cells)


def printed(table):
    width = len(SYMBOLS)
    head = [row("symbol", SYMBOLS), row("value", range(width)), "-------+" + "---" * width]
    rows = [row(carry, table[(carry - 1) * width : carry * width]) for carry in range(1, 37)]
    return "\n".join([HEAD, *head, *rows, ""])


if __name__ == "__main__":
    sys.stdout.write(printed(entries(CODE.read_text(encoding="utf-8"))))
