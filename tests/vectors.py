#!/usr/bin/env python3
"""Answers the vectors of crates/test_vectors/stdin by an implementation of its own, written from ISO/IEC 7064, document 01 and section 4.1
of document 000, for comparison with what the proved program prints: python3 tests/vectors.py < crates/test_vectors/stdin"""
import string
import sys

SYMBOLS = string.digits + string.ascii_uppercase


def carry(text):
    """The recursive method of ISO/IEC 7064 with M = 36: P starts at M, and S is read as M where it is divisible by M."""
    p = 36
    for symbol in text:
        s = (p + SYMBOLS.index(symbol)) % 36
        p = (s or 36) * 2 % 37
    return p


def next_carry(before, key):
    """The carry after one more key; there are carries 1 to 36, and no other."""
    if not 1 <= before <= 36:
        return "no 15 0"
    if len(key) != 1 or key not in SYMBOLS:
        return "no 17 0"
    s = (before + SYMBOLS.index(key)) % 36
    return str((s or 36) * 2 % 37)


def asked(text):
    before, _, key = text.partition(" ")
    return next_carry(int(before), key)


def typed(text):
    """The carry after each key. Who overlooks a refusal goes on with 0."""
    answers, before = [], 36
    for key in text:
        answers.append(next_carry(before, key))
        before = int(answers[-1]) if answers[-1].isdigit() else 0
    return " ".join(answers)


def check_character(text):
    (found,) = [c for c in SYMBOLS if (carry(text) + SYMBOLS.index(c)) % 36 == 1]
    return found


def first_wrong(text, classes):
    for place, (symbol, allowed) in enumerate(zip(text, classes)):
        if symbol not in allowed:
            return place
    return None


def number_classes(length):
    letters = range(7) if length == 28 else ()
    return [SYMBOLS if i in letters or i == length - 1 else string.digits for i in range(length)]


def number(text):
    if len(text) not in (15, 28):
        return "no 16 0"
    wrong = first_wrong(text, number_classes(len(text)))
    if wrong is not None:
        return f"no 17 {wrong}"
    if check_character(text[:-1]) != text[-1]:
        return f"no 18 {len(text) - 1}"
    return "tracking number" if len(text) == 15 else "label code"


def day(text):
    """A room of answer bytes, which hold 99, and the numbers of a day, 15 symbols after 15; each is answered as it would be alone."""
    room, _, numbers = text.partition(" ")
    answers = [99] * int(room)
    alone = [number(numbers[start : start + 15]) for start in range(0, len(numbers), 15)]
    if len(numbers) % 15:
        told = "no 16 0"
    elif len(answers) < len(alone):
        told = "no 13 0"
    else:
        told = f"passed {alone.count('tracking number')}"
        answers[: len(alone)] = [int(answer.split()[1]) if answer.startswith("no ") else 0 for answer in alone]
    return " ".join([told, *map(str, answers)])


def issued(body):
    if len(body) not in (14, 27):
        return "no 16 0"
    wrong = first_wrong(body, number_classes(len(body) + 1))
    if wrong is not None:
        return f"no 17 {wrong}"
    return (body + check_character(body)).ljust(30, ".")


def iban(text):
    if not 15 <= len(text) <= 34:
        return "no 16 0"
    classes = [string.ascii_uppercase] * 2 + [string.digits] * 2 + [SYMBOLS] * 30
    wrong = first_wrong(text, classes)
    if wrong is not None:
        return f"no 17 {wrong}"
    value = int("".join(str(SYMBOLS.index(c)) for c in text[4:] + text[:4]))
    if text[2:4] in ("00", "01", "99") or value % 97 != 1:
        return "no 18 2"
    return "IBAN"


# The widths of an identcode's parts: origin, customer, sequence, product, destination, check.
WIDTHS = (2, 5, 8, 2, 4, 1)


def check_digit(body):
    """Each digit at an odd place, counted from 1, counts three times; 10 minus the remainder by 10, and 0 where that is 0."""
    weighted = 3 * sum(map(int, body[0::2])) + sum(map(int, body[1::2]))
    return str((10 - weighted % 10) % 10)


def not_digits(text, length):
    """What refuses a text that is not so many digits; none where it is."""
    if len(text) != length:
        return "no 16 0"
    wrong = first_wrong(text, [string.digits] * length)
    return None if wrong is None else f"no 17 {wrong}"


def identcode(text):
    refused = not_digits(text, 22)
    if refused:
        return refused
    return "identcode" if text[21] == check_digit(text[:21]) else "no 18 21"


def parts(text):
    answer = identcode(text)
    if answer != "identcode":
        return answer
    return " ".join(text[sum(WIDTHS[:part]) : sum(WIDTHS[: part + 1])] for part in range(6))


def issued_identcode(body):
    return not_digits(body, 21) or (body + check_digit(body)).ljust(30, ".")


ANSWERS = {
    "N": number,
    "B": issued,
    "C": check_character,
    "I": iban,
    "D": identcode,
    "P": parts,
    "J": issued_identcode,
    "K": asked,
    "T": typed,
    "A": day,
}

if __name__ == "__main__":
    for line in sys.stdin.read().splitlines():
        what, text = line[0], line[2:]
        print(text, ANSWERS[what](text))
