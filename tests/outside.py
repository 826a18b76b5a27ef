"""Holds numbers, days of them, carries, IBANs and identcodes against stdnum: /usr/bin/python3 tests/outside.py COUNT SEED PROGRAM..., where
the program answers requests as tests/compare/src/bin/numbers.rs does. COUNT requests of each kind are made, whole and damaged.

stdnum knows the check characters, not our profile of them (document 01). So:
- MOD 37,36 knows neither lengths nor where a letter may stand. Where length and symbols are right, stdnum's verdict is compared;
  elsewhere the library must answer exactly 16 or 17 at its place.
- MOD 97-10 is compared as it is: the remainder of the rearranged symbols.
- stdnum.iban knows countries and their lengths, which the profile leaves out. It is compared on IBANs in their country's structure;
  out of it only MOD 97-10 is compared.
- stdnum takes check digits 00, 01 and 99 where the remainder is 1. The profile bars them: the library must answer 18.
- stdnum.iban takes spaces and small letters. The library must refuse what stdnum takes there, by 17 or by 16.
- stdnum knows no carries, but the checksum of a run of symbols: the sum that is left modulo 36 behind the last of them, with 0 as it is.
  The carry is that sum with 0 read as 36, doubled and reduced modulo 37, as stdnum does it with the next symbol.
- stdnum knows no identcodes, but the check digit of EAN numbers: stdnum.ean weighs with 3, 1, 3, 1 from the right. Over 21 digits that
  is the same as from the left (document 000, 4.1.6), since 21 is odd; so it is the same check digit, by an implementation of others."""
import collections
import random
import re
import string
import subprocess
import sys

from stdnum import ean
from stdnum import iban as outside_iban
from stdnum import numdb
from stdnum.iso7064 import mod_37_36, mod_97_10

from vectors import SYMBOLS, first_wrong, not_digits, number_classes

LETTERS = string.ascii_uppercase
DIGITS = string.digits
BARRED = ("00", "01", "99")


def expected_number(text):
    if len(text) not in (15, 28):
        return "no 16 0"
    wrong = first_wrong(text, number_classes(len(text)))
    if wrong is not None:
        return f"no 17 {wrong}"
    if not mod_37_36.is_valid(text):
        return f"no 18 {len(text) - 1}"
    return "tracking" if len(text) == 15 else "label"


def expected_issue(body):
    if len(body) not in (14, 27):
        return "no 16 0"
    wrong = first_wrong(body, number_classes(len(body) + 1))
    if wrong is not None:
        return f"no 17 {wrong}"
    return body + mod_37_36.calc_check_digit(body)


def expected_carry(run):
    """Each call gets one symbol, so that a wrong one is always at 0."""
    if first_wrong(run, [SYMBOLS] * len(run)) is not None:
        return "no 17 0"
    return str((mod_37_36.checksum(run, SYMBOLS) or 36) * 2 % 37)


def expected_iban(text):
    if not 15 <= len(text) <= 34:
        return "no 16 0"
    wrong = first_wrong(text, [LETTERS] * 2 + [DIGITS] * 2 + [SYMBOLS] * 30)
    if wrong is not None:
        return f"no 17 {wrong}"
    holds = mod_97_10.checksum(text[4:] + text[:4]) == 1
    return "iban" if holds and text[2:4] not in BARRED else "no 18 2"


def expected_identcode(code):
    refused = not_digits(code, 22)
    if refused:
        return refused
    return "identcode" if ean.calc_check_digit(code[:21]) == code[21] else "no 18 21"


def expected_identcode_issue(body):
    return not_digits(body, 21) or body + ean.calc_check_digit(body)


def expected_national(text):
    """By stdnum.iban alone, for an IBAN in its country's structure."""
    holds = outside_iban.is_valid(text, check_country=False)
    return "iban" if holds and text[2:4] not in BARRED else "no 18 2"


def expected_printed(text):
    """For an IBAN with spaces or small letters that stdnum takes."""
    if not outside_iban.is_valid(text, check_country=False):
        sys.exit(f"test: stdnum does not take {text!r}")
    return expected_iban(text)


def expected_day(numbers):
    """Number by number, each with its own verdict of stdnum."""
    answers = [expected_number(text) for text in numbers]
    told = ["0" if answer == "tracking" else answer.split()[1] for answer in answers]
    return " ".join([f"passed {told.count('0')}", *told])


def drawn(rng, symbols, count):
    return "".join(rng.choice(symbols) for _ in range(count))


def changed(rng, text, place):
    """Another symbol of the same class at a place."""
    allowed = DIGITS if text[place] in DIGITS else LETTERS
    symbol = rng.choice([s for s in allowed if s != text[place]])
    return text[:place] + symbol + text[place + 1 :]


def swapped(text, place):
    return text[:place] + text[place + 1] + text[place] + text[place + 2 :]


def misshaped(rng, text):
    """A symbol too few, one too many, or one that may not stand everywhere."""
    place = rng.randrange(len(text))
    symbol = rng.choice(string.ascii_letters + DIGITS + " -.;/:@[`{")
    front, rest = text[:place], text[place:]
    return rng.choice((front + rest[1:], front + symbol + rest, front + symbol + rest[1:]))


def damaged(rng, text, with_random_check):
    """Two in five as they are; the others damaged in one way."""
    way = rng.randrange(10)
    if way < 4:
        return text
    if way < 6:
        return changed(rng, text, rng.randrange(len(text)))
    if way < 8:
        return swapped(text, rng.randrange(len(text) - 1))
    if way < 9:
        return with_random_check(text)
    return misshaped(rng, text)


def number_body(rng, label):
    return drawn(rng, SYMBOLS, 7) + drawn(rng, DIGITS, 20) if label else drawn(rng, DIGITS, 14)


def number(rng, label):
    body = number_body(rng, label)
    whole = body + mod_37_36.calc_check_digit(body)
    return damaged(rng, whole, lambda text: text[:-1] + rng.choice(SYMBOLS))


def number_of_a_day(rng):
    """A tracking number, whole or damaged, that has its length."""
    while True:
        text = number(rng, False)
        if len(text) == 15:
            return text


def days(rng, count):
    """So many numbers in days of drawn length."""
    numbers = [number_of_a_day(rng) for _ in range(count)]
    found, start = [], 0
    while start < count:
        end = start + rng.choice((1, 2, rng.randint(1, 12), rng.randint(1, 200)))
        found.append(numbers[start:end])
        start = end
    return found


def body(rng):
    whole = number_body(rng, rng.random() < 0.5)
    return whole if rng.random() < 0.8 else misshaped(rng, whole)


def run_of_symbols(rng):
    run = drawn(rng, SYMBOLS, rng.randint(1, 40))
    return run if rng.random() < 0.9 else misshaped(rng, run)


def identcode(rng):
    whole = drawn(rng, DIGITS, 21)
    whole += ean.calc_check_digit(whole)
    return damaged(rng, whole, lambda text: text[:-1] + rng.choice(DIGITS))


def identcode_body(rng):
    whole = drawn(rng, DIGITS, 21)
    return whole if rng.random() < 0.8 else misshaped(rng, whole)


def with_check(country, account):
    return country + mod_97_10.calc_check_digits(account + country) + account


def random_iban(rng):
    """An IBAN of any country and length; one in fifty keeps the remainder with barred check digits."""
    symbols = rng.choice((DIGITS, SYMBOLS, LETTERS))
    whole = with_check(drawn(rng, LETTERS, 2), drawn(rng, symbols, rng.randint(11, 30)))
    if rng.random() < 0.02:
        return barred(rng, whole)
    return damaged(rng, whole, lambda text: text[:2] + drawn(rng, DIGITS, 2) + text[4:])


def barred(rng, whole):
    """The IBAN with its account moved on until a barred pair leaves the remainder 1."""
    wanted = rng.choice(BARRED)
    while mod_97_10.checksum(whole[4:] + whole[:2] + wanted) != 1:
        whole = whole[:4] + drawn(rng, DIGITS, len(whole) - 4)
    return whole[:2] + wanted + whole[4:]


def structures():
    """The account's structure of each country that stdnum knows, as (country, [(count, symbols)])."""
    database = numdb.get("iban")
    classes = {"n": DIGITS, "a": LETTERS, "c": SYMBOLS}
    found = []
    for country in (a + b for a in LETTERS for b in LETTERS):
        structure = database.info(country + "00")[0][1].get("bban")
        if structure:
            parts = re.findall(r"([0-9]+)!([nac])", structure)
            found.append((country, [(int(count), classes[kind]) for count, kind in parts]))
    return found


def whole_national(rng, known):
    country, parts = rng.choice(known)
    return with_check(country, "".join(drawn(rng, symbols, count) for count, symbols in parts))


def national_iban(rng, known):
    """An IBAN in its country's structure, damaged so that it stays in it."""
    whole = whole_national(rng, known)
    way = rng.randrange(10)
    if way < 4:
        return whole
    if way < 7:
        return changed(rng, whole, rng.randrange(2, len(whole)))
    if way < 9:
        pairs = [p for p in range(2, len(whole) - 1) if (whole[p] in DIGITS) == (whole[p + 1] in DIGITS) and p != 3]
        return swapped(whole, rng.choice(pairs))
    return whole[:2] + drawn(rng, DIGITS, 2) + whole[4:]


def printed_iban(rng, known):
    """An IBAN as people write it: in groups of four, or in small letters."""
    whole = whole_national(rng, known)
    if rng.random() < 0.5:
        return whole.lower()
    return " ".join(whole[i : i + 4] for i in range(0, len(whole), 4))


def kinds(count, rng, known):
    """For each kind its name, the requests and what must come back."""
    plan = (
        ("tracking numbers", "number", lambda: number(rng, False), expected_number),
        ("label codes", "number", lambda: number(rng, True), expected_number),
        ("numbers to issue", "issue", lambda: body(rng), expected_issue),
        ("IBANs by MOD 97-10", "iban", lambda: random_iban(rng), expected_iban),
        ("IBANs by stdnum.iban", "iban", lambda: national_iban(rng, known), expected_national),
        ("identcodes by stdnum.ean", "identcode", lambda: identcode(rng), expected_identcode),
        ("identcodes to issue", "issue-identcode", lambda: identcode_body(rng), expected_identcode_issue),
        ("runs of symbols, keyed", "key", lambda: run_of_symbols(rng), expected_carry),
    )
    for name, call, draw, expected in plan:
        texts = [draw() for _ in range(count)]
        yield name, [f"{call} {text}" for text in texts], [expected(text) for text in texts]


def answers(program, requests):
    asked = "".join(request + "\n" for request in requests)
    run = subprocess.run(program, input=asked, stdout=subprocess.PIPE, check=True, encoding="ascii")
    return run.stdout.splitlines()


def first_difference(expected, got):
    """The index of the first answer that is not the expected one; none where all are."""
    if len(expected) != len(got):
        return min(len(expected), len(got))
    return next((i for i, (e, g) in enumerate(zip(expected, got)) if e != g), None)


def compare(name, requests, expected, program):
    """Ends the run at a difference; else how many were accepted, and the refusals with their counts."""
    got = answers(program, requests)
    at = first_difference(expected, got)
    if at is not None:
        sys.exit(f"test: {name}, request {at}, {requests[at]!r}: library {got[at : at + 1]}, expected {expected[at]!r}")
    # One answer made wrong must be noticed: else the comparison means nothing.
    middle = len(expected) // 2
    assert first_difference(expected, got[:middle] + ["wrong"] + got[middle + 1 :]) == middle
    refusals = collections.Counter(int(e.split()[1]) for e in expected if e.startswith("no "))
    return len(expected) - sum(refusals.values()), "".join(f" {n}:{refusals[n]}" for n in sorted(refusals))


def compare_days(count, seed, rng, program):
    """The same numbers' kinds, of which each day is one request."""
    drawn_days = days(rng, count)
    name, expected = "tracking numbers, a day at once", [expected_day(day) for day in drawn_days]
    compare(name, [f"day {''.join(day)}" for day in drawn_days], expected, program)
    each = collections.Counter(int(byte) for told in expected for byte in told.split()[2:])
    accepted = each.pop(0)
    refusals = "".join(f" {n}:{each[n]}" for n in sorted(each))
    print(
        f"test: {count} {name}: answered as stdnum does, {accepted} accepted, refusals{refusals}, {len(drawn_days)} days (seed {seed})"
    )
    if accepted + sum(each.values()) != count or sorted(each) != [17, 18]:
        sys.exit(f"test: of the {name} not all were answered, or not by each of 0, 17 and 18")


def main(count, seed, program):
    rng, known = random.Random(seed), structures()
    for name, requests, expected in kinds(count, rng, known):
        accepted, refusals = compare(name, requests, expected, program)
        print(f"test: {count} {name}: answered as stdnum does, {accepted} accepted, refusals{refusals} (seed {seed})", flush=True)
        if accepted in (0, count):
            sys.exit(f"test: of the {name} all or none were accepted")
    texts = [printed_iban(rng, known) for _ in range(count)]
    name = "IBANs with spaces or small letters"
    accepted, refusals = compare(name, [f"iban {text}" for text in texts], [expected_printed(text) for text in texts], program)
    print(f"test: {count} {name}: stdnum takes them, {accepted} accepted, refusals{refusals} (seed {seed})")
    if accepted:
        sys.exit(f"test: of the {name} some were accepted")
    compare_days(count, seed, rng, program)


if __name__ == "__main__":
    main(int(sys.argv[1]), int(sys.argv[2]), sys.argv[3:])
