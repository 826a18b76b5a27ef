#!/usr/bin/env python3
"""Writes the stored files of crates/test_cases with the answers that document 01 and the requests 1, 2 and 5 of document 02 give them,
worked out from how each file is made: python3 tests/cases.py [FOLDER] (default crates/test_cases)"""
import os
import sys

CRLF = b"\r\n"


def line(kind, *fields):
    return [kind] + [f if isinstance(f, bytes) else f.encode("latin-1") for f in fields]


def header(**put):
    return filled("010", 10, {1: "0012345678", 2: "Muster", 3: "2021-02-23T13:37:50", 4: "2021-02-24T14:20:55", 5: "1005", 6: "5"}, put)


def sender(**put):
    return filled("020", 16, {1: "A", 5: "AT", 6: "1010", 7: "Wien", 9: "Gasse", 11: "1", 12: "1", 13: "a@b"}, put)


def shipment(**put):
    return filled("030", 40, {16: "B", 20: "AT", 21: "1020", 22: "Wien", 24: "Gasse", 26: "2"}, put)


def check_digit(body, weights=(3, 1)):
    """What makes the sum of the weighted digits a multiple of 10 (000, 4.1.6)."""
    return str(-sum(int(digit) * weights[place % 2] for place, digit in enumerate(body)) % 10)


def identcode(number):
    """The number as 21 digits, and their check digit."""
    body = f"{number:021d}"
    return body + check_digit(body)


def parcel(number, **put):
    return filled("040", 3, {1: identcode(number)}, put)


def product(**put):
    return filled("050", 1, {1: "10"}, put)


def feature(code="006", **put):
    base = {1: code}
    if code in ("006", "022"):
        base.update({3: "12.50", 4: "EUR", 5: "Muster", 6: "AT611904300234573201", 7: "ABCDATWW"})
    return filled("060", 10, base, put)


def filled(kind, count, base, put):
    fields = {**base, **{int(k[1:]): v for k, v in put.items()}}
    return line(kind, *[fields.get(n, "") for n in range(1, count + 1)])


def text(parts):
    return b";".join([parts[0].encode()] + parts[1:])


def render(lines):
    return b"".join(text(l) + CRLF for l in lines)


def starts(lines):
    at, out = 0, []
    for l in lines:
        out.append(at)
        at += len(text(l)) + 2
    return out


def place(lines, i, n=None):
    """Where line i starts, or its field n."""
    at = starts(lines)[i]
    if n is None:
        return at
    return at + sum(len(p) + 1 for p in [lines[i][0].encode()] + lines[i][1:n])


EXAMPLE = [header(), sender(), shipment(), parcel(10**20), product(), feature()]
NO_CONTACTS = sender(f12="", f13="")


def accepted(lines, words, cents, countries=""):
    parcels = sum(l[0] == "040" for l in lines)
    return render(lines), words, countries, f"ok {len(lines)} {parcels} {cents} list {sum(starts(lines))}"


def refused(lines, number, at, words=4096, countries=""):
    data = lines if isinstance(lines, bytes) else render(lines)
    return data, words, countries, f"no {number} {at} list 0"


def with_line(i, new):
    return EXAMPLE[:i] + [new] + EXAMPLE[i + 1 :]


def field_case(i, make, number, n):
    lines = with_line(i, make)
    return refused(lines, number, place(lines, i, n))


def full_file(size, version="5", widths=(64, 64, 40)):
    """An accepted file of so many bytes: parcels, then a last line lengthened by its free fields. The widths are those of 060.2, 060.5
    and 060.10."""
    lines = [header(f6=version), sender(), shipment()] + [parcel(k) for k in range(1, 2100)] + [product()]
    left = size - len(render(lines))
    while left > 2000:
        lines.append(feature("011", f3="1.00", f4="EUR", f2="x" * min(60, widths[0]), f5="y" * min(60, widths[1])))
        left = size - len(render(lines))
    # The bytes that are still missing go into free fields of 050 lines' successors.
    while left:
        take = min(left, 64 * 3 + 40)
        pad = feature("004")
        need = take - len(render([pad])) if take >= len(render([pad])) else None
        if need is None:
            break
        for n, width in zip((2, 5, 10), widths):
            use = min(width, need)
            pad[n] = b"z" * use
            need -= use
        lines.append(pad)
        left = size - len(render(lines))
    short = left
    if short:
        grown = lines[1]
        for n, width in ((14, 64), (15, 64), (16, 64), (2, 40), (3, 40)):
            use = min(width - len(grown[n]), short)
            grown[n] += b"w" * use
            short -= use
    assert len(render(lines)) == size, (size, len(render(lines)))
    cents = 0
    return lines, cents


def shipped(country, code):
    """A shipment to a country, with its parcel and product."""
    return [shipment(f20=country), parcel(code), product()]


def two_senders(one, other):
    """The first ships to DE, the second to AT."""
    return EXAMPLE[:1] + [one] + shipped("DE", 1) + [other] + shipped("AT", 2)


def contact_cases():
    """Who needs phone and mail (19), and under which lists."""
    for name, lacking in (("phone", sender(f12="")), ("mail", sender(f13="")), ("contacts", NO_CONTACTS)):
        lines = with_line(1, lacking)
        yield f"no_{name}", accepted(lines, 4096, 1250)
        yield f"no_{name}_listed", refused(lines, 19, place(lines, 2), countries="AT")
    yield "contacts_listed", accepted(EXAMPLE, 4096, 1250, "AT")
    lines = with_line(1, sender(f12=" ", f13=""))
    yield "phone_of_spaces_no_mail", refused(lines, 19, place(lines, 2), countries="AT")
    yield "contacts_of_spaces", accepted(with_line(1, sender(f12=" ", f13="  ")), 4096, 1250, "AT")
    yield "phone_full", accepted(with_line(1, sender(f12="1" * 40)), 4096, 1250, "AT")
    yield "phone_over", field_case(1, sender(f12="1" * 41, f13=""), 6, 12)
    yield "mail_full", accepted(with_line(1, sender(f13="m" * 64)), 4096, 1250, "AT")
    yield "mail_over", field_case(1, sender(f12="", f13="m" * 65), 6, 13)
    # The fields beside the two keep their duty and their width.
    yield "number_still_required", field_case(1, sender(f11="", f12="", f13=""), 7, 11)
    yield "behind_mail_over", field_case(1, sender(f12="", f13="", f14="x" * 65), 6, 14)
    # Which countries a list names.
    lines = with_line(1, NO_CONTACTS)
    for name, countries in (("second", "DEAT"), ("last", "CHLIGBNOISUSCAAT"), ("first", "ATDE"), ("middle", "DEATCH"), ("twice", "ATAT")):
        yield f"country_{name}", refused(lines, 19, place(lines, 2), countries=countries)
    for name, countries in (("other", "DECH"), ("moved", "XATX"), ("across", "TADE"), ("turned", "TA"), ("small", "at"), ("half_small", "aTAt"), ("signs", "A;T_")):
        yield f"countries_{name}", accepted(lines, 4096, 1250, countries)
    lines = EXAMPLE[:1] + [NO_CONTACTS, shipment(f7="CH")] + EXAMPLE[3:]
    yield "country_of_field_7", accepted(lines, 4096, 1250, "CH")
    lines = EXAMPLE[:1] + [sender(f5="DE", f12="", f13="")] + EXAMPLE[2:]
    yield "country_of_sender", accepted(lines, 4096, 1250, "DE")
    # Whose shipment it is.
    two = EXAMPLE[:1] + [NO_CONTACTS] + shipped("DE", 1) + shipped("AT", 2)
    yield "second_shipment_listed", refused(two, 19, place(two, 5), countries="AT")
    yield "both_shipments_listed", refused(two, 19, place(two, 2), countries="ATDE")
    three = EXAMPLE[:1] + [NO_CONTACTS] + shipped("DE", 1) + shipped("CH", 2) + shipped("AT", 3)
    yield "third_shipment_listed", refused(three, 19, place(three, 8), countries="AT")
    lines = two_senders(sender(), NO_CONTACTS)
    yield "first_sender_has", accepted(lines, 4096, 0, "DE")
    yield "second_sender_lacks", refused(lines, 19, place(lines, 6), countries="AT")
    lines = two_senders(NO_CONTACTS, sender())
    yield "first_sender_lacks", refused(lines, 19, place(lines, 2), countries="DE")
    yield "second_sender_has", accepted(lines, 4096, 0, "AT")
    lines = two_senders(sender(), NO_CONTACTS)[:6] + shipped("CH", 3) + [sender()] + shipped("DE", 4)
    yield "middle_sender_not_asked", accepted(lines, 4096, 0, "DE")


def contact_order_cases():
    """19 among the others: on its line behind 2, 4, 5 and 8 and in front of 11; lines in file order; 12 last."""
    lines = EXAMPLE[:1] + [NO_CONTACTS, shipment(f20="DE")] + shipped("AT", 1)
    yield "no_contacts_out_of_order", refused(lines, 4, place(lines, 3), countries="AT")
    lines = EXAMPLE[:1] + [NO_CONTACTS, EXAMPLE[2][:-1]] + EXAMPLE[3:]
    yield "no_contacts_field_less", refused(lines, 5, place(lines, 2), countries="AT")
    cut = render(with_line(1, NO_CONTACTS)[:3])[:-2]
    yield "no_contacts_no_line_end", refused(cut, 2, len(cut), countries="AT")
    lines = EXAMPLE[:1] + [NO_CONTACTS, shipment(f20="at")] + EXAMPLE[3:]
    yield "no_contacts_small_country", refused(lines, 8, place(lines, 2, 20), countries="at")
    lines = EXAMPLE[:1] + [NO_CONTACTS, shipment(f39="x")] + EXAMPLE[3:]
    yield "no_contacts_wrong_form", refused(lines, 8, place(lines, 2, 39), countries="AT")
    lines = with_line(1, NO_CONTACTS)
    yield "no_contacts_list_full", refused(lines, 19, place(lines, 2), 2, "AT")
    yield "no_contacts_list_full_before", refused(lines, 11, place(lines, 1), 1, "AT")
    yield "no_contacts_no_words", refused(lines, 11, 0, 0, "AT")
    yield "no_contacts_file_ends", refused(lines[:3], 19, place(lines, 2), countries="AT")
    wrong = with_line(1, sender(f6="10101", f12=""))
    yield "no_contacts_earlier_fault", refused(wrong, 8, place(wrong, 1, 6), countries="AT")
    yield "no_contacts_later_fault", refused(lines[:5] + [feature("005")], 19, place(lines, 2), countries="AT")
    early = EXAMPLE[:1] + [NO_CONTACTS, shipment(f20="DE"), parcel(1), parcel(1), product()] + shipped("AT", 2)
    yield "no_contacts_earlier_code", refused(early, 10, place(early, 4, 1), countries="AT")
    yield "no_contacts_later_code", refused(lines[:4] + lines[3:], 19, place(lines, 2), countries="AT")


def odd_cases():
    """20: behind 1, in front of all others."""
    yield "odd_one", refused(EXAMPLE, 20, 0, countries="A")
    yield "odd_three", refused(with_line(1, NO_CONTACTS), 20, 0, countries="ATD")
    yield "odd_empty", refused(b"", 20, 0, countries="ATDEX")
    yield "odd_at_limit", refused(b" " * 65535, 20, 0, countries="A")
    yield "odd_no_line_end", refused(render(EXAMPLE)[:-2], 20, 0, countries="A")
    yield "odd_no_words", refused(EXAMPLE, 20, 0, 0, "A")
    yield "odd_over_limit", refused(b" " * 65536, 1, 65535, countries="A")


def swapped(code, one, other):
    """The code with the digits at two places, counted from 1, exchanged."""
    symbols = list(code)
    symbols[one - 1], symbols[other - 1] = symbols[other - 1], symbols[one - 1]
    return "".join(symbols)


MANUAL = "8546379003275981863426"
CLEAR_TEXT = "10 12345 12345678 12 1234 9".replace(" ", "")


def identcode_cases():
    """040.1 must pass: 8 at the field where it does not."""

    def holds(code):
        return accepted(with_line(3, parcel(0, f1=code)), 4096, 1250)

    def fails(code, number=8):
        return field_case(3, parcel(0, f1=code), number, 1)

    right = identcode(10**20)
    for digit in "0123456789":
        if digit != right[-1]:
            yield f"code_check_{digit}", fails(right[:-1] + digit)
    yield "code_of_manual", holds(MANUAL)
    yield "code_of_clear_text", holds(CLEAR_TEXT)
    yield "code_of_manual_check_off", fails(MANUAL[:-1] + "7")
    yield "code_of_clear_text_check_off", fails(CLEAR_TEXT[:-1] + "0")
    # Methods that are not the manual's: weights 1, 3; the remainder itself.
    yield "code_weights_1_3", fails(CLEAR_TEXT[:-1] + check_digit(CLEAR_TEXT[:-1], (1, 3)))
    yield "code_remainder_itself", fails(MANUAL[:-1] + "4")
    # The products 3 and 7 leave the remainder 0: the check digit is 0, and neither 1 nor 10.
    body = "17" + "0" * 19
    yield "code_remainder_0", holds(body + "0")
    yield "code_remainder_0_check_1", fails(body + "1")
    yield "code_remainder_0_check_10", fails(body + "10", 6)
    # No rule on a leading zero, nor on the parts.
    yield "code_zeros", holds("0" * 22)
    yield "code_nines", holds("9" * 21 + "3")
    # Lengths and symbols.
    yield "code_without_check", fails(right[:-1])
    yield "code_without_first", fails(MANUAL[1:])
    yield "code_of_one_digit", fails("0")
    yield "code_empty", fails("", 7)
    yield "code_of_spaces", fails(" " * 22)
    yield "code_in_groups", fails("10 12345 12345678 12 1234 9", 6)
    for name, symbol in (("letter", "O"), ("slash", "/"), ("colon", ":"), ("space", " "), ("upper", bytes([176]).decode("latin-1"))):
        for where, place in (("first", 0), ("middle", 11), ("last", 21)):
            yield f"code_{name}_{where}", fails(right[:place] + symbol + right[place + 1 :])
    # One digit keyed wrongly, at a place of weight 3 and at one of weight 1.
    yield "code_slip_at_1", fails("2" + MANUAL[1:])
    yield "code_slip_at_2", fails(MANUAL[:1] + "0" + MANUAL[2:])
    # Neighbours exchanged pass where they differ by 5; with one digit between them they always do.
    five = identcode(10**20 + 16 * 10**10)
    four = identcode(10**20 + 15 * 10**10)
    yield "code_16", holds(five)
    yield "code_16_swapped", holds(swapped(five, 10, 11))
    yield "code_15", holds(four)
    yield "code_15_swapped", fails(swapped(four, 10, 11))
    yield "code_jump", holds(swapped(MANUAL, 3, 5))
    # The same of the last digit of the body and the check digit: 3 and 8, then 0 and 7.
    yield "code_38_at_end", holds(identcode(10**20 + 3))
    yield "code_83_at_end", holds(swapped(identcode(10**20 + 3), 21, 22))
    yield "code_70_at_end", fails(swapped(right, 21, 22))


def identcode_order_cases():
    """8 of 040.1 among the others, and on which line."""
    e, wrong = EXAMPLE, parcel(0, f1="1" + "0" * 21)
    shipments = [shipment(), parcel(1), parcel(2), product(), feature("004")]
    shipments += [shipment(), parcel(3), parcel(4), parcel(5), product()] + [shipment(), parcel(6), parcel(7), product()]
    lines = e[:2] + shipments
    parcels = [i for i, l in enumerate(lines) if l[0] == "040"]
    yield "codes_of_three_shipments", accepted(lines, 4096, 0)
    for name, i in (("first", parcels[0]), ("middle", parcels[3]), ("last", parcels[-1])):
        off = lines[:i] + [wrong] + lines[i + 1 :]
        yield f"code_wrong_on_{name}_line", refused(off, 8, place(off, i, 1))
    off = lines[: parcels[1]] + [wrong] + lines[parcels[1] + 1 : parcels[-1]] + [wrong] + lines[parcels[-1] + 1 :]
    yield "code_wrong_on_two_lines", refused(off, 8, place(off, parcels[1], 1))
    # On its line: behind 2, 4, 5, 6 and 7; in front of the next field, of 10 and of 11.
    cut = render(e[:3] + [wrong])[:-2]
    yield "code_wrong_no_line_end", refused(cut, 2, len(cut))
    off = e[:5] + [wrong]
    yield "code_wrong_out_of_order", refused(off, 4, place(off, 5))
    off = with_line(3, wrong[:-1])
    yield "code_wrong_field_less", refused(off, 5, place(off, 3))
    off = with_line(3, wrong + [b""] * 22)
    yield "code_wrong_field_more", refused(off, 5, place(off, 3))
    yield "code_wrong_and_wide", field_case(3, parcel(0, f1="1" + "0" * 22), 6, 1)
    yield "code_wrong_next_wide", field_case(3, parcel(0, f1="1" + "0" * 21, f2="x" * 65), 8, 1)
    yield "code_right_next_wide", field_case(3, parcel(0, f2="x" * 65), 6, 2)
    off = e[:3] + [wrong, wrong] + e[4:]
    yield "code_wrong_twice", refused(off, 8, place(off, 3, 1))
    off = e[:4] + [wrong] + e[4:]
    yield "code_right_then_wrong", refused(off, 8, place(off, 4, 1))
    off = e[:3] + [parcel(1), parcel(1), wrong] + e[4:]
    yield "code_wrong_behind_repeat", refused(off, 10, place(off, 4, 1))
    off = with_line(3, wrong)
    yield "code_wrong_list_full", refused(off, 8, place(off, 3, 1), 3)
    yield "code_wrong_list_full_before", refused(off, 11, place(off, 2), 2)
    yield "code_wrong_file_ends", refused(off[:4], 8, place(off, 3, 1))
    # Lines in file order, beside the lent countries.
    late = e[:1] + [NO_CONTACTS, shipment(f20="DE"), wrong, product()] + shipped("AT", 2)
    yield "code_wrong_before_no_contacts", refused(late, 8, place(late, 3, 1), countries="AT")
    early = e[:1] + [NO_CONTACTS, shipment(), wrong, product()]
    yield "code_wrong_behind_no_contacts", refused(early, 19, place(early, 2), countries="AT")
    yield "code_wrong_odd", refused(off, 20, 0, countries="ATD")
    long = render(off) + b" " * (65536 - len(render(off)))
    yield "code_wrong_over_limit", refused(long, 1, 65535)
    early = [header(f6="4")] + off[1:]
    yield "code_wrong_earlier_fault", refused(early, 8, place(early, 0, 6))
    yield "code_wrong_later_fault", refused(off[:5] + [feature("005")], 8, place(off, 3, 1))
    yield "code_wrong_later_no_line_end", refused(render(off)[:-2], 8, place(off, 3, 1))
    control = parcel(0, f1="1" + "0" * 10 + "\x7f" + "0" * 10)
    yield "code_with_control_byte", refused(with_line(3, control), 2, place(with_line(3, control), 3, 1) + 11)


def told(version, lines):
    """The lines with this version on their header."""
    return [lines[0][:6] + [version.encode()] + lines[0][7:]] + lines[1:]


def wide_parcel(**put):
    """A parcel with the twelve fields that document 002 has, of which the first and the type are filled."""
    return filled("040", 12, {1: identcode(10**20), 4: "C"}, put)


def mail(length):
    return "m" * (length - 2) + "@m"


def of(symbol):
    """What fills a field to a length with one symbol."""
    return lambda length: symbol * length


# An IBAN as long as one may be; its check digits make the remainder of 0..0 AT00 by 97, with AT00 as 102900, 1.
LONGEST_IBAN = f"AT{98 - 102900 % 97:02d}" + "0" * 30

# Each field whose width or duty depends on the version: its name, its line in the example, the maker of that line, its number, its
# width in 5 and in 7, what fills it to a length, and the lengths that have its form, where it has one (document 01, 'Widths and rules';
# document 002, tables 8, 14, 22 and 25).
DIFFERING = (
    ("010_2", 0, header, 2, 40, 80, of("x"), None),
    ("010_5", 0, header, 5, 4, 10, of("1"), (4,)),
    ("040_1", 3, wide_parcel, 1, 22, 24, lambda n: identcode(10**20) if n == 22 else "1" * n, (22,)),
    ("040_2", 3, wide_parcel, 2, 64, 11, of("x"), None),
    ("040_3", 3, wide_parcel, 3, 64, 40, of("x"), None),
    ("040_4", 3, wide_parcel, 4, 64, 1, of("x"), None),
    ("040_5", 3, wide_parcel, 5, 64, 40, of("x"), None),
    ("040_6", 3, wide_parcel, 6, 64, 40, of("x"), None),
    ("040_7", 3, wide_parcel, 7, 64, 9, of("x"), None),
    ("040_8", 3, wide_parcel, 8, 64, 3, of("x"), None),
    ("040_9", 3, wide_parcel, 9, 64, 100, of("x"), None),
    ("040_10", 3, wide_parcel, 10, 64, 2, of("x"), None),
    ("040_11", 3, wide_parcel, 11, 64, 1, of("x"), None),
    ("040_12", 3, wide_parcel, 12, 64, 100, of("x"), None),
    ("050_1", 4, product, 1, 20, 2, of("x"), None),
    ("060_2", 5, lambda **put: feature("004", **put), 2, 64, 40, of("&"), None),
    ("060_2_under_006", 5, feature, 2, 35, 40, of("x"), None),
    ("060_2_under_022", 5, lambda **put: feature("022", **put), 2, 35, 40, of("x"), None),
    ("060_5", 5, feature, 5, 64, 35, of("x"), None),
    ("060_6", 5, feature, 6, 34, 40, lambda n: LONGEST_IBAN if n == 34 else "A" * n, (34,)),
    ("060_9", 5, feature, 9, 64, 40, mail, None),
)


def version_width_cases():
    """Each of these fields at its width and one over, by the widths of both versions, in both."""
    for name, i, make, n, five, seven, fill, lengths in DIFFERING:
        for version, width in (("5", five), ("7", seven)):
            for length in sorted({five, five + 1, seven, seven + 1}):
                lines = told(version, with_line(i, make(**{f"f{n}": fill(length)})))
                cents = 0 if lines[5][1] == b"004" else 1250
                if length > width:
                    case = refused(lines, 6, place(lines, i, n))
                elif lengths is not None and length not in lengths:
                    case = refused(lines, 8, place(lines, i, n))
                else:
                    case = accepted(lines, 4096, cents)
                yield f"v{version}_{name}_of_{length}", case


def version_duty_cases():
    """Empty fields whose duty depends on the version, and the other fields of 002's tables, empty and filled."""
    for n in (2, 5):
        lines = with_line(0, header(**{f"f{n}": ""}))
        yield f"v5_010_{n}_empty", refused(lines, 7, place(lines, 0, n))
        yield f"v7_010_{n}_empty", accepted(told("7", lines), 4096, 1250)
    lines = with_line(3, wide_parcel(f4=""))
    yield "v5_040_4_empty", accepted(lines, 4096, 1250)
    yield "v7_040_4_empty", refused(told("7", lines), 7, place(lines, 3, 4))
    # A count is neither a width nor a duty: a parcel that ends in front of its type has none to fill.
    yield "v7_parcel_3_fields", accepted(told("7", EXAMPLE), 4096, 1250)
    lines = told("7", with_line(3, EXAMPLE[3] + [b""]))
    yield "v7_parcel_4_fields_type_empty", refused(lines, 7, place(lines, 3, 4))
    yield "v7_parcel_4_fields", accepted(told("7", with_line(3, EXAMPLE[3] + [b"P"])), 4096, 1250)
    yield "v7_parcel_type_of_a_space", accepted(told("7", with_line(3, EXAMPLE[3] + [b" "])), 4096, 1250)
    two = told("7", with_line(3, parcel(1)))
    two = two[:4] + [parcel(2) + [b""]] + two[4:]
    yield "v7_second_parcel_type_empty", refused(two, 7, place(two, 4, 4))
    lines = told("7", with_line(3, wide_parcel()[:3]))
    yield "v7_parcel_2_fields", refused(lines, 5, place(lines, 3))
    lines = told("7", with_line(3, wide_parcel() + [b"x" * 64] * 12))
    yield "v7_parcel_24_fields", accepted(lines, 4096, 1250)
    lines = told("7", with_line(3, wide_parcel() + [b"x" * 64] * 13))
    yield "v7_parcel_25_fields", refused(lines, 5, place(lines, 3))
    lines = told("7", with_line(3, wide_parcel() + [b"x" * 65]))
    yield "v7_040_13_of_65", refused(lines, 6, place(lines, 3, 13))
    lines = told("7", with_line(4, product() + [b"x" * 64] * 23))
    yield "v7_050_24_of_64", accepted(lines, 4096, 1250)
    lines = told("7", with_line(4, product() + [b"x" * 65]))
    yield "v7_050_2_of_65", refused(lines, 6, place(lines, 4, 2))
    for n in (1, 3, 4, 6):
        lines = told("7", with_line(0, header(f2="", f5="")))
        lines[0][n] = b""
        # Without its version the header is judged as 5, which wants 010.2 first.
        yield f"v7_010_{n}_empty", refused(lines, 7, place(lines, 0, 2 if n == 6 else n))
    for n in (1, 5, 6, 7, 9, 11):
        lines = told("7", with_line(1, sender(**{f"f{n}": ""})))
        yield f"v7_020_{n}_empty", refused(lines, 7, place(lines, 1, n))
    for n in (16, 20, 21, 22, 24, 26):
        lines = told("7", with_line(2, shipment(**{f"f{n}": ""})))
        yield f"v7_030_{n}_empty", refused(lines, 7, place(lines, 2, n))
    for name, i, make in (("040", 3, wide_parcel), ("050", 4, product), ("060", 5, feature)):
        lines = told("7", with_line(i, make(f1="")))
        yield f"v7_{name}_1_empty", refused(lines, 7, place(lines, i, 1))
    # A few of the widths that are the same in both.
    for name, i, make, n, width in (
        ("010_3", 0, header, 3, 19),
        ("010_7", 0, header, 7, 20),
        ("020_6", 1, sender, 6, 10),
        ("020_13", 1, sender, 13, 64),
        ("030_37", 2, shipment, 37, 100),
        ("030_38", 2, shipment, 38, 19),
        ("030_40", 2, shipment, 40, 20),
        ("060_3", 5, feature, 3, 9),
        ("060_7", 5, feature, 7, 11),
        ("060_8", 5, feature, 8, 35),
        ("060_10", 5, feature, 10, 40),
    ):
        lines = told("7", with_line(i, make(**{f"f{n}": "x" * (width + 1)})))
        yield f"v7_{name}_of_{width + 1}", refused(lines, 6, place(lines, i, n))


def version_header_cases():
    """Which version a file has: 7 exactly where its first line is a 010 line with `7` alone in field 6."""
    e = EXAMPLE
    # 002 wants no customer's name, so that an empty 010.2 tells which version a header is judged as.
    unnamed = header(f2="")
    for name, mark in (
        ("5", "5"),
        ("6", "6"),
        ("8", "8"),
        ("07", "07"),
        ("70", "70"),
        ("77", "77"),
        ("57", "57"),
        ("75", "75"),
        ("space_7", " 7"),
        ("7_space", "7 "),
        ("7_point", "7."),
        ("spaces", "  "),
        ("none", ""),
        ("ten_sevens", "7" * 10),
        ("eleven_sevens", "7" * 11),
        ("upper_7", bytes([183]).decode("latin-1")),
    ):
        lines = [unnamed[:6] + [mark.encode("latin-1")] + unnamed[7:]] + e[1:]
        yield f"mark_{name}_unnamed", refused(lines, 7, place(lines, 0, 2))
        if mark != "5":
            lines = [e[0][:6] + [mark.encode("latin-1")] + e[0][7:]] + e[1:]
            number = 7 if mark == "" else 6 if len(mark) > 10 else 8
            yield f"mark_{name}", refused(lines, number, place(lines, 0, 6))
    yield "mark_7", accepted(told("7", e), 4096, 1250)
    # `7` in another field of the header.
    for n in (2, 7, 8, 9, 10):
        lines = [header(**{f"f{n}": "7"}), sender(), shipment(), wide_parcel(f4="long"), product(f1="product"), feature()]
        yield f"seven_in_010_{n}", accepted(lines, 4096, 1250)
    lines = [header(f5="7")] + e[1:]
    yield "seven_in_010_5", refused(lines, 8, place(lines, 0, 5))
    lines = [header(f2="", f5="7", f6="5")] + e[1:]
    yield "seven_in_010_5_unnamed", refused(lines, 7, place(lines, 0, 2))
    lines = [header(f2="", f6="", f7="7")] + e[1:]
    yield "seven_in_010_7_only", refused(lines, 7, place(lines, 0, 2))
    yield "seven_and_five", accepted([header(f2="", f6="7", f7="5")] + e[1:], 4096, 1250)
    # In field 6 of another line.
    lines = [header(), sender(f5="DE", f6="7")] + e[2:4] + [product(f1="product"), feature()]
    yield "seven_in_020_6", accepted(lines, 4096, 1250)
    lines = [sender(f5="DE", f6="7"), unnamed] + e[2:]
    yield "seven_in_first_020_6", refused(lines, 4, 0)
    yield "seven_on_second_header", refused(e[:1] + told("7", e), 4, place(e, 1))
    yield "five_on_second_header", refused(told("7", e[:1]) + e, 4, place(e, 1))
    yield "seven_on_second_line", refused(e[1:2] + told("7", e[:1]) + e[2:], 4, 0)
    # A first line that is no 010 line, or not whole.
    for name, kind, number in (("020", "020", 4), ("0100", "0100", 3), ("10", "10", 3), ("space_010", " 010", 3), ("empty_type", "", 3)):
        lines = told("7", e)
        yield f"seven_on_{name}", refused([[kind] + lines[0][1:]] + lines[1:], number, 0)
    lines = told("7", [unnamed] + e[1:])
    yield "seven_field_less", refused([lines[0][:-1]] + lines[1:], 5, 0)
    yield "seven_6_fields", refused([lines[0][:7]] + lines[1:], 5, 0)
    yield "seven_5_fields", refused([lines[0][:1] + lines[0][2:7]] + lines[1:], 5, 0)
    yield "seven_field_more", refused([lines[0] + [b""]] + lines[1:], 5, 0)
    whole = render(lines)
    yield "seven_no_line_end", refused(text(lines[0]), 2, len(text(lines[0])))
    yield "seven_cr_alone", refused(text(lines[0]) + b"\r", 2, len(text(lines[0])))
    yield "seven_lf_alone", refused(whole.replace(CRLF, b"\n"), 2, len(text(lines[0])))
    yield "seven_no_last_end", refused(whole[:-2], 2, len(whole) - 2)
    at = place(lines, 0, 6)
    yield "seven_control_byte_before", refused(whole[:at] + b"\x1f" + whole[at:], 2, at)
    yield "seven_control_byte_behind", refused(whole[: at + 1] + b"\x1f" + whole[at + 1 :], 2, at + 1)
    yield "seven_behind_line_end", refused(CRLF + whole, 3, 0)
    # The other fields of a header, in front of its version and behind it.
    for version in ("5", "6", "7"):
        lines = [header(f1="0112345678", f6=version)] + e[1:]
        yield f"customer_01_in_{version}", refused(lines, 8, place(lines, 0, 1))
        lines = [header(f6=version, f7="x" * 21)] + e[1:]
        number, n = (8, 6) if version == "6" else (6, 7)
        yield f"system_21_in_{version}", refused(lines, number, place(lines, 0, n))


def version_7_cases():
    """Whole files of version 7: what is common to both versions, and the order of refusals."""
    e = told("7", EXAMPLE)
    typed = EXAMPLE[3][:2] + [b"2.500", b"", b"C"]
    yield "example_7", accepted([header(f2="", f5="", f6="7"), sender(), shipment(), typed, product(), feature()], 4096, 1250)
    filled_all = [
        header(f2="x" * 80, f6="7", f7="x" * 20, f8="x" * 40, f9="x" * 40, f10="x" * 64),
        sender(),
        shipment(),
        wide_parcel(
            f2="1234567.123", f3="x" * 40, f5="x" * 40, f6="x" * 40, f7="999999.99", f8="EUR", f9="x" * 100, f10="99", f11="R",
            f12="x" * 100,
        ),
        product(f1="49"),
        feature(f2="x" * 40, f5="x" * 35, f6=LONGEST_IBAN, f7="ABCDATWWXXX", f8="x" * 35, f9=mail(40), f10="1" * 40),
    ]
    yield "v7_all_full", accepted(filled_all, 4096, 1250)
    lines = told("5", filled_all)
    yield "v7_all_full_as_5", refused(lines, 6, place(lines, 0, 2))
    lines = [header()] + filled_all[1:]
    yield "v7_lines_under_5", refused(lines, 6, place(lines, 3, 9))
    # The forms stay as they are.
    for name, i, new, n in (
        ("post_code", 0, header(f5="100a", f6="7"), 5),
        ("date", 0, header(f3="2023-02-29T00:00:00", f6="7"), 3),
        ("carriers_own", 2, shipment(f39="x"), 39),
        ("code_check", 3, parcel(0, f1="1" + "0" * 21), 1),
        ("feature_005", 5, feature("005"), 1),
        ("reference_sign_006", 5, feature(f2="a&b"), 2),
        ("reference_sign_022", 5, feature("022", f2="x" * 39 + "&"), 2),
        ("amount", 5, feature(f3="01.00"), 3),
        ("currency", 5, feature(f4="eur"), 4),
        ("iban", 5, feature(f6="AT161904300234573201"), 6),
        ("bic", 5, feature(f7="ABCDATWW1"), 7),
        ("purpose_sign", 5, feature("004", f8="a_b"), 8),
        ("mail", 5, feature("004", f9="a@b@c"), 9),
    ):
        lines = e[:i] + [new] + e[i + 1 :]
        yield f"v7_{name}_form", refused(lines, 8, place(lines, i, n))
    # What features need, and the rules of the whole file.
    for n in (3, 4, 5, 6, 7):
        lines = e[:5] + [feature(**{f"f{n}": ""})]
        yield f"v7_cash_lacks_{n}", refused(lines, 9, place(lines, 5))
    lines = e[:5] + [feature("054")]
    yield "v7_contact_lacks_both", refused(lines, 9, place(lines, 5))
    lines = e[:4] + [e[3]] + e[4:]
    yield "v7_code_next_line", refused(lines, 10, place(lines, 4, 1))
    yield "v7_list_one_short", refused(e, 11, place(e, 5), 5)
    yield "v7_list_just_full", accepted(e, 6, 1250)
    yield "v7_ends_after_parcel", refused(e[:4], 12, len(render(e[:4])))
    yield "v7_two_senders", accepted(e + [sender()] + shipped("DE", 2), 4096, 1250)
    yield "v7_no_sender", refused(e[:1] + e[2:], 4, place(e, 1))
    yield "v7_content_line", refused(e[:4] + [line("041", "x")] + e[4:], 3, place(e, 4))
    lines = e[:5] + [feature("022", f3="1.00"), feature(f3="2.00", f4="USD"), feature(f3="8.00")]
    yield "v7_cash", accepted(lines, 4096, 900)
    lines = e[:1] + [NO_CONTACTS] + e[2:]
    yield "v7_no_contacts", accepted(lines, 4096, 1250)
    yield "v7_no_contacts_listed", refused(lines, 19, place(lines, 2), countries="AT")
    yield "v7_contacts_listed", accepted(e, 4096, 1250, "AT")
    yield "v7_odd", refused(e, 20, 0, countries="ATD")
    lines, cents = full_file(65535, "7", (40, 35, 40))
    yield "v7_at_limit", accepted(lines, 4096, cents)
    yield "v7_over_limit", refused(render(lines) + b" ", 1, 65535)


def accepted_in(version, i, new):
    """The example of this version with another line i."""
    return accepted(told(version, with_line(i, new)), 4096, 1250)


def refused_in(version, i, new, number, n=None):
    """The same, refused at that line, or at its field n."""
    lines = told(version, with_line(i, new))
    return refused(lines, number, place(lines, i, n))


def version_value_cases():
    """Values beside a width or a form: a wider field in 7 does not widen its form."""
    # A header with neither version has the widths of 5.
    yield "mark_6_010_2_of_41", refused_in("6", 0, header(f2="x" * 41), 6, 2)
    yield "mark_6_010_5_of_5", refused_in("6", 0, header(f5="10050"), 6, 5)
    yield "v5_010_5_letter", refused_in("5", 0, header(f5="10A5"), 8, 5)
    yield "v7_010_5_of_3", refused_in("7", 0, header(f5="100"), 8, 5)
    # The whole field is the code: nothing is cut off or put in front, so that 22 right digits in it do not help.
    right = identcode(10**20)
    for name, code in (
        ("zeros_behind", right + "00"),
        ("zero_in_front", "0" + right),
        ("space_behind", right + " "),
        ("zero_less", right[:1] + right[2:]),
    ):
        yield f"v7_code_{name}", refused_in("7", 3, parcel(0, f1=code), 8, 1)
    # So is an IBAN: more zeros behind it leave the remainder 1.
    for length in (35, 40):
        yield f"v7_iban_right_of_{length}", refused_in("7", 5, feature(f6=LONGEST_IBAN.ljust(length, "0")), 8, 6)
    for version in ("5", "7"):
        yield f"v{version}_iban_in_groups", refused_in(version, 5, feature(f6="AT61 1904 3002 3457 3201"), 8, 6)
    for name, own in (("20", "x" * 20), ("a_space", " ")):
        yield f"v7_030_39_of_{name}", refused_in("7", 2, shipment(f39=own), 8, 39)
    # 002 gives a product two bytes, as a width and not as a form.
    yield "v7_050_1_of_1", accepted_in("7", 4, product(f1="1"))
    yield "v5_050_1_empty", refused_in("5", 4, product(f1=""), 7, 1)
    yield "v5_reference_sign_022", refused_in("5", 5, feature("022", f2="_"), 8, 2)


def version_form_cases():
    """Wrong forms of fields that are as wide in one version as in the other."""
    for name, i, new, n in (
        ("030_1", 2, shipment(f1="a"), 1),
        ("030_8", 2, shipment(f7="AT", f8="10200"), 8),
        ("030_21", 2, shipment(f21="10a0"), 21),
        # Under every feature code.
        ("060_3_of_004", 5, feature("004", f3="1,00"), 3),
        ("060_7_of_004", 5, feature("004", f7="abcdatww"), 7),
    ):
        for version in ("5", "7"):
            yield f"v{version}_{name}_form", refused_in(version, i, new, 8, n)
    yield "v7_010_4_form", refused_in("7", 0, header(f4="2021-02-24 14:20:55"), 8, 4)
    yield "v7_020_6_form", refused_in("7", 1, sender(f6="10101"), 8, 6)
    yield "v7_030_20_form", refused_in("7", 2, shipment(f20="at"), 8, 20)


def version_line_cases():
    """Counts of fields, records, identcodes and needs in 7."""
    e = told("7", EXAMPLE)
    # The version holds up to the last line.
    lines = e + [shipment(), parcel(2), product(), shipment(), parcel(3) + [b""], product(f1="123")]
    yield "v7_third_shipment_type_empty", refused(lines, 7, place(lines, 10, 4))
    for i, name in ((1, "sender"), (2, "shipment"), (4, "product"), (5, "feature")):
        yield f"v7_{name}_field_less", refused_in("7", i, e[i][:-1], 5)
        yield f"v7_{name}_field_more", refused_in("7", i, e[i] + [b""] * (24 if i == 4 else 1), 5)
    yield "v7_parcel_24_fields_rest_empty", accepted_in("7", 3, wide_parcel() + [b""] * 12)
    yield "v7_product_24_fields_rest_empty", accepted_in("7", 4, product() + [b""] * 23)
    for kind in ("042", "070"):
        yield f"v7_type_{kind}", refused(e[:4] + [line(kind, "x")] + e[4:], 3, place(e, 4))
    lines = e + [shipment()] + e[3:5]
    yield "v7_code_other_shipment", refused(lines, 10, place(lines, 7, 1))
    lines = e + [sender(), shipment()] + e[3:5]
    yield "v7_code_other_sender", refused(lines, 10, place(lines, 8, 1))
    for code, needed in (("022", (3, 4, 5, 6, 7)), ("011", (3, 4)), ("063", (3, 4))):
        for n in needed:
            lacking = feature(code, **{"f3": "1.00", "f4": "EUR", f"f{n}": ""})
            yield f"v7_{code}_lacks_{n}", refused_in("7", 5, lacking, 9)


def version_contact_cases():
    """19 in 7: by the lent list alone, both contacts, and of this sender."""
    for name, lacking in (("phone", sender(f12="")), ("mail", sender(f13=""))):
        lines = told("7", with_line(1, lacking))
        yield f"v7_no_{name}_listed", refused(lines, 19, place(lines, 2), countries="AT")
    lines = told("7", with_line(1, NO_CONTACTS))
    yield "v7_countries_across", accepted(lines, 4096, 1250, "TATA")
    # 002 wants a contact for Sweden in its section 5.7.2; the list is lent, and decides.
    yield "v7_no_contacts_to_sweden", accepted(lines[:2] + [shipment(f20="SE")] + lines[3:], 4096, 1250)
    yield "v7_second_sender_has", accepted(told("7", two_senders(NO_CONTACTS, sender())), 4096, 0, "AT")


# Document 01, 'The file'.
FEATURES = (
    "004 006 007 011 019 022 024 027 029 045 052 053 054 061 062 063 065 066 072 074 081 082 083 116 122 123 142 143 186 187".split()
)


def every_feature(version):
    """Each feature with what it needs and no more, 054 by mail and by phone; the example's amount under 006 and under 022."""
    money = {"f3": "1.00", "f4": "EUR"}
    needs = {"011": money, "063": money, "054": {"f9": "a@b"}}
    features = [feature(code, **needs.get(code, {})) for code in FEATURES] + [feature("054", f10="1")]
    return accepted(told(version, EXAMPLE[:5]) + features, 4096, 2 * 1250)


def widths(version, code):
    """The widths that docs/fields.txt has for this version, by record and field, with those under a feature code."""
    found = {}
    with open(f"{os.path.dirname(os.path.abspath(__file__))}/../docs/fields.txt", encoding="ascii") as rows:
        for row in rows:
            if row[:1].isdigit():
                name, five, _, seven, _, *under = row.split()
                if not under or code in under:
                    kind, n = name.split(".")
                    found[kind, int(n)] = int(five if version == "5" else seven)
    return found


def every_field_full(version):
    """Each field as long as its width, or as its form where that is shorter; 030.39 is the carrier's. No post code of Austria, which
    would have four digits."""

    def full(kind, code="006", **put):
        fields = {n: "x" * width for (of_kind, n), width in widths(version, code).items() if of_kind == kind}
        return filled(kind, len(fields), fields, put)

    def full_feature(code):
        address = mail(widths(version, code)["060", 9])
        return full("060", code, f1=code, f3="999999.99", f4="EUR", f6=LONGEST_IBAN, f7="ABCDATWWXXX", f9=address)

    lines = [
        full("010", **{f"f{n}": EXAMPLE[0][n] for n in (1, 3, 4, 5)}, f6=version),
        full("020", f5="DE"),
        full("030", f1="1" * 40, f2="1" * 10, f7="DE", f20="DE", f39=""),
        full("040", f1=identcode(10**20)),
        full("050"),
        full_feature("006"),
        full_feature("004"),
    ]
    return accepted(lines, 4096, 99999999)


def version_whole_cases():
    """Files that have everything."""
    for version in ("5", "7"):
        yield f"v{version}_every_feature", every_feature(version)
        yield f"v{version}_every_field_full", every_field_full(version)


def cases():
    e = EXAMPLE
    yield "example", accepted(e, 4096, 1250)
    yield "list_just_full", accepted(e, 6, 1250)
    yield "list_one_short", refused(e, 11, place(e, 5), 5)
    yield "list_none", refused(e, 11, 0, 0)
    yield "empty", refused(b"", 12, 0)
    yield "empty_no_words", refused(b"", 12, 0, 0)
    yield "line_end_alone", refused(CRLF, 3, 0)
    yield "header_short", refused(b"010;" + CRLF, 5, 0)
    # 1
    lines, cents = full_file(65535)
    yield "at_limit", accepted(lines, 4096, cents)
    yield "over_limit", refused(render(lines) + b" ", 1, 65535)
    yield "far_over_limit", refused(b" " * 200000, 1, 65535)
    yield "spaces_at_limit", refused(b" " * 65535, 2, 65535)
    # 2
    whole = render(e)
    yield "no_last_end", refused(whole[:-2], 2, len(whole) - 2)
    yield "cr_alone", refused(whole[:-1], 2, len(whole) - 2)
    yield "lf_alone", refused(whole.replace(CRLF, b"\n"), 2, len(text(e[0])))
    yield "control_byte", refused(whole[:20] + b"\x1f" + whole[21:], 2, 20)
    yield "delete_byte", refused(whole[:20] + b"\x7f" + whole[21:], 2, 20)
    yield "byte_159", refused(whole[:20] + b"\x9f" + whole[21:], 2, 20)
    upper = with_line(1, sender(f1=bytes([160, 255])))
    yield "bytes_160_255", accepted(upper, 4096, 1250)
    yield "trailing_text", refused(whole + b"x", 2, len(whole) + 1)
    # 3
    for name, kind in (("041", "041"), ("070", "070"), ("10", "10"), ("0100", "0100"), ("space_010", " 010")):
        lines = e[:1] + [[kind] + e[1][1:]] + e[2:]
        yield f"type_{name}", refused(lines, 3, place(lines, 1))
    # 4
    yield "two_headers", refused(e[:1] + e, 4, place(e[:1] + e, 1))
    yield "no_sender", refused(e[:1] + e[2:], 4, place(e, 1))
    yield "no_parcel", refused(e[:3] + e[4:], 4, place(e, 3))
    yield "parcel_first", refused(e[3:], 4, 0)
    yield "feature_after_parcel", refused(e[:4] + e[5:], 4, place(e, 4))
    # 5
    for i, name in enumerate(("header", "sender", "shipment", "parcel", "product", "feature")):
        fewer = with_line(i, e[i][:-1]) if i != 4 else with_line(4, ["050"])
        yield f"{name}_field_less", refused(fewer, 5, place(fewer, i))
        more = with_line(i, e[i] + [b""] * (1 if i not in (3, 4) else 25 - (len(e[i]) - 1)))
        yield f"{name}_field_more", refused(more, 5, place(more, i))
    most = with_line(3, e[3] + [b"x"] * 21)
    yield "parcel_24_fields", accepted(most, 4096, 1250)
    # 6, 7, 8
    yield "width_full", accepted(with_line(1, sender(f1="x" * 40)), 4096, 1250)
    yield "width_over", field_case(1, sender(f1="x" * 41), 6, 1)
    yield "required_empty", field_case(2, shipment(f26=""), 7, 26)
    yield "required_spaces", accepted(with_line(2, shipment(f26="  ")), 4096, 1250)
    yield "carriers_own", field_case(2, shipment(f39="x"), 8, 39)
    yield "carriers_own_long", field_case(2, shipment(f39="x" * 21), 6, 39)
    yield "post_code_at", field_case(1, sender(f6="10101"), 8, 6)
    yield "post_code_de", accepted(with_line(1, sender(f5="DE", f6="10115")), 4096, 1250)
    yield "post_code_free", accepted(with_line(2, shipment(f8="no form")), 4096, 1250)
    yield "country_small", field_case(1, sender(f5="at"), 8, 5)
    yield "leap_2024", accepted(with_line(0, header(f3="2024-02-29T23:59:59")), 4096, 1250)
    yield "leap_2023", field_case(0, header(f3="2023-02-29T23:59:59"), 8, 3)
    yield "second_60", field_case(0, header(f4="2024-02-28T23:59:60"), 8, 4)
    yield "year_1999", field_case(0, header(f3="1999-12-31T00:00:00"), 8, 3)
    yield "year_2100", field_case(0, header(f3="2100-01-01T00:00:00"), 8, 3)
    yield "version_55", field_case(0, header(f6="55"), 8, 6)
    yield "customer_01", field_case(0, header(f1="0112345678"), 8, 1)
    yield "identcode_21", field_case(3, line("040", "1" * 21, "", ""), 8, 1)
    yield "identcode_23", field_case(3, line("040", "1" * 23, "", ""), 6, 1)
    yield "feature_005", field_case(5, feature("005"), 8, 1)
    yield "reference_36", field_case(5, feature(f2="x" * 36), 6, 2)
    yield "reference_35", accepted(with_line(5, feature(f2="x" * 35)), 4096, 1250)
    yield "reference_64_of_004", accepted(with_line(5, feature("004", f2="&" * 64)), 4096, 0)
    yield "reference_sign", field_case(5, feature(f2="a&b"), 8, 2)
    yield "amount_0_00", field_case(5, feature(f3="0.00"), 8, 3)
    yield "amount_01_00", field_case(5, feature(f3="01.00"), 8, 3)
    yield "amount_0_01", accepted(with_line(5, feature(f3="0.01")), 4096, 1)
    yield "amount_most", accepted(with_line(5, feature(f3="999999.99")), 4096, 99999999)
    yield "iban_wrong", field_case(5, feature(f6="AT161904300234573201"), 8, 6)
    yield "iban_35", field_case(5, feature(f6="A" * 35), 6, 6)
    yield "bic_9", field_case(5, feature(f7="ABCDATWW1"), 8, 7)
    yield "purpose_sign", field_case(5, feature("004", f8="a_b"), 8, 8)
    yield "mail_two", field_case(5, feature("004", f9="a@b@c"), 8, 9)
    yield "mail_first", field_case(5, feature("004", f9="@b"), 8, 9)
    yield "mail_last", field_case(5, feature("004", f9="a@"), 8, 9)
    # 9
    for n in (3, 4, 5, 6, 7):
        lines = with_line(5, feature(**{f"f{n}": ""}))
        yield f"cash_lacks_{n}", refused(lines, 9, place(lines, 5))
    lines = with_line(5, feature("063", f3="1.00"))
    yield "money_lacks_currency", refused(lines, 9, place(lines, 5))
    lines = with_line(5, feature("054"))
    yield "contact_lacks_both", refused(lines, 9, place(lines, 5))
    yield "contact_by_phone", accepted(with_line(5, feature("054", f10="1")), 4096, 0)
    # 10
    near = e[:4] + [e[3]] + e[4:]
    yield "code_next_line", refused(near, 10, place(near, 4, 1))
    two = e + [sender(), shipment()] + e[3:5]
    yield "code_other_sender", refused(two, 10, place(two, 8, 1))
    many = e[:3] + [parcel(k) for k in range(1, 1501)]
    far = many + [parcel(1)]
    yield "code_far", refused(far, 10, place(far, len(far) - 1, 1))
    yield "code_far_list_full", refused(far, 10, place(far, len(far) - 1, 1), len(far) - 1)
    yield "codes_many", accepted(many + [product()], 4096, 0)
    # 12
    yield "ends_after_parcel", refused(e[:4], 12, len(render(e[:4])))
    yield "ends_after_header", refused(e[:1], 12, len(render(e[:1])))
    yield "ends_after_product", accepted(e[:5], 4096, 0)
    yield "full_list_before_end", refused(e[:4], 11, place(e, 3), 3)
    # cash
    mixed = e + [feature("022", f3="1.00"), feature(f3="2.00", f4="USD"), feature("011", f3="4.00", f4="EUR"), feature(f3="8.00")]
    yield "cash_of_006_and_022", accepted(mixed, 4096, 1250 + 100 + 800)
    # 31 times 999999.99 is more than 32 bits hold
    big = e[:5] + [feature(f3="999999.99") for _ in range(50)]
    yield "cash_over_32_bits", accepted(big, 4096, 50 * 99999999)
    # slips: a refused line is not skipped
    lines = e[:2] + [shipment(f16="x" * 41)] + e[3:]
    yield "overlong_shipment", refused(lines, 6, place(lines, 2, 16))
    # the identcode's own check
    yield from identcode_cases()
    yield from identcode_order_cases()
    # 19, 20
    yield from contact_cases()
    yield from contact_order_cases()
    yield from odd_cases()
    # version 7
    yield from version_width_cases()
    yield from version_duty_cases()
    yield from version_header_cases()
    yield from version_7_cases()
    yield from version_value_cases()
    yield from version_form_cases()
    yield from version_line_cases()
    yield from version_contact_cases()
    yield from version_whole_cases()


def main(folder):
    os.makedirs(f"{folder}/data", exist_ok=True)
    args, out = [], []
    for name, (data, words, countries, answer) in cases():
        with open(f"{folder}/data/{name}", "wb") as f:
            f.write(data)
        lent = countries or "-"
        args += [str(words), lent, name]
        out.append(f"{name} {words} {lent} {answer}")
    with open(f"{folder}/args", "w", encoding="ascii") as f:
        f.write("\n".join(args) + "\n")
    with open(f"{folder}/stdout", "w", encoding="ascii") as f:
        f.write("\n".join(out) + "\n")
    print(f"{len(out)} cases")


if __name__ == "__main__":
    main(sys.argv[1] if len(sys.argv) > 1 else "crates/test_cases")
