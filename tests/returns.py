"""Draws scans for the returns bench, with the answers of an implementation of its own: tests/returns.py lines SEED COUNT INPUT ANSWERS, or
tests/returns.py border PAD INPUT ANSWERS. A line is answered 16 where it has not 15 bytes, without a carriage return at its end, else 17
or 18 as tests/vectors.py refuses it, or 0; the last answer is that of the counts."""

import random
import sys

from vectors import SYMBOLS, carry, first_wrong, number_classes

CLASSES = number_classes(15)


def answer(line):
    text = line.removesuffix(b"\r").decode("latin-1")
    if len(text) != 15:
        return 16
    if first_wrong(text, CLASSES) is not None:
        return 17
    return 0 if (carry(text[:14]) + SYMBOLS.index(text[14])) % 36 == 1 else 18


def valid(body):
    return body + SYMBOLS[(1 - carry(body)) % 36]


def drawn(draw):
    """A line without its line feed: most numbers are right, some have a slip or another length, or are no text at all."""
    number = valid("%014d" % draw.randrange(10**14)).encode()
    kind = draw.randrange(20)
    if kind < 3:
        place = draw.randrange(15)
        number = number[:place] + draw.choice(SYMBOLS[: 10 if place < 14 else 36]).encode() + number[place + 1 :]
    elif kind < 5:
        place = draw.randrange(15)
        number = number[:place] + bytes([draw.choice([c for c in range(256) if c != 10])]) + number[place + 1 :]
    elif kind < 7:
        number = (number + number)[: draw.choice([0, 1, 13, 14, 16, 17, 18, 28, 30])]
    elif kind == 7:
        number = draw.randbytes(draw.randrange(40)).replace(b"\n", b"\r")
    return number + draw.choice([b"", b"", b"\r"])


def bordering(pad):
    """Lines of 15 bytes over two ends of a buffer of 64 KiB, behind one of so many bytes."""
    draw = random.Random(pad)
    lines = [valid("%014d" % (pad * 10000 + i)).encode() + draw.choice([b"", b"\r"]) for i in range(8400)]
    return [b"9" * pad] + lines


def write(lines, text, answers):
    """No line feed stands behind the last line, which is not empty."""
    with open(text, "wb") as out:
        out.write(b"\n".join(lines))
    told = [answer(line) for line in lines]
    with open(answers, "w") as out:
        out.writelines("%d\n" % one for one in told)
        out.write("counts %d %s\n" % (len(told), " ".join(str(told.count(one)) for one in (0, 16, 17, 18))))


if __name__ == "__main__":
    if sys.argv[1] == "lines":
        draw = random.Random(int(sys.argv[2]))
        write([drawn(draw) for _ in range(int(sys.argv[3]) - 1)] + [b"last"], *sys.argv[4:])
    else:
        write(bordering(int(sys.argv[2])), *sys.argv[3:])
