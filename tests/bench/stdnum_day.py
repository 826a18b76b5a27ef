"""Measures Debian's python3-stdnum on a day's tracking numbers, each by a call of its own, and prints a row of a table:
/usr/bin/python3 tests/bench/stdnum_day.py DAY, where DAY is the file that the benchmark writes. stdnum does not know where a letter may
stand. But every number of that day is whole or has one symbol in place of another, and there both stop the same."""
import sys
import time

from stdnum.iso7064 import mod_37_36

LENGTH = 15
ROUNDS = 3


def main(path):
    with open(path, encoding="ascii") as file:
        day = file.read()
    numbers = [day[start : start + LENGTH] for start in range(0, len(day), LENGTH)]
    least = float("inf")
    for _ in range(ROUNDS):
        begin, passed = time.perf_counter(), 0
        for number in numbers:
            if mod_37_36.is_valid(number):
                passed += 1
        least = min(least, time.perf_counter() - begin)
    print(f"| python3-stdnum, `mod_37_36.is_valid` each, {passed} pass, best of {ROUNDS} | {least * 1e9 / len(numbers):.0f} |")


if __name__ == "__main__":
    main(sys.argv[1])
