#!/usr/bin/env python3
"""The stored cases of the program `test_fields`: made here, with the answers of tests/reference.py.

    tests/field_cases.py           compare crates/test_fields/stdin and stdout with what is made here
    tests/field_cases.py --write   write them

The program is run on them, and held to the answers, by `rt ci`.
"""
import os
import random
import sys

import reference as ref

ROOT = os.path.dirname(os.path.dirname(os.path.abspath(__file__)))


def answer(test, a, b, text):
    """The line that the program must print for a case."""
    if test < 19:
        found = ref.class_test(test, text, a, b) + (0,)
    elif 60 <= test < 70:
        found = ref.class_test(test - 60 + 19, text, a, b) + (0,)
    elif test == 20:
        found = ref.read_number(text, a, b)
    elif test == 21:
        found = ref.read_year(text, a, b)
    elif test == 22:
        found = ref.read_period(text, a, b)
    elif test == 23:
        found = ref.read_flag(text, a)
    elif test == 24:
        found = ref.read_fein(text, a, b)
    elif test == 25:
        found = ref.read_identity(text, a, b)
    elif test == 30:
        found = ref.entity(text, a) + (0,)
    elif test == 31:
        found = ref.state(text, a) + (0,)
    elif test == 32:
        found = ref.zip_code(text, a) + (0,)
    elif test == 33:
        found = ref.extension(text, a) + (0,)
    elif test in (40, 41, 42, 43):
        holds = {40: ref.is_date, 41: ref.in_quarter, 42: ref.allowed, 43: ref.after}[test](text)
        found = (0, 0, int(holds))
    elif test == 44:
        found = (0, 0, ref.timing_of(text))
    elif test == 50:
        found = ref.cut(text, a)
    elif test == 51:
        return ref.written(a, b, ref.number_or_zero(text, 1, 19))
    elif test == 52:
        found = ref.permitted(text, a, b) + (0,)
    else:
        found = (99, 0, 0)
    return "%d %d %d" % found


def numbers():
    for w in (1, 2, 9, 18, 19, 20, 21):
        for text in ("0" * w, "9" * w, "1" * (w - 1) + " ", "1" * (w - 1) + "A", " " + "1" * (w - 1), "-" + "1" * (w - 1), "1" * (w - 1)):
            yield 20, 1, w, text
    for first, last in ((0, 4), (1, 4), (3, 2), (3, 3), (5, 9), (7, 30), (10, 10), (0, 0)):
        yield 20, first, last, "12345678"
        yield 20, first, last, "a2c45678X"
    for text in ("2024", "2025", "2026", "9999", "0000", "202A", "    ", " 025"):
        yield 21, 1, 4, text
        yield 21, 3, 6, "xx" + text
    for m in range(0, 14):
        yield 22, 1, 2, "%02d" % m
    for text in ("3 ", " 3", "0A", "  ", "3", ""):
        yield 22, 1, 2, text
    yield 22, 5, 6, "xxxx12"
    yield 22, 5, 6, "xxxx1x"
    for c in "0123456789 AaxZ~-":
        yield 23, 2, 0, "y" + c
    yield 23, 2, 0, "y"
    for v in ("690000000", "699999999", "689999999", "700000000", "069000000", "000000000", "69111111A", "6911111", "999999999", "096900000",
              "000000001", "100000000", "00000000A", "0000000 0", "00000000", "         "):
        yield 24, 1, 9, v
    yield 24, 6, 14, "E2026000000000"
    yield 24, 6, 14, "E2026000000010"
    for v in ("665999999", "666000001", "666999999", "667000000", "900000000", "999999999", "899999999", "000000000", "9A0000000", "066600000",
              "123456789", "66600000", "912501234", "966500000"):
        yield 25, 1, 9, v
    yield from itins()


def itins():
    """Every fourth and fifth digit after 9; about the ends of the ranges after other digits too; what is no number of nine digits."""
    for middle in range(100):
        yield 25, 1, 9, "966%02d6700" % middle
    for middle in (49, 50, 65, 66, 69, 70, 88, 89, 90, 92, 93, 94, 99):
        for front in ("099", "666", "899", "900", "999"):
            yield 25, 1, 9, "%s%02d9999" % (front, middle)
    for text in ("9005000000", "90050000", "0900500000", "1950700000", "95070000A", "9A0700000", "900A00000", "90070 000"):
        yield 25, 1, len(text), text
        yield 25, 2, 10, "S" + text


def texts():
    for c in (*range(19), *range(60, 65)):
        for text in ("", "          ", "ABCDEFGHIJ", " BCDEFGHIJ", "A         ", "1234567890", "12345 7890", "O'NEIL-ROY", "ANNE2     ", "anne      ",
                     "MARY ANN  ", "AB.DEFGHIJ", "         A", "0         "):
            yield c, 1, 10, text
        yield c, 0, 5, "ab 12"
        yield c, 4, 3, "ab 12"
        yield c, 3, 3, "ab 12"
        yield c, 2, 6, "ab 12"
    for c in (64, 18):
        yield c, 1, 3, "!!!"
    for text in ("PFML", "pfml", "PfMl", "PFM", "PFMLX", "PFNL", "    ", "WHAM", " PFML"):
        yield 30, 1, 0, text
        yield 30, 4, 0, "xyz" + text
        yield 30, 0, 0, text


def addresses():
    codes = sorted(ref.STATES | ref.PROVINCES)
    for code in codes + ["  ", "XX", "M ", "A", "", "PR", "GU", "PQ", "NF", "me", "On", "mE"]:
        yield 31, 1, 0, code
        yield 31, 7, 0, code
    for code in ("ME", "DC", "ON", "YT", "XX", "  "):
        for z in ("04332", "K1A 0", "k1a 0", "K1A0B", "0433 ", "0433", "04-32", "KAA 0", "K1A-0", "11A 0", "     ", "O4332"):
            yield 32, 3, 0, code + z
        for e in ("     ", "-1061", "B1   ", "b1   ", "-106", "-106A", "1061 ", " 1061", "B1  .", "1B   ", "BB   ", "-10611", "    -", "+1061"):
            yield 33, 3, 0, code + e


def around(held):
    """The quarters beside a last closed one, as six digits: two before it and three after it, and its own month a year before and after it."""
    year, month = int(held[:4]), int(held[4:])
    for steps in (-4, -2, -1, 0, 1, 2, 3, 4):
        count = year * 4 + month // 3 - 1 + steps
        if count < 40000:
            yield "%04d%02d" % (count // 4, count % 4 * 3 + 3)


def dates(pick):
    for year in (0, 1, 4, 100, 400, 1900, 2000, 2024, 2025, 2026, 2027, 2028, 2100, 9996, 9999):
        for month in (0, 1, 2, 4, 9, 11, 12, 13):
            for day in (0, 1, 28, 29, 30, 31, 32):
                if pick.random() < 0.25 or (month == 2 and day == 29):
                    yield 40, 0, 0, "%02d%02d%04d" % (month, day, year)
    for text in ("02292028", "02292027", "00000000", "99999999", "0229202A", "12312026", "13012026"):
        yield 40, 0, 0, text
    for month in range(0, 14):
        for q in (0, 3, 6, 9, 12, 1, 15, 99):
            yield 41, 0, 0, "%02d152026" % month + "2026%02d" % q
    yield 41, 0, 0, "03312026202603"
    yield 41, 0, 0, "04012026202603"
    yield 41, 0, 0, "03312025202603"
    for year in ("2024", "2025", "9999", "0000", "20 5"):
        for month in ("00", "01", "03", "06", "09", "12", "13", "3 "):
            yield 42, 0, 0, year + month
    quarters = ("202503", "202506", "202512", "202603", "999912", "000000")
    for a in quarters:
        for b in quarters:
            yield 43, 0, 0, a + b
    for held in ("202503", "202603", "202606", "202609", "202612", "999906", "999909", "999912"):
        for quarter in around(held):
            yield 44, 0, 0, held + quarter


def cuts():
    ends = ("", "/", "\\", "\\/", "/\\", "//", "\\\\")
    for n in (0, 1, 4, 5, 6):
        for length in (0, 1, 4, 5, 6, 7):
            for end in ends:
                yield 50, n, 0, "ABCDEFG"[:length] + end + "xy"
                if len(end) > 1 or not end:
                    yield 50, n, 0, "ABCDEFG"[:length] + end


def characters():
    for code in range(32, 127):
        c = chr(code)
        yield 10, 2, 2, "A" + c
        yield 3, 1, 1, c
        yield 52, 1, 3, "A" + c + "B"
    yield 52, 1, 3, "AB"
    yield 52, 1, 5, "AB\tCD"
    yield 52, 1, 5, "ABC\x7fD"
    yield 52, 2, 4, "\tBCD"
    for v in ("0", "7", "123456789", "9999999999999999999", "1000000000000000000"):
        for first, last in ((1, 9), (0, 3), (5, 5), (20, 24), (22, 26), (9, 8), (1, 19), (30, 40)):
            yield 51, first, last, v.zfill(19)
    yield 53, 0, 0, "no such test"


def noise(pick):
    letters = " 0123456789ABXZabz-'.~/"
    for _ in range(420):
        test = pick.choice((2, 3, 4, 8, 9, 10, 20, 21, 22, 24, 25, 30, 32, 33))
        text = "".join(pick.choice(letters) for _ in range(pick.randrange(0, 16)))
        if test in (32, 33):
            text = pick.choice(("ME", "on", "XX")) + text
        yield test, pick.randrange(0, 10), pick.randrange(0, 16), text


def line_ends():
    """Cases that end at CR, and at CR and LF, between which stands a case of nothing."""
    yield (20, 1, 3, "123"), "\r"
    yield (20, 1, 3, "456"), "\r\n"
    yield (20, 1, 3, "789"), "\n"


def made():
    pick = random.Random(290)
    cases = [c for part in (numbers(), texts(), addresses(), dates(pick), cuts(), characters(), noise(pick)) for c in part]
    given = "".join("%02d%03d%03d%s\n" % c for c in cases)
    told = "".join(answer(*c) + "\n" for c in cases)
    for case, end in line_ends():
        given += "%02d%03d%03d%s" % case + end
        told += answer(*case) + "\n"
        if end == "\r\n":
            told += answer(99, 0, 0, "") + "\n"
    return given, told, len(cases) + 4


def main():
    given, told, count = made()
    if len(given) > 65536:
        print("the cases take %d bytes, the program reads 65536" % len(given))
        return 2
    paths = [os.path.join(ROOT, "crates", "test_fields", n) for n in ("stdin", "stdout")]
    if "--write" in sys.argv:
        for path, text in zip(paths, (given, told)):
            with open(path, "w", encoding="latin-1", newline="") as f:
                f.write(text)
        print("%d cases written" % count)
        return 0
    failed = 0
    for path, text in zip(paths, (given, told)):
        with open(path, encoding="latin-1", newline="") as f:
            same = f.read() == text
        failed += not same
        print(("ok     " if same else "FAILED ") + os.path.relpath(path, ROOT) + " is what the reference says of %d cases" % count)
    print("%d passed, %d failed" % (2 - failed, failed))
    return 1 if failed else 0


if __name__ == "__main__":
    sys.exit(main())
