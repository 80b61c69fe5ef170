#!/usr/bin/env python3
"""The stored cases of the program `test_lines`: lines in contexts of their own, made here, with the verdicts of a reading of the paper of its own.

    tests/record_cases.py                 compare crates/test_lines/stdin and stdout with what is made here
    tests/record_cases.py --write         write them
    tests/record_cases.py --seed N FILE   write other cases to FILE, and their verdicts to FILE.told

The columns are those of tests/paper_fields.py, which tests/compare_source.py holds to the source; every rule is written here anew.
The first lines are S records about the ends of what may be filed as an identity number; the others come by chance.
"""
import itertools
import os
import random
import re
import sys

import reference as ref
from paper_fields import ROWS

ROOT = os.path.dirname(os.path.dirname(os.path.abspath(__file__)))
LETTERS = "AESTF"
ROOM = 65536
CLASS = {
    "BLANK_SPACE": ref.BLANK, "NUMERIC": ref.NUMERIC, "ACCOUNT_NUMBER": ref.ACCOUNT, "REQUIRED_TEXT": ref.REQUIRED, "OPTIONAL_TEXT": ref.OPTIONAL,
    "PERSON_NAME": ref.NAME, "TAX_YEAR": ref.YEAR, "EMPLOYER_FEIN": ref.FEIN, "IDENTITY_NUMBER": ref.IDENTITY, "CEASE_DATE": ref.DATE,
}
# document 01: "begins with 666 or 9"; document 02 (i): after 9 only where the fourth and fifth digits are not 50 to 65, 70 to 88, 90 to 92, 94 to 99
REFUSED_IDENTITY = re.compile("666|9..([0-4].|6[6-9]|89|93)")


def cut(data):
    length = next((k for k, c in enumerate(data) if c in "\r\n"), len(data))
    if length != 290:
        return (1, min(length + 1, 291), 0)
    rest = data[290:]
    if not rest:
        return (2, 291, 0)
    return (0, 0, 290 + (2 if rest.startswith("\r\n") else 1))


def place(phase, letter, follow):
    if phase == 0:
        return 0 if letter == "A" else 10
    if letter == "A":
        return 11
    if phase == 4:
        return 19 if letter == "F" else 20
    if phase == 1:
        return {"E": 0, "S": 12, "T": 13, "F": 14}[letter]
    if phase == 2:
        return {"E": 15, "S": 0 if follow else 16, "T": 0, "F": 17}[letter]
    return {"E": 0, "S": 12, "T": 18, "F": 0}[letter]


def cease_date(text, v, c):
    if text[281] == "0":
        return 50 if v else 0
    if v == 0:
        return 51
    if not ref.is_date(text[282:290]):
        return 48
    inside = v % 10000 == c["filed"][0] and v // 1000000 in range(c["filed"][1] - 2, c["filed"][1] + 1)
    return 0 if inside else 49


def rule(letter, name, a, b, text, c):
    """The number of the first rule of a field that is broken after its class test, or 0."""
    v = ref.number_or_zero(text, a, b)
    state = text[138:140]
    kind = "state" if state in ref.STATES else "province" if state in ref.PROVINCES else None
    form = ref.shape(list(text[a - 1:b]))
    if name == "TAX_YEAR":
        if v < 2025:
            return 38
        if letter == "A":
            # the first quarter of a year beyond the current quarter's is later than that one
            return 39 if ref.timing(c["held"], (v, 3)) == ref.LATER else 0
        return 0 if v == c["filed"][0] else 42
    if name == "PERIOD":
        if ref.read_period(text, a, b)[0]:
            return 40
        if letter == "A":
            return 41 if ref.timing(c["held"], (ref.number_or_zero(text, 2, 5), v)) == ref.LATER else 0
        return 0 if v == c["filed"][1] else 43
    if name == "EMPLOYER_FEIN":
        if text[a - 1:a + 1] == "69":
            return 44
        if text[a - 1:b] == "000000000":
            return 64
        return 0 if letter == "A" else 45 if c["seen_fein"] else 63 if c["list_full"] else 0
    if name == "FLAG" or (name == "THIRD_QUARTER_FLAG" and text[187:189] == "09"):
        if text[a - 1] not in "01":
            return 47
        return 65 if a == 282 and text[281] == "0" and ref.timing(c["held"], c["filed"]) == ref.CURRENT else 0
    if name == "ENTITY_CODE":
        return 0 if text[a - 1:b] == "PFML" else 34
    if name == "STATE_CODE":
        return 0 if kind else 35
    if name == "ZIP_CODE":
        return 0 if form == ("99999" if kind == "state" else "A9A 9") else 36
    if name == "ZIP_EXTENSION":
        return 0 if form in (("     ", "-9999") if kind == "state" else ("A9   ",)) else 37
    if name == "CEASE_DATE":
        return cease_date(text, v, c)
    if name == "IDENTITY_NUMBER":
        if REFUSED_IDENTITY.match(text[1:10]):
            return 52
        return 0 if v == 0 else 53 if c["seen_id"] else 62 if c["ids_full"] else 0
    if (letter, a) in (("S", 147), ("T", 13)):
        return 0 if v == c["fein"] else 46
    if (letter, a) == ("T", 2):
        return 55 if v != c["count"] else 56 if c["count"] == 0 and c["follow"] else 0
    totals = {("T", 27): (57, "sum"), ("F", 2): (58, "all_count"), ("F", 12): (59, "employers"), ("F", 41): (60, "all_sum")}
    if (letter, a) in totals:
        number, what = totals[(letter, a)]
        return 0 if v == c[what] else number
    return 0


def judge(c, data):
    number, column, taken = cut(data)
    if number:
        return (number, column)
    text = ref.upper(data[:290])
    bad = ref.permitted(text, 1, 290)
    if bad != ref.FINE:
        return bad
    letter = text[0]
    if letter not in LETTERS:
        return (4, 1)
    number = place(c["phase"], letter, c["follow"])
    if number:
        return (number, 1)
    if letter == "S" and c["all_count"] >= 100000:
        return (61, 1)
    for name, a, b in ROWS[letter]:
        found = ref.class_test(CLASS.get(name, ref.IGNORED), text, a, b)
        if found != ref.FINE:
            return found
        number = rule(letter, name, a, b, text, c)
        if number:
            return (number, a)
    return (0, taken)


def put(text, column, part):
    return text[:column - 1] + part + text[column - 1 + len(part):]


def fill(text, parts):
    for column, part in parts:
        text = put(text, column, part)
    return text


def good_record(letter, c, pick):
    """A record that breaks nothing in its context, where the context allows one."""
    year, month = "%04d" % c["filed"][0], "%02d" % c["filed"][1]
    text = letter + " " * 289
    address = ((24, "ACME"), (74, "1 MAIN ST"), (114, "AUGUSTA"), (139, "ME"), (154, "04332"))
    if letter == "A":
        return fill(text, ((2, year), (6, "012345678"), (15, "PFML"), (19, month)) + address + ((159, "-1061"), (164, "JO"), (194, "2075551212")))
    if letter == "E":
        text = fill(text, ((2, year), (6, "%09d" % c["fein"])) + address + (
            (149, "-1061"), (167, "PFML"), (187, "0"), (188, month), (190, "1"), (191, "1" if month == "09" else pick.choice("01x")), (201, "JO"),
            (231, "A@B"), (261, "2075551212"), (282, "000000000")))
        if pick.random() < (0.85 if ref.timing(c["held"], c["filed"]) == ref.CURRENT else 0.4):
            text = put(text, 282, "1%02d15" % (c["filed"][1] - pick.randrange(3)) + year)
        if pick.random() < 0.3:
            text = fill(text, ((139, "ON"), (149, "B1   "), (154, "K1A 0")))
        return text
    if letter == "S":
        return fill(text, ((2, pick.choice(("000000000", "123456789"))), (11, "O'NEIL-ROY"), (31, "ANNE"), (46, month), (48, year),
                           (64, "%014d" % pick.randrange(10**9)), (143, "PFML"), (147, "%09d" % c["fein"])))
    if letter == "T":
        return fill(text, ((2, "%07d" % c["count"]), (9, "PFML"), (13, "%09d" % c["fein"]), (27, "%014d" % c["sum"])))
    return fill(text, ((2, "%010d" % c["all_count"]), (12, "%010d" % c["employers"]), (22, "PFML"), (41, "%015d" % c["all_sum"])))


# Where the FEIN stands.
FEIN_AT = {"A": 6, "E": 6, "S": 147, "T": 13}


def damaged(text, letter, pick):
    name, a, b = pick.choice(ROWS[letter])
    way = pick.random()
    if letter in FEIN_AT and pick.random() < 0.05:
        return put(text, FEIN_AT[letter], "000000000")
    if way < 0.45:
        return put(text, pick.randrange(a, b + 1), pick.choice(" 0123456789AEX-'.~\t9"))
    if way < 0.7:
        return put(text, a, pick.choice(("69", "666", "9", "2024", "2027", "13", "03", "12", "02302026", "XX", "ON", "ME", "1", " ")))
    if way < 0.8:
        return put(text, a, " " * (b - a + 1))
    if way < 0.85:
        return text.lower()
    return put(text, a, "%0*d" % (b - a + 1, pick.randrange(10 ** min(6, b - a + 1))))


def quarter_behind(held, steps):
    count = held[0] * 4 + held[1] // 3 - 1 + steps
    return (count // 4, count % 4 * 3 + 3)


def quarter_to_file(held, pick):
    """Often a closed quarter or the current one, at times one after it; none is of a year that four digits cannot write."""
    steps = pick.choice((-3, -1, -1, 0, 0, 0, 1, 1, 1, 2 if pick.random() < 0.5 else 0))
    quarter = quarter_behind(held, steps)
    return quarter if 2025 <= quarter[0] <= 9999 else held


def context(letter, pick):
    held = (pick.choice((2025, 2026, 2026, 2026, 9999)), pick.choice((3, 6, 9, 12)))
    usual = {"A": 0, "E": 1, "S": 2, "T": 2, "F": 3}[letter]
    rare = lambda: int(pick.random() < 0.06)
    return dict(
        phase=usual if pick.random() < 0.85 else pick.randrange(5), held=held,
        filed=quarter_to_file(held, pick),
        fein=pick.choice((12345678, 700000000, 5)), follow=1 - rare(), count=pick.choice((0, 1, 3, 3)), sum=pick.randrange(10**6),
        all_count=pick.choice((99999, 100000)) if pick.random() < 0.1 else 7, employers=2, all_sum=pick.randrange(10**9), ids_full=rare(),
        list_full=rare(), seen_fein=rare(), seen_id=rare())


def identity_lines():
    """S records in the contexts that chance gives them, but for where they stand: 52 or what comes after it."""
    pick = random.Random(52)
    ends = ["966%02d6700" % middle for middle in (49, 50, 65, 66, 69, 70, 88, 89, 90, 92, 93, 94, 99)]
    for identity in ["665999999", "666000001", "899999999"] + ends:
        c = dict(context("S", pick), phase=2, follow=1, all_count=7)
        yield c, put(good_record("S", c, pick), 2, identity) + "\n"


def header(c):
    return "%d%04d%02d%04d%02d%09d%d%07d%014d%07d%07d%015d%d%d%d%d|" % (
        c["phase"], *c["held"], *c["filed"], c["fein"], c["follow"], c["count"], c["sum"], c["all_count"], c["employers"], c["all_sum"], c["ids_full"],
        c["list_full"], c["seen_fein"], c["seen_id"])


# A context in which each record may come.
CALM = dict(held=(2026, 6), filed=(2026, 3), fein=12345678, follow=1, count=3, sum=5, all_count=7, employers=2, all_sum=9, ids_full=0, list_full=0,
            seen_fein=0, seen_id=0)


def zero_feins(pick):
    """A FEIN of nine zeros: in A and E, in E though it was seen and the list is full, beside rules of a field before it and of one after it; in S and T,
    also where the open E's is no other."""
    zeros, name, year = "000000000", (24, " "), (2, "2024")
    for letter, more, fein, *changes in (
            ("A", {}, zeros), ("A", {}, "000000001"), ("A", {}, "00000000 "), ("A", {}, zeros, name), ("A", {}, zeros, year), ("A", {"phase": 1}, zeros),
            ("E", {}, zeros), ("E", {}, "100000000"), ("E", {}, " 00000000"), ("E", {}, zeros, name), ("E", {}, zeros, year), ("E", {"phase": 2}, zeros),
            ("E", {"seen_fein": 1, "list_full": 1}, zeros), ("E", {"seen_fein": 1, "list_full": 1}, "000000001"), ("E", {"list_full": 1}, zeros),
            ("S", {}, zeros), ("S", {"fein": 0}, zeros), ("T", {}, zeros), ("T", {"fein": 0}, zeros)):
        c = dict(CALM, phase={"A": 0, "E": 1, "S": 2, "T": 2}[letter])
        c.update(more)
        yield c, fill(good_record(letter, c, pick), ((FEIN_AT[letter], fein), *changes)) + "\n"


def current_quarters(pick):
    """A under each last closed quarter: of that quarter, of the current one, of the one after it and of the year beyond. E, in a file of a closed quarter, of
    the current one and of a later one: a final return and one that is not, flags that are none, and 65 beside the fields before and after it."""
    for held in ((2026, 3), (2026, 9), (2026, 12), (9999, 9), (9999, 12), (2025, 12)):
        for steps in (0, 1, 2, 5 if held[1] == 12 else 4):
            quarter = quarter_behind(held, steps)
            if quarter[0] <= 9999:
                c = dict(CALM, phase=0, held=held, filed=quarter)
                yield c, good_record("A", c, pick) + "\n"
    no, may, march = "000000000", "105312026", "103312026"
    for held, *changes in (
            ((2026, 3), (282, no)), ((2026, 3), (282, may)), ((2026, 3), (282, march)), ((2026, 3), (282, "2")), ((2026, 3), (282, "x" + may[1:])),
            ((2026, 3), (282, "0" + may[1:])), ((2026, 3), (282, "100000000")), ((2026, 3), (282, no), (231, " ")), ((2026, 3), (282, no), (283, " ")),
            ((2026, 6), (282, no)), ((2026, 6), (282, may)), ((2025, 12), (282, no)), ((9999, 12), (282, no))):
        c = dict(CALM, phase=1, held=held, filed=(2026, 6))
        yield c, fill(good_record("E", c, pick), changes) + "\n"
    for held, filed in (((2026, 12), (2027, 3)), ((9999, 9), (9999, 12)), ((9999, 12), (9999, 12))):
        for flag in "01":
            c = dict(CALM, phase=1, held=held, filed=filed)
            date = "%02d01%04d" % (filed[1], filed[0]) if flag == "1" else "00000000"
            yield c, put(good_record("E", c, pick), 282, flag + date) + "\n"


def lines_by_chance(pick):
    while True:
        letter = pick.choice(LETTERS)
        c = context(letter, pick)
        text = good_record(letter, c, pick)
        for _ in range(pick.choice((0, 1, 1, 1, 2))):
            text = damaged(text, letter, pick)[:290]
        if pick.random() < 0.04:
            text = pick.choice((text[:289], text + "X", text[:1], ""))
        data = text + pick.choice(("\n", "\r", "\r\n", "\r\n"))
        if pick.random() < 0.02:
            data = text
        yield c, data


def made(seed):
    pick = random.Random(seed)
    given, told = [], []
    size = 0
    for c, data in itertools.chain(identity_lines(), zero_feins(pick), current_quarters(pick), lines_by_chance(pick)):
        case = header(c) + data + "#"
        size += len(case)
        if size > ROOM:
            break
        given.append(case)
        told.append("%d %d\n" % judge(c, data))
    return "".join(given), "".join(told)


def write(path, text):
    with open(path, "w", encoding="latin-1", newline="") as f:
        f.write(text)


def main():
    if "--seed" in sys.argv:
        seed, path = sys.argv[sys.argv.index("--seed") + 1:][:2]
        given, told = made(int(seed))
        write(path, given)
        write(path + ".told", told)
        return 0
    given, told = made(290)
    paths = [os.path.join(ROOT, "crates", "test_lines", n) for n in ("stdin", "stdout")]
    if "--write" in sys.argv:
        for path, text in zip(paths, (given, told)):
            write(path, text)
        print("%d cases written" % told.count("\n"))
        return 0
    failed = 0
    for path, text in zip(paths, (given, told)):
        with open(path, encoding="latin-1", newline="") as f:
            same = f.read() == text
        failed += not same
        print(("ok     " if same else "FAILED ") + os.path.relpath(path, ROOT) + " is what the reference says of %d lines" % told.count("\n"))
    print("%d passed, %d failed" % (2 - failed, failed))
    return 1 if failed else 0


if __name__ == "__main__":
    sys.exit(main())
