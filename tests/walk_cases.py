#!/usr/bin/env python3
"""The stored script of the program tests/c/calls.c: calls of the exports, one after the other, and what the reference says of each.

    tests/walk_cases.py                 compare tests/c/calls.script and calls.told with what is made here, and the reference with results found by hand
    tests/walk_cases.py --write         write them
    tests/walk_cases.py --seed N FILE   write a script of other calls to FILE, and their answers to FILE.told

The script keeps the words of a state, an id table of 40 numbers and an employer list of 12 entries from command to command; tests/c/calls.c says what
a command is. What the program prints is worked out from the script itself, so that both read the same bytes.
"""
import os
import random
import sys

import export_reference as exports
import record_cases as records
import walk_reference as walk
from walk_reference import ACCEPTED, AFTER_A, AFTER_F, AFTER_T, BEFORE_A, E_OPEN, MOST_WAGES, NO_ENTRY, NO_FORMAT, PFML, REFUSED, Reply, State

# the script's length
ROOM = 250000
IDS, ENTRIES = 40, 12
LONG = 65540
# what is told for a word of the answer that is not lent
UNTOLD = 999
# a line or end call that answers one of these leaves every word of the state as it was
STILL = (70, 71, 72, 73)
# the numbers that S can put into a refused state; another is read as the last
NUMBERS = (1, 44, 63, 64, 65, 70, 71, 72, 73, 80, 83)
# the digit columns of each command, by their widths, in order from the second character on
STATE = (("stage", 1), ("number", 2), ("line", 10), ("column", 5), ("lines", 10), ("held_year", 5), ("held_month", 2), ("filed_year", 5),
         ("filed_month", 2), ("fein", 10), ("follow", 1), ("count", 10), ("sum", 19), ("all_count", 10), ("employers", 10), ("all_sum", 19), ("used", 10))
ENTRY = (("fein", 10), ("count", 10), ("cents", 19), ("amended", 10), ("final", 10), ("date", 10))
LENT = (("ids", 2), ("entries", 2))
OPENING = (("format", 20), ("year", 5), ("month", 2), *LENT)
COMMANDS = {
    "O": OPENING, "L": LENT, "E": LENT, "W": OPENING, "S": STATE, "X": (("more", 1),),
    "T": (("at", 2), ("id", 10), ("place", 2), *ENTRY), "N": (("at", 2), ("number", 20)), "K": (("words", 2), ("answer", 1)),
    "F": (("entries", 2), ("length", 3)), "RT": (("length", 3),), "RF": (("length", 3),),
}


# What the program does with a script.

def parsed(command):
    letter = command[:2] if command[0] == "R" else command[0]
    given, at = {}, len(letter)
    for name, width in COMMANDS[letter]:
        given[name] = int(command[at:at + width])
        at += width
    return letter, given, command[at + 1:]


def state_in(g):
    refused = g["stage"] >= REFUSED
    number = g["number"] if g["number"] in NUMBERS else NUMBERS[-1]
    return State(
        stage=min(g["stage"], REFUSED), lines=g["lines"], held=(g["held_year"], g["held_month"]), filed=(g["filed_year"], g["filed_month"]),
        fein=g["fein"], follow=g["follow"], count=g["count"], sum=g["sum"], all_count=g["all_count"], employers=g["employers"], all_sum=g["all_sum"],
        used=g["used"], number=number if refused else 0, line=g["line"] if refused else 0, column=g["column"] if refused else 0)


def told_numbers(numbers):
    return "".join("%d " % n for n in numbers)


def trimmed(items, rest):
    while items and items[-1] == rest:
        items = items[:-1]
    return items


def told_ids(ids):
    return "|" + ",".join("%d" % n for n in trimmed(ids, 0))


def told_entries(entries):
    return "|" + ",".join("%d:%d:%d:%d:%d:%d" % entry for entry in trimmed(entries, NO_ENTRY))


class Program:
    def __init__(self):
        self.words = exports.words_of(State())
        self.ids = [0] * IDS
        self.entries = [NO_ENTRY] * ENTRIES
        self.words_lent, self.answer_lent = exports.WORDS, 4

    @property
    def st(self):
        return exports.state_in(self.words)

    def answered(self, reply):
        """The answer's words as far as they are lent; the number is returned as well."""
        return told_numbers([n if k < max(self.answer_lent, 1) else UNTOLD for k, n in enumerate(reply)])

    def told(self, reply, words):
        return self.answered(reply) + "|" + told_numbers(words)

    def called(self, words, call, still=STILL):
        """The reply of a call over these words, and the words that it leaves."""
        st, reply = call(exports.state_in(words[:self.words_lent]))
        return reply, words if reply.number in still else exports.words_of(st)

    def lend(self, given, call, still=STILL):
        n, m = min(given["ids"], IDS), min(given["entries"], ENTRIES)
        ids, entries = self.ids[:n], self.entries[:m]
        reply, self.words = self.called(self.words, lambda st: call(st, ids, entries), still)
        self.ids[:n], self.entries[:m] = ids, entries
        return self.told(reply, self.words) + told_ids(self.ids) + told_entries(self.entries) + "\n"

    def opening(self, given, call):
        """A call that needs room for a state: else 72, and nothing is touched. It writes the state that it leaves, that of 70 and 73 too."""
        if self.words_lent < exports.WORDS:
            return self.lend(given, lambda st, ids, entries: (st, Reply(72)))
        return self.lend(given, lambda st, ids, entries: call(given["format"], (given["year"], given["month"]), ids, entries), still=())

    def alter(self, g):
        if g["at"] < IDS:
            self.ids[g["at"]] = g["id"]
        if g["place"] < ENTRIES:
            self.entries[g["place"]] = tuple(g[name] for name, _ in ENTRY)

    def beyond(self, more, data):
        ids, entries = [0] * IDS, [(7, 8, 9, 10, 11, 12)] * LONG
        words = list(self.words)
        words[exports.EMPLOYERS] = 65535 + min(more, 2)
        reply, words = self.called(words, lambda st: walk.line_call(st, data, ids, entries))
        return self.told(reply, words) + told_entries(entries[65534:]) + "\n"

    def record(self, letter, length):
        number, written = exports.write_call(letter, exports.state_in(self.words[:self.words_lent]), length)
        return "".join(self.answered((number, 0, 0))) + "|" + (written or "." * length) + "\n"

    def frames(self, entries, length):
        reply, buffer = exports.frames_call(exports.state_in(self.words[:self.words_lent]), self.entries[:entries], "." * length)
        return self.answered(reply) + "|" + buffer.replace("\n", "/") + "\n"

    def call(self, letter, g, data):
        """What a call prints; None where the command is none."""
        if letter == "O":
            return self.opening(g, walk.open_walk)
        if letter == "W":
            return self.opening(g, lambda named, held, ids, entries: walk.whole_call(named, held, data, ids, entries))
        if letter == "L":
            return self.lend(g, lambda st, ids, entries: walk.line_call(st, data, ids, entries))
        if letter == "E":
            return self.lend(g, walk.end_call)
        if letter == "X":
            return self.beyond(g["more"], data)
        if letter == "F":
            return self.frames(g["entries"], g["length"])
        return self.record(letter[1], g["length"]) if letter[0] == "R" else None

    def run(self, command):
        """What a command prints."""
        letter, g, data = parsed(command)
        told = self.call(letter, g, data)
        if told is not None:
            return told
        if letter == "S":
            self.words = exports.words_of(state_in(g))
        elif letter == "N":
            self.words = [g["number"] if k == g["at"] else n for k, n in enumerate(self.words)]
        elif letter == "K":
            self.words_lent, self.answer_lent = g["words"], g["answer"]
        else:
            self.alter(g)
        return ""


def run_script(text):
    program = Program()
    return "".join(program.run(command) for command in text.split("#")[:-1])


# Making a script.

def names_another(letter, values):
    """Whether a command names a format that the reference does not know."""
    given = values["format"] if letter in "OW" else values["number"] if letter == "N" and values["at"] == exports.FORMAT else PFML
    return given in walk.OTHER_FORMATS


class Script:
    """Commands so far, and the program's state after them, by which the next ones are made. `lent` is how much of the tables each call is lent."""

    def __init__(self, room):
        self.program = Program()
        self.given, self.size, self.room = [], 0, room
        self.lent = (4, 3)

    def add(self, letter, data=None, **values):
        digits = "".join("%0*d" % (width, values[name]) for name, width in COMMANDS[letter])
        command = letter + digits + ("" if data is None else "|" + data)
        if "#" in command or len(digits) != sum(width for _, width in COMMANDS[letter]) or names_another(letter, values):
            raise ValueError(command)
        if self.size + len(command) + 1 > self.room:
            raise OverflowError
        self.size += len(command) + 1
        self.given.append(command + "#")
        self.program.run(command)

    def open(self, held, named=PFML):
        self.add("O", format=named, year=held[0], month=held[1], ids=self.lent[0], entries=self.lent[1])

    def line(self, data):
        self.add("L", data, ids=self.lent[0], entries=self.lent[1])

    def lines(self, *texts):
        for text in texts:
            self.line(text + "\n")

    def end(self):
        self.add("E", ids=self.lent[0], entries=self.lent[1])

    def whole(self, held, data, named=PFML):
        self.add("W", data, format=named, year=held[0], month=held[1], ids=self.lent[0], entries=self.lent[1])

    def beyond(self, more, data):
        self.add("X", data, more=more)

    def table(self, at, identity, place, entry):
        self.add("T", at=at, id=identity, place=place, **{name: number for (name, _), number in zip(ENTRY, entry, strict=True)})

    def word(self, at, number):
        self.add("N", at=at, number=number)

    def lending(self, words=exports.WORDS, answer=4):
        self.add("K", words=words, answer=answer)

    def record(self, letter, length=290):
        self.add("R" + letter, length=length)

    def frames(self, entries, length):
        self.add("F", entries=entries, length=length)

    def state(self, st):
        """By S, which leaves zeros from the format on, and what is not zero of these words one by one."""
        names = dict(st._asdict(), held_year=st.held[0], held_month=st.held[1], filed_year=st.filed[0], filed_month=st.filed[1])
        self.add("S", **{name: names[name] for name, _ in STATE})
        for at, number in list(enumerate(exports.words_of(st)))[exports.FORMAT:]:
            if number:
                self.word(at, number)


# Records that break nothing.

HELD, QUARTER = (2026, 6), (2026, 3)
FEIN = 12345678
ADDRESS = ((24, "ACME"), (74, "1 MAIN ST"), (114, "AUGUSTA"), (139, "ME"), (154, "04332"))


def filled(letter, *parts):
    return records.fill(letter + " " * 289, parts)


def a_record(quarter=QUARTER):
    return filled("A", (2, "%04d" % quarter[0]), (6, "012345678"), (15, "PFML"), (19, "%02d" % quarter[1]), *ADDRESS, (164, "JO"), (194, "2075551212"))


def e_record(fein=FEIN, follow=1, quarter=QUARTER, closure="000000000", amended=0):
    flags = "%d%02d%d%s" % (amended, quarter[1], follow, "0" if quarter[1] == 9 else " ")
    return filled("E", (2, "%04d" % quarter[0]), (6, "%09d" % fein), *ADDRESS, (167, "PFML"), (187, flags), (201, "JO"), (231, "A@B"), (261, "2075551212"),
                  (282, closure))


def s_record(identity, wages, fein=FEIN, quarter=QUARTER):
    return filled("S", (2, "%09d" % identity), (11, "O'NEIL-ROY"), (31, "ANNE"), (46, "%02d%04d" % (quarter[1], quarter[0])), (64, "%014d" % wages),
                  (143, "PFML"), (147, "%09d" % fein))


def t_record(count, cents, fein=FEIN):
    return filled("T", (2, "%07d" % count), (9, "PFML"), (13, "%09d" % fein), (27, "%014d" % cents))


def f_record(count, employers, cents):
    return filled("F", (2, "%010d" % count), (12, "%010d" % employers), (22, "PFML"), (41, "%015d" % cents))


TWO = (s_record(111111111, 123456), s_record(0, 44))


def joined(*texts):
    return "".join(text + "\n" for text in texts)


def standing(stage, **changes):
    """A walk at this stage, fit for tables of one entry or more, with two S records in the file, one of them under the open E."""
    st = State(stage=stage, lines=4, held=HELD, filed=QUARTER, fein=FEIN, follow=1, count=1, sum=100, all_count=2, employers=1, all_sum=300, used=1)
    if stage == REFUSED:
        st = st._replace(number=44, line=3, column=6)
    return st._replace(**changes)


def content(w):
    """Two entries in each table, as no walk leaves them."""
    w.table(0, 111111111, 0, (FEIN, 0, 0, 1, 0, 0))
    w.table(1, 222222222, 1, (7, 8, 9, 10, 11, 12))


# The cases, by subject.

def accepted(w):
    """By calls, with tables just large enough; every line end; an id under two employers, a zero id twice."""
    w.lent = (2, 2)
    w.open(HELD)
    w.line(a_record() + "\n")
    w.line(e_record() + "\r\nE")
    w.line(s_record(111111111, 123456) + "\r")
    w.line(s_record(0, 44) + "\n\r")
    w.line(s_record(0, 0) + "\r\n")
    w.lines(s_record(222222222, MOST_WAGES - 123500), t_record(4, MOST_WAGES), e_record(7), s_record(111111111, 1, 7), t_record(1, 1, 7))
    w.line(f_record(5, 2, MOST_WAGES + 1).lower() + "\n")
    w.end()
    w.end()
    w.line("")
    w.lent = (1, 1)
    w.open(HELD)
    w.end()
    w.end()


def in_one_slice(w):
    """Files in one slice, and some of them by calls: accepted and refused."""
    good = (a_record(), e_record(5), s_record(111111111, 7, 5), t_record(1, 7, 5), f_record(1, 1, 7))
    w.lent = (1, 1)
    w.whole(HELD, joined(*good))
    w.open(HELD)
    w.lines(*good)
    w.end()
    w.lent = (0, 1)
    w.whole(HELD, joined(*good[:3]))
    w.open(HELD)
    w.lines(*good[:3])
    w.end()
    w.lent = (0, 0)
    w.whole(HELD, joined(*good[:2]))
    w.lent = (3, 2)
    zero = joined(a_record(), e_record(5, 0), t_record(0, 0, 5), f_record(0, 1, 0))
    w.whole(HELD, zero)
    w.whole(HELD, zero + "\r")
    content(w)
    w.whole(HELD, joined(*good[:3], t_record(1, 8, 5)))
    content(w)
    w.whole(HELD, "")
    content(w)
    w.whole((2026, 5), "A\n")
    w.whole((2026, 5), "")
    w.whole(QUARTER, a_record() + "\n\r")


def line_ends(w):
    """A line call that is lent no bytes, one, too few, just enough and more."""
    w.lent = (1, 1)
    text = a_record()
    for data in ("", "A", "\n", "\r\n", text[:289] + "\n", text, text + "\r", text + "\n\r", text + "\r\nX", text + "\rX", text + " \n", text + " ",
                 text[:289] + "\x7f\n", "X" + text[1:] + "\n"):
        w.open(QUARTER)
        w.line(data)


def afterwards(w):
    """Calls after a refusal, 70 and acceptance, with content in the tables."""
    w.lent = (1, 2)
    w.open(HELD)
    w.line("A\n")
    content(w)
    w.line("A\n")
    content(w)
    w.lent = (IDS, ENTRIES)
    w.end()
    content(w)
    for quarter in ((2024, 12), (10000, 3), (2026, 0), (2026, 4), (2026, 13)):
        w.open(quarter)
    w.line(a_record() + "\n")
    w.line("")
    w.end()
    w.lent = (0, 0)
    w.end()
    for quarter in ((2025, 3), (9999, 12)):
        w.open(quarter)
    w.lent = (2, 2)
    w.state(standing(ACCEPTED))
    w.line(f_record(2, 1, 300) + "\n")
    w.end()
    w.state(standing(REFUSED, number=70))
    w.line("")
    w.end()
    w.open(HELD)


def ends(w):
    """An end call in each phase; a line after F and before the end call goes by the ordinary rules."""
    w.lent = (1, 1)
    for stage in (BEFORE_A, AFTER_A, E_OPEN, AFTER_T, AFTER_F):
        content(w)
        w.state(standing(stage))
        w.end()
    for data in ("", a_record() + "\n", e_record() + "\n", f_record(2, 1, 300) + "\n"):
        w.state(standing(AFTER_F))
        w.line(data)


def bounds(w):
    """Each condition of 72 at its bound and one over, where it counts and where it does not."""
    w.lent = (2, 3)
    most = walk.MOST_S * MOST_WAGES
    for stages, over, bound in (
            # an open E's numbers
            ((E_OPEN,), dict(used=3), dict(used=2)),
            ((E_OPEN,), dict(count=3), dict(count=2)),
            ((E_OPEN,), dict(sum=MOST_WAGES + 1), dict(sum=MOST_WAGES)),
            ((E_OPEN,), dict(count=0, sum=1), dict(count=0, sum=0)),
            ((E_OPEN,), dict(employers=0), dict(employers=1)),
            ((E_OPEN,), dict(fein=1000000000), dict(fein=999999999)),
            # the file's, in every walk
            ((BEFORE_A, E_OPEN, REFUSED), dict(employers=4), dict(employers=3)),
            ((AFTER_A, E_OPEN, ACCEPTED), dict(all_count=100001), dict(all_count=100000)),
            ((REFUSED,), dict(all_count=100001), dict(all_count=100000)),
            ((AFTER_T, E_OPEN), dict(all_sum=2 * MOST_WAGES + 1), dict(all_sum=2 * MOST_WAGES)),
            ((ACCEPTED, REFUSED), dict(all_count=100000, all_sum=most + 1), dict(all_count=100000, all_sum=most)),
            ((BEFORE_A, REFUSED, AFTER_F), dict(lines=231075), dict(lines=231074)),
            # the quarters
            ((BEFORE_A, E_OPEN), dict(held=(2024, 12), filed=(2024, 12)), dict(held=(2025, 3), filed=(2025, 3))),
            ((BEFORE_A, ACCEPTED), dict(held=(10000, 3)), dict(held=(9999, 12))),
            ((BEFORE_A,), dict(held=(2026, 7)), dict(held=(2026, 9))),
            ((AFTER_A, E_OPEN), dict(filed=(2026, 12)), dict(filed=(2026, 9))),
            ((AFTER_T,), dict(held=(2026, 12), filed=(2027, 6)), dict(held=(2026, 12), filed=(2027, 3))),
            ((ACCEPTED,), dict(held=(9999, 12), filed=(10000, 3)), dict(held=(9999, 9), filed=(9999, 12))),
            ((AFTER_T,), dict(filed=(2024, 12)), dict(filed=(2025, 3))),
            ((AFTER_F,), dict(filed=(2027, 3)), dict(filed=(2025, 12))),
            ((ACCEPTED,), dict(filed=(2026, 4)), dict(filed=QUARTER))):
        content(w)
        for stage in stages:
            w.state(standing(stage, **over))
            w.end()
        for stage in stages:
            w.state(standing(stage, **bound))
            w.end()


def no_bounds(w):
    """What 72 does not test: an open E's numbers when none is open, A's quarter before A, any quarter of a refused walk, one sum against the other."""
    w.lent = (0, 1)
    wild = dict(used=9999999999, count=9999999999, sum=9999999999999999999, fein=9999999999)
    for stage in (BEFORE_A, AFTER_A, AFTER_T, AFTER_F, ACCEPTED, REFUSED):
        w.state(standing(stage, **wild))
        w.end()
    w.state(standing(BEFORE_A, filed=(99999, 99), employers=0))
    w.end()
    w.state(standing(AFTER_T, employers=0))
    w.end()
    w.state(standing(REFUSED, held=(0, 0), filed=(99999, 99), line=4294967295, column=65535))
    w.end()
    w.lent = (1, 1)
    w.state(standing(E_OPEN, count=2, sum=2 * MOST_WAGES, all_sum=0))
    w.end()
    for number in NUMBERS:
        content(w)
        w.state(standing(REFUSED, number=number))
        w.line("")


def room(w):
    """62 and 63, and 53 and 45 in front of them; ids and entries after those in use count for nothing."""
    e_open = standing(E_OPEN)
    for ids, used, identity in ((1, 1, 222222222), (2, 1, 222222222), (1, 1, 111111111), (1, 1, 0), (0, 0, 0), (0, 0, 5), (2, 0, 222222222)):
        content(w)
        w.lent = (ids, 1)
        w.state(e_open._replace(used=used))
        w.lines(s_record(identity, 1))
    for entries, employers, fein in ((1, 1, 5), (2, 1, 5), (1, 1, FEIN), (2, 1, 7), (0, 0, 5), (3, 2, 7), (1, 0, FEIN)):
        content(w)
        w.lent = (0, entries)
        w.state(standing(AFTER_T, employers=employers))
        w.lines(e_record(fein))


def nine_zeros(w):
    """64, of A and of E, with content in the tables, and called again; before 45 and 63, after the place. In S and T zeros are a FEIN as any other."""
    w.lent = (2, 2)
    w.open(HELD)
    content(w)
    w.lines(records.put(a_record(), 6, "000000000"))
    w.open(HELD)
    w.lines(a_record())
    content(w)
    w.lines(e_record(0))
    content(w)
    w.lines(e_record(5))
    content(w)
    w.end()
    for employers, fein in ((2, 0), (2, 7), (1, 1)):
        w.table(0, 111111111, 0, NO_ENTRY)
        w.state(standing(AFTER_T, employers=employers))
        w.lines(e_record(fein))
    w.state(standing(E_OPEN))
    w.lines(e_record(0))
    for fein in (FEIN, 0):
        for text in (s_record(0, 1, 0), t_record(1, 100, 0)):
            w.state(standing(E_OPEN, fein=fein))
            w.lines(text)
    w.whole(HELD, joined(a_record(), e_record(0), s_record(111111111, 7, 0), t_record(1, 7, 0), f_record(1, 1, 7)))


# The quarter after HELD, which is the current one, and a closure in it.
CURRENT, IN_AUGUST = (2026, 9), "108312026"


def closing(w):
    """65, with content in the tables, and called again, before 50 and after 47; two employers of the current quarter, both closing, and one of them not;
    A under 12 of a year, of the year after it and of the one after that."""
    w.lent = (2, 2)
    w.open(HELD)
    w.lines(a_record(CURRENT))
    content(w)
    w.lines(e_record(quarter=CURRENT))
    content(w)
    w.lines(e_record(quarter=CURRENT, closure=IN_AUGUST))
    content(w)
    w.end()
    for filed, closure in ((CURRENT, "008312026"), (CURRENT, "208312026"), (CURRENT, IN_AUGUST), (HELD, "000000000"), ((2026, 12), "000000000")):
        w.state(standing(AFTER_T, filed=filed, employers=0))
        w.lines(e_record(quarter=filed, closure=closure))
    first = (a_record(CURRENT), e_record(5, 0, CURRENT, IN_AUGUST), t_record(0, 0, 5))
    for closure in (IN_AUGUST, "000000000"):
        w.whole(HELD, joined(*first, e_record(7, 1, CURRENT, closure), s_record(8, 9, 7, CURRENT), t_record(1, 9, 7), f_record(1, 2, 9)))
    for held, quarter in (((2026, 12), (2027, 3)), ((2026, 12), (2027, 6)), ((2026, 12), (2028, 3)), ((9999, 12), (9999, 12)), ((9999, 9), (9999, 12))):
        w.whole(held, joined(a_record(quarter)))


# Each kind of return: the amended flag, and the final flag and date of a day in QUARTER.
KINDS = tuple((amended, closure) for amended in (0, 1) for closure in ("000000000", "101012026", "103312026"))


def kinds(w):
    """Returns of each kind: the entry after E, S and T, and the frames; an entry with content under an E and under a T; a refusal after each."""
    w.lent = (2, 3)
    for amended, closure in KINDS:
        e = e_record(closure=closure, amended=amended)
        content(w)
        w.open(HELD)
        w.lines(a_record(), e, *TWO, t_record(2, 123500), f_record(2, 1, 123500))
        w.end()
        w.frames(1, 82)
        w.frames(1, 81)
        content(w)
        w.state(standing(AFTER_T, employers=1))
        w.lines(e_record(5, 0, closure=closure, amended=amended), t_record(0, 0, 5), f_record(2, 2, 300))
        w.end()
        w.frames(2, 129)
        w.whole(HELD, joined(a_record(), e, *TWO, t_record(2, 123500), e_record(7, 0, amended=1 - amended), t_record(0, 0, 7), f_record(2, 2, 123500)))
        w.frames(3, 129)
    for flag, closure in (("2", "000000000"), ("1", "003312026"), ("1", "100000000"), ("0", "102302026"), ("1", "104012026")):
        content(w)
        w.state(standing(AFTER_T))
        w.lines(records.put(e_record(5, closure=closure), 187, flag))


def totals(w):
    """T against the S records, F against the file; never against the list."""
    w.lent = (2, 2)
    for changes, count, cents in (({}, 1, 100), ({}, 1, 99), ({}, 2, 100), (dict(count=0, sum=0), 0, 0), (dict(count=0, sum=0, follow=0), 0, 0),
                                  (dict(count=2, sum=10**14, all_sum=10**14), 2, 0), (dict(employers=2, used=0), 1, 100)):
        content(w)
        w.state(standing(E_OPEN, **changes))
        w.lines(t_record(count, cents))
    content(w)
    w.table(1, 0, 1, (7, 8, 291, 1, 1, 3312026))
    for count, employers, cents in ((2, 1, 300), (8, 1, 300), (2, 2, 300), (2, 1, 291)):
        w.state(standing(AFTER_T))
        w.lines(f_record(count, employers, cents))
    w.state(standing(AFTER_T, all_count=11, all_sum=10**15))
    w.lines(f_record(11, 1, 0))


def at_the_bounds(w):
    """Lines of a walk at the bounds: the last S record of a file with all sums at their largest, the next one; the last line."""
    w.lent = (1, 1)
    most = 99999 * MOST_WAGES
    w.state(standing(E_OPEN, count=99999, sum=most, all_count=99999, all_sum=most, used=0))
    w.lines(s_record(0, MOST_WAGES), s_record(0, 0))
    w.end()
    w.state(standing(E_OPEN, lines=231074))
    w.lines(t_record(1, 100))
    w.line("")
    w.end()
    w.state(standing(E_OPEN, lines=231074))
    w.lines(t_record(1, 101))


def altered(w):
    """What a passing line leaves of made-up numbers, and of tables with content: A, E, F, and S and T with another FEIN in the list."""
    w.lent = (2, 3)
    wild = dict(used=77, count=88, sum=99, fein=1234567890)
    for stage, text in ((BEFORE_A, a_record()), (AFTER_A, e_record(5, 0)), (AFTER_T, f_record(2, 1, 300))):
        content(w)
        w.state(standing(stage, **wild))
        w.lines(text)
    content(w)
    w.table(2, 333333333, 2, (1, 1, 1, 1, 1, 1))
    w.state(standing(E_OPEN, employers=2))
    w.lent = (40, 12)
    w.lines(s_record(333333333, 5), s_record(0, 6), t_record(3, 111))
    w.state(standing(E_OPEN, employers=2))
    w.lines(s_record(1, 1, 7))


def other_lengths(w):
    """Tables of other lengths at later calls."""
    w.lent = (4, 3)
    w.open(HELD)
    w.lines(a_record(), e_record(), s_record(111111111, 1), s_record(222222222, 2))
    for lent in ((1, 3), (4, 0)):
        w.lent = lent
        w.line("A\n")
        w.end()
    w.lent = (2, 1)
    w.lines(t_record(2, 3))
    w.lent = (0, 1)
    w.lines(f_record(2, 1, 3))
    w.lent = (0, 0)
    w.end()
    w.lent = (0, 1)
    w.end()
    w.lent = (0, 0)
    w.end()


def beyond(w):
    """More than 65,536 entries, each 7 to 12: the last one used, none left, one too many; a FEIN on an earlier E; any other refusal."""
    w.state(standing(AFTER_T))
    for more in range(3):
        w.beyond(more, e_record() + "\n")
    w.beyond(0, e_record(7) + "\n")
    w.beyond(0, "E\n")
    w.state(standing(REFUSED))
    w.beyond(1, "")


MOST = 2**64 - 1


def no_walks(w):
    """Words that tell no walk: a standing above 6, numbers that are not listed. Every call answers 72, and every word stays."""
    w.lent = (2, 3)
    for stage, at, numbers in ((E_OPEN, 0, (7, 256, 2**32, 2**32 + 2, MOST)), (REFUSED, 1, (0, 9, 21, 29, 66, 74, 84, 87, 88, 300, 2**32 + 44, 2**32 + 73, MOST))):
        for number in numbers:
            content(w)
            w.state(standing(stage))
            w.word(at, number)
            w.lines(t_record(1, 100))
            w.end()
            w.record("T")
            w.frames(3, 82)


def odd_words(w):
    """Words that a call reads as others: flags above 1, a line and a column that are too large; a refusal's words where there is none."""
    w.lent = (2, 3)
    for flag in (0, 1, 2, 256, 2**32, MOST):
        for count, line in ((1, s_record(222222222, 1)), (0, t_record(0, 0))):
            w.state(standing(E_OPEN, count=count, sum=count))
            w.word(10, flag)
            w.record("T")
            w.lines(line)
    for at, number in ((2, 2**32 - 1), (2, 2**32), (2, MOST), (3, 65535), (3, 65536), (4, 2**32), (5, 2**32 + 2026), (14, 2**32), (16, 2**32 + 1)):
        w.state(standing(REFUSED))
        w.word(at, number)
        w.frames(2, 17)
        w.end()
    for stage in (BEFORE_A, E_OPEN, ACCEPTED):
        w.state(standing(stage))
        for at in (1, 2, 3):
            w.word(at, 99)
        w.lines(a_record() if stage == BEFORE_A else s_record(0, 1))
        w.end()


def seventy_again(w):
    """Words that a call reads as others, in a walk refused with 70: a line or end call touches none of them, an opening writes all. Likewise with 73."""
    w.lent = (2, 3)
    for at, number in ((2, 2**32), (2, MOST), (3, 65536), (10, 2), (10, MOST)):
        content(w)
        w.state(standing(REFUSED, number=70))
        w.word(at, number)
        w.lines(a_record())
        w.end()
        w.line("")
        w.open((2026, 5))
    for at, number in ((2, 2**32), (3, MOST), (10, 2), (17, 9), (21, 2), (26, MOST)):
        content(w)
        w.state(standing(REFUSED, number=73, format=NO_FORMAT))
        w.word(at, number)
        w.line("A\n")
        w.end()
        w.open(HELD, 9)


# numbers that name no format, and never will
OTHERS = (5, 9, NO_FORMAT, 256, 2**32, MOST)


def formats(w):
    """Openings with a number that names no format, under a quarter that may be held and under one that may not; and the calls after them."""
    w.lent = (2, 2)
    for named in OTHERS:
        for held in (HELD, (2025, 9), (2026, 5)):
            content(w)
            w.open(held, named)
            w.line("A\n")
            w.end()
            w.frames(0, 17)
            w.whole(held, "A\n", named)
            w.whole(held, "", named)
    for held in (HELD, (2026, 5)):
        w.open(held, 9)
        w.lines(a_record())
        w.line("")
        w.end()
        for letter in "TF":
            w.record(letter)
            w.record(letter, 289)
        w.frames(2, 16)
        w.lent = (0, 0)
        w.end()
        w.lent = (2, 2)
    for words in (0, 17, 26, 27, 28):
        w.lending(words, 4)
        w.open(HELD, 9)
        w.open((2026, 5), 9)
        w.whole(HELD, "", 9)
    w.lending()
    w.open(HELD)
    w.lines(a_record())
    w.open(HELD, 5)
    w.open(HELD)
    w.end()


def formats_kept(w):
    """A state whose format is none, in each standing: 72, and every word stays; but a walk refused with 70 or 73 is answered again."""
    w.lent = (2, 3)
    takes = {BEFORE_A: a_record(), AFTER_A: e_record(5), E_OPEN: s_record(222222222, 1), AFTER_T: f_record(2, 1, 300)}
    walks = [standing(stage) for stage in range(REFUSED)] + [standing(REFUSED, number=number, line=0, column=0) for number in (44, 70, 71, 72, 73)]
    for st in walks:
        for named in OTHERS if st.stage in (E_OPEN, REFUSED) else (9,):
            content(w)
            w.state(st)
            w.word(exports.FORMAT, named)
            w.line("")
            w.end()
            w.frames(3, 82)
            w.record("F" if st.stage == AFTER_T else "T")
        if st.stage in takes:
            w.lines(takes[st.stage])
        w.beyond(0, "")
    for number in (70, 73):
        content(w)
        w.state(standing(REFUSED, number=number))
        w.lines(a_record())
        w.end()
        w.frames(3, 17)
    # what is not of the format comes with it: 72 all the same
    w.state(standing(REFUSED, number=73, employers=4))
    w.end()
    w.state(standing(REFUSED, number=73, all_count=100001))
    w.end()


# a number for each of the words that PFML does not use
UNUSED = dict(second=18, others=19, nearest=20, noted=1, account=(22, 23), all_second=24, all_others=25, notes=26)
MOST_OF_UNUSED = dict(second=MOST, others=MOST, nearest=MOST, noted=1, account=(MOST, MOST), all_second=MOST, all_others=MOST, notes=MOST)


def unused(w):
    """Words that PFML does not use, and that are not zero: what each record that passes leaves of them, a refusal, the end, an opening; 72 compares none."""
    w.lent = (2, 3)
    for values in (UNUSED, MOST_OF_UNUSED):
        for stage, text in ((BEFORE_A, a_record()), (AFTER_A, e_record(5)), (AFTER_T, e_record(5, 0)), (E_OPEN, s_record(222222222, 1)), (E_OPEN, s_record(0, 0)),
                            (E_OPEN, t_record(1, 100)), (AFTER_T, f_record(2, 1, 300))):
            content(w)
            w.state(standing(stage, **values))
            w.lines(text)
        for stage in range(REFUSED + 1):
            content(w)
            w.state(standing(stage, **values))
            w.record("F" if stage == AFTER_T else "T")
            w.frames(3, 82)
            w.line("")
            w.end()
            w.state(standing(stage, **values))
            w.end()
        for number in (70, 73):
            w.state(standing(REFUSED, number=number, **values))
            w.line("")
            w.end()
        for held, named in ((HELD, PFML), ((2026, 5), PFML), (HELD, 9)):
            w.state(standing(E_OPEN, **values))
            w.open(held, named)
    # a walk by calls, with one of the words altered before an S record
    for at in range(18, exports.WORDS):
        w.state(standing(E_OPEN))
        w.word(at, 7)
        w.lines(s_record(0, 1))
    w.lines(t_record(2, 101), f_record(3, 1, 301))
    w.end()
    for flag in (0, 1, 2, 256, 2**32, MOST):
        w.state(standing(E_OPEN))
        w.word(21, flag)
        w.lines(s_record(0, 1))
        w.state(standing(AFTER_F))
        w.word(21, flag)
        w.end()
        w.end()
        w.state(standing(REFUSED))
        w.word(21, flag)
        w.end()


def lent_short(w):
    """Fewer words of state than 27, and more; fewer words of the answer, and more; for every call."""
    w.lent = (2, 2)
    good = joined(a_record(), e_record(5), s_record(111111111, 7, 5), t_record(1, 7, 5), f_record(1, 1, 7))
    for words, answer in ((0, 0), (1, 1), (5, 2), (17, 3), (26, 3), (26, 4), (27, 0), (27, 1), (27, 2), (27, 3), (28, 4), (30, 6)):
        w.lending(words, answer)
        content(w)
        w.state(standing(E_OPEN))
        w.record("T")
        w.lines(s_record(222222222, 1))
        w.end()
        w.frames(1, 17)
        content(w)
        w.open(HELD)
        w.open((2026, 5))
        w.whole(HELD, good)
        w.frames(2, 82)
    w.lending()


def frames(w):
    """Frames in each phase, with buffers of all lengths; of an altered list."""
    content(w)
    for stage in (BEFORE_A, AFTER_A, E_OPEN, AFTER_T, AFTER_F, ACCEPTED, REFUSED):
        w.state(standing(stage))
        for entries, length in ((0, 82), (1, 0), (1, 16), (1, 17), (1, 81), (1, 82), (2, 83)):
            w.frames(entries, length)
    w.state(standing(ACCEPTED, employers=2, all_count=100000, all_sum=100000 * MOST_WAGES, used=9999999999))
    for amended, final, date in ((0, 1, 12319999), (255, 256, 2**32 - 1), (257, 9999999999, 2**32), (9999999999, 511, 9999999999)):
        w.table(0, 0, 1, (9999999999, 2**32 + 8, 9999999999999999999, amended, final, date))
        w.frames(2, 129)
    w.state(standing(ACCEPTED, employers=0, all_count=0, all_sum=0))
    w.frames(0, 35)
    w.frames(0, 34)


def written(w):
    """T and F written in each phase, into slices of all lengths, and then read."""
    w.lent = (2, 3)
    for stage in (BEFORE_A, AFTER_A, E_OPEN, AFTER_T, AFTER_F, ACCEPTED, REFUSED):
        w.state(standing(stage))
        for letter in "TF":
            w.record(letter)
            w.record(letter, 289)
    for changes in (dict(sum=10**14, count=2), dict(sum=10**14 - 1, count=2), dict(count=0, sum=0), dict(count=0, sum=0, follow=0), dict(used=41),
                    dict(employers=65537)):
        w.state(standing(E_OPEN, **changes))
        w.record("T")
    for changes in (dict(all_count=11, all_sum=10**15), dict(all_count=11, all_sum=10**15 - 1), dict(employers=65536)):
        w.state(standing(AFTER_T, **changes))
        w.record("F")
    for stage, letter in ((E_OPEN, "T"), (AFTER_T, "F")):
        w.state(standing(stage))
        w.lines(exports.write_call(letter, w.program.st, 290)[1])


HAND = (accepted, in_one_slice, line_ends, afterwards, ends, bounds, no_bounds, room, nine_zeros, closing, kinds, totals, at_the_bounds, altered, other_lengths, beyond,
        no_walks, odd_words, lent_short, frames, written, seventy_again, formats, formats_kept, unused)


# Calls by chance.

def chance_quarter(pick):
    return (pick.choice((2025, 2026, 2026, 2026)), pick.choice((3, 6, 9, 12)))


def chance_record(letter, st, pick):
    c = walk.context(st, "", [], [])
    if letter == "A":
        c["filed"] = pick.choice((st.held, QUARTER, records.quarter_behind(st.held, 1), chance_quarter(pick)))
    if letter == "E":
        c["fein"] = pick.choice((0, 5, FEIN, 690000000, 700000000, 5, FEIN))
    text = records.good_record(letter, c, pick)
    if letter == "E" and pick.random() < 0.2:
        text = records.put(text, 190, "0")
    if letter == "E" and pick.random() < 0.3:
        text = records.put(text, 187, "1")
    if letter == "S":
        text = records.put(text, 2, "%09d" % pick.choice((0, 111111111, 222222222, 333333333, 665999999)))
    if letter == "S" and pick.random() < 0.2:
        text = records.put(text, 64, "%014d" % pick.choice((0, 1, MOST_WAGES)))
    return text[:290]


def chance_line(st, pick):
    usual = {BEFORE_A: "A", AFTER_A: "E", E_OPEN: "SST", AFTER_T: "EFF", AFTER_F: "AESTF"}.get(st.stage, "AESTF")
    if st.stage == E_OPEN and not st.follow:
        usual = "T"
    letter = pick.choice(usual if pick.random() < 0.95 else "AESTF")
    text = chance_record(letter, st, pick)
    if pick.random() < 0.08:
        text = records.damaged(text, letter, pick)[:290]
    return text + pick.choice(("\n", "\r", "\r\n"))


def chance_state(st, pick):
    n, m = pick.randrange(6), pick.randrange(5)
    count = pick.choice((st.count, 0, 3, 100000))
    choices = (
        dict(stage=pick.randrange(5)), dict(lines=231073 + pick.randrange(4)), dict(used=n), dict(employers=m), dict(count=count),
        dict(all_count=99999 + pick.randrange(3)), dict(count=n, all_count=m + 2), dict(count=n, sum=n * MOST_WAGES + pick.randrange(2), all_count=5),
        dict(all_count=m, all_sum=m * MOST_WAGES + pick.randrange(2)), dict(fein=999999999 + pick.randrange(2)), dict(held=chance_quarter(pick)),
        dict(filed=chance_quarter(pick)), dict(filed=(2026, pick.randrange(13))), dict(stage=ACCEPTED), dict(follow=1 - st.follow),
        dict(stage=REFUSED, number=pick.choice(NUMBERS), line=pick.randrange(9), column=pick.randrange(300)))
    for _ in range(pick.choice((1, 1, 2))):
        st = st._replace(**pick.choice(choices))
    if st.stage != REFUSED:
        return st._replace(number=0, line=0, column=0)
    return st if st.number in NUMBERS else st._replace(number=NUMBERS[0])


def chance_word(words, pick):
    at = pick.randrange(exports.WORDS)
    if at == exports.FORMAT:
        return at, pick.choice((PFML, *OTHERS, 2**32 + 5, 5 + pick.getrandbits(63)))
    return at, pick.choice((words[at] ^ 1, (words[at] + 2**32) % 2**64, pick.getrandbits(64), pick.randrange(8), MOST))


def can_be_told(st):
    """Whether the columns of S hold a state's numbers."""
    return st.held < (100000, 0) and st.filed < (100000, 0) and max(st.held[1], st.filed[1]) < 100 and max(
        st.fein, st.count, st.all_count, st.employers, st.used) < 10**10 and max(st.sum, st.all_sum) < 10**19


def chance_lent(pick):
    return (pick.choice((0, 1, 2, 3, 4, 40)), pick.choice((0, 1, 2, 3, 12)))


CHANCE_ENTRIES = (NO_ENTRY, (5, 1, 2, 0, 0, 0), (FEIN, 3, 4, 1, 1, 3312026), (0, 0, 0, 2, 256, 2**32))


def chance_walk(w, pick):
    w.lent = pick.choice(((3, 2), (3, 2), (3, 2), chance_lent(pick)))
    w.open(pick.choice((HELD, HELD, chance_quarter(pick))), pick.choice((PFML,) * 30 + OTHERS))
    for _ in range(pick.randrange(3, 14)):
        st = w.program.st
        way = pick.random()
        if way < 0.04:
            w.lent = chance_lent(pick)
        elif way < 0.07:
            w.word(*chance_word(w.program.words, pick))
        elif way < 0.11:
            w.state(chance_state(st if can_be_told(st) else standing(E_OPEN), pick))
        elif way < 0.12:
            w.frames(pick.randrange(4), pick.choice((17, 82, 129)))
        elif way < 0.15:
            w.table(pick.randrange(5), pick.choice((0, 111111111, 222222222, 4294967295)), pick.randrange(4), pick.choice(CHANCE_ENTRIES))
        elif way < 0.18 or (st.stage == AFTER_F and way < 0.8):
            w.end()
        elif st.stage >= ACCEPTED:
            w.line(pick.choice(("", "A\n")))
            if way < 0.6:
                return
        else:
            w.line(chance_line(st, pick))


def made(seed, hand):
    """A script of the cases above, or of none of them, and then of calls by chance."""
    w = Script(ROOM)
    for cases in hand:
        cases(w)
    pick = random.Random(seed)
    try:
        while True:
            chance_walk(w, pick)
    except OverflowError:
        given = "".join(w.given)
        return given, run_script(given)


# The reference against results found by hand from the paper, and against itself.

GOOD = (0, 0, 0, 0)
# an entry as no walk leaves one
NINES = (9,) * 6
# the flags and date of a return that is neither amended nor final
PLAIN = (0, 0, 0)


def tried(data, ids=2, entries=2):
    """What a file in one slice leaves of tables with content: the reply, the stage and both tables."""
    ids, entries = [9] * ids, [NINES] * entries
    st, reply = walk.whole_call(PFML, HELD, data, ids, entries)
    return tuple(reply), st.stage, ids, entries


def refused(number, line, column, ids=2, entries=2):
    return (number, line, column, 0), REFUSED, [0] * ids, [NO_ENTRY] * entries


def replies(*files):
    return [tried(joined(*texts))[0] for texts in files]


def tables_behind(*texts):
    ids, entries = [9] * 3, [NINES] * 2
    st, _ = walk.open_walk(PFML, HELD, ids, entries)
    for text in texts:
        st, _ = walk.line_call(st, text + "\n", ids, entries)
    return ids, entries


def refused_at_opening(named, held):
    ids, entries = [9], [NINES]
    st, first = walk.open_walk(named, held, ids, entries)
    st, second = walk.line_call(st, "", ids, entries)
    st, third = walk.end_call(st, ids, entries)
    return [tuple(reply) for reply in (first, second, third)], st, ids, entries


A, E, E0, T0, F0 = a_record(), e_record(), e_record(FEIN, 0), t_record(0, 0), f_record(0, 1, 0)
EXAMPLE = (A, E, *TWO, t_record(2, 123500), f_record(2, 1, 123500))


def files_by_hand():
    """What was tried, what the reference says, and what the paper says: its own cases, and files as a whole."""
    small = "".join(text.lower() + "\r\n" for text in EXAMPLE)
    shut = (a_record(CURRENT), e_record(FEIN, 1, CURRENT, IN_AUGUST), s_record(5, 9, FEIN, CURRENT), t_record(1, 9), f_record(1, 1, 9))
    two = (A, E, s_record(5, 1), t_record(1, 1), e_record(7), s_record(5, 2, 7), t_record(1, 2, 7), f_record(2, 2, 3))
    return (
        ("a. empty file", tried(""), refused(5, 1, 1)),
        ("b. 289 characters", tried(A[:289] + "\n"), refused(1, 1, 290)),
        ("c. 291 characters", tried(A + " \n"), refused(1, 1, 291)),
        ("d. LF CR after a record", tried(A + "\n\r"), refused(1, 2, 1)),
        ("the last line has no end", tried(A), refused(2, 1, 291)),
        ("the example", tried(joined(*EXAMPLE)), (GOOD, ACCEPTED, [0, 0], [(FEIN, 2, 123500, *PLAIN), NO_ENTRY])),
        ("the example in small letters", tried(small), (GOOD, ACCEPTED, [0, 0], [(FEIN, 2, 123500, *PLAIN), NO_ENTRY])),
        ("reason 52 at line 3, column 2", tried(joined(A, E, s_record(666000001, 1))), refused(52, 3, 2)),
        ("an ITIN takes room and repeats as another number", replies(*[(A, E, s_record(900500000, 1), s_record(n, 1)) for n in (900500000, 999999999, 999930000)]),
         [(53, 4, 2, 0), (7, 5, 1, 0), (52, 4, 2, 0)]),
        ("g. FEIN 690000000", tried(joined(A, e_record(690000000))), refused(44, 2, 6)),
        ("a FEIN of nine zeros in A", tried(joined(records.put(A, 6, "000000000"), E)), refused(64, 1, 6)),
        ("a FEIN of nine zeros in E, and no list", tried(joined(A, e_record(0)), 2, 0), refused(64, 2, 6, 2, 0)),
        ("FEIN 000000001", tried(joined(A, e_record(1, 0), t_record(0, 0, 1), F0)), (GOOD, ACCEPTED, [0, 0], [(1, 0, 0, *PLAIN), NO_ENTRY])),
        ("nine zeros in S and in T", replies((A, E, s_record(5, 1, 0)), (A, E, *TWO, t_record(2, 123500, 0))), [(46, 3, 147, 0), (46, 5, 13, 0)]),
        ("a closing employer", tried(joined(*shut)), (GOOD, ACCEPTED, [0, 0], [(FEIN, 1, 9, 0, 1, 8312026), NO_ENTRY])),
        ("an employer that does not close", tried(joined(shut[0], e_record(quarter=CURRENT))), refused(65, 2, 282)),
        ("a closed quarter, final or not", replies((a_record(HELD), e_record(quarter=HELD)), (a_record(HELD), e_record(quarter=HELD, closure="106302026"))),
         [(7, 3, 1, 0)] * 2),
        ("the quarter and the year after the current one", replies((a_record((2026, 12)),), (a_record((2027, 3)),)), [(41, 1, 19, 0), (39, 1, 2, 0)]),
        ("one person, two employers", tried(joined(*two), 1), (GOOD, ACCEPTED, [0], [(FEIN, 1, 1, *PLAIN), (7, 1, 2, *PLAIN)])),
        ("i. zero twice, and no room", tried(joined(A, E, s_record(0, 1), s_record(0, 1), t_record(2, 2), f_record(2, 1, 2)), 0),
         (GOOD, ACCEPTED, [], [(FEIN, 2, 2, *PLAIN), NO_ENTRY])),
        ("zero returns only", tried(joined(A, E0, T0, F0)), (GOOD, ACCEPTED, [0, 0], [(FEIN, 0, 0, *PLAIN), NO_ENTRY])),
    )


def example_of(quarter, **kind):
    """The lines of the paper's example in another quarter, its return of some kind."""
    return (a_record(quarter), e_record(quarter=quarter, **kind), s_record(111223333, 123456, quarter=quarter), s_record(0, 44, quarter=quarter), t_record(2, 123500))


def frames_of_file(held, *texts):
    """The frames of a file in one slice."""
    ids, entries = [9] * 3, [NINES] * 2
    st, _ = walk.whole_call(PFML, held, joined(*texts), ids, entries)
    return exports.frames_of(st, entries).splitlines()


def kinds_by_hand():
    """The same for the kinds of return: the entries and frames of document 02 (xiii)."""
    one, final_june, december = f_record(2, 1, 123500), "106302026", (2026, 12)
    second = (e_record(700000000, 1, HELD, final_june), *(s_record(identity, wages, 700000000, HELD) for identity, wages in (
        (111223333, 845000), (223445555, 1310075), (334556666, 99990))), t_record(3, 2255065, 700000000))
    d = (*example_of(HELD), *second, f_record(5, 2, 2378565))
    first, b = (FEIN, 2, 123500, *PLAIN), "0200BC614E00000002000000000001E26C"
    zero = (a_record(HELD), e_record(FEIN, 0, HELD, final_june), T0, F0)
    return (
        ("B", frames_of_file(HELD, *example_of(HELD), one)[0], b + "000000000000"),
        ("B amended", frames_of_file(HELD, *example_of(HELD, amended=1), one)[0], b + "010000000000"),
        ("B final, held 202603", frames_of_file(QUARTER, *example_of(HELD, closure="105152026"), one)[0], b + "0001004E9D1A"),
        ("D", frames_of_file(HELD, *d), [b + "000000000000", "0229B927000000000300000000002268D900010060294A", "0000000005000000020000000000244B45"]),
        ("amended and final", frames_of_file(december, *example_of(december, closure="112312026", amended=1), one)[0], b + "010100BBDDDA"),
        ("a zero return, final", frames_of_file(HELD, *zero)[0], "0200BC614E00000000000000000000000000010060294A"),
        ("right after E of D's second employer", tables_behind(*d[:6]), ([0, 0, 0], [first, (700000000, 0, 0, 0, 1, 6302026)])),
        ("D", tables_behind(*d), ([0, 0, 0], [first, (700000000, 3, 2255065, 0, 1, 6302026)])),
        ("D, refused at its second T", tables_behind(*d[:9], t_record(3, 1, 700000000)), ([0, 0, 0], [NO_ENTRY] * 2)),
    )


def rules_by_hand():
    """The same for the table limits, totals and place, and the content of the tables."""
    five, t5 = s_record(5, 1), (A, e_record(5, 0), t_record(0, 0, 5))
    f_wrong = [(*EXAMPLE[:5], f) for f in (f_record(1, 1, 123500), f_record(2, 2, 123500), f_record(2, 1, 1))]
    return (
        ("an id twice", tried(joined(A, E, five, five)), refused(53, 4, 2)),
        ("an id twice, and the table full", tried(joined(A, E, five, five), 1), refused(53, 4, 2, 1)),
        ("id table full", tried(joined(A, E, five, s_record(6, 1)), 1), refused(62, 4, 2, 1)),
        ("no list", tried(joined(A, E), 2, 0), refused(63, 2, 6, 2, 0)),
        ("list full", tried(joined(*t5, E), 2, 1), refused(63, 4, 6, 2, 1)),
        ("a FEIN twice, and the list full", tried(joined(*t5, e_record(5)), 2, 1), refused(45, 4, 6, 2, 1)),
        ("T not the S records' sum, F that of T", tried(joined(A, E, *TWO, t_record(2, 5), f_record(2, 1, 5))), refused(57, 5, 27)),
        ("T's count; none though E says 1; S under an E saying 0", replies((A, E, *TWO, t_record(1, 123500)), (A, E, T0), (A, E0, five)),
         [(55, 5, 2, 0), (56, 3, 2, 0), (16, 3, 1, 0)]),
        ("F's three", replies(*f_wrong), [(58, 6, 2, 0), (59, 6, 12, 0), (60, 6, 41, 0)]),
        ("after F", replies(*[(A, E0, T0, F0, text) for text in (A, E, five, T0, F0)]), [(n, 5, 1, 0) for n in (11, 20, 20, 20, 19)]),
        ("the file ends early", replies((A,), (A, E), EXAMPLE[:4], EXAMPLE[:5]), [(6, 2, 1, 0), (7, 3, 1, 0), (7, 5, 1, 0), (8, 6, 1, 0)]),
        ("tables under an E", tables_behind(A, E, s_record(8, 1), s_record(0, 1), s_record(7, 1)), ([8, 7, 0], [(FEIN, 0, 0, *PLAIN), NO_ENTRY])),
        ("tables after a T", tables_behind(A, E, s_record(8, 1), t_record(1, 1)), ([0, 0, 0], [(FEIN, 1, 1, *PLAIN), NO_ENTRY])),
        ("a bad quarter, a line and the end", refused_at_opening(PFML, (2026, 7)), ([(70, 0, 0, 0)] * 3, State(stage=REFUSED, number=70), [9], [NINES])),
        ("no format, a line and the end", refused_at_opening(9, (2025, 9)), ([(73, 0, 0, 0)] * 3, State(stage=REFUSED, number=73, format=NO_FORMAT), [9], [NINES])),
        ("no format, and a bad quarter", refused_at_opening(9, (2025, 5)), ([(70, 0, 0, 0)] * 3, State(stage=REFUSED, number=70, format=NO_FORMAT), [9], [NINES])),
    )


def called(words, *commands):
    """What the program prints of calls over these words of state."""
    program = Program()
    program.words = list(words)
    return [program.run(command) for command in commands]


def opening(named, year, month):
    return "O%020d%05d%02d0101" % (named, year, month)


def exports_by_hand():
    """The same for what only the exports have: words, formats, frames, and what is lent short."""
    opened = exports.words_of(State(held=HELD))
    zeros, told_zeros = [0] * 10, "0 " * 10
    refused_52 = [6, 52, 3, 2] + [0] * 23
    accepted_state = [5, 0, 0, 0, 6, *HELD, *QUARTER, 0, 0, 0, 0, 2, 1, 123500, 0] + zeros
    told_52 = "52 3 2 0 |6 52 3 2 " + "0 " * 23 + "||\n"
    odd_70 = [6, 70, 2**32 + 3, 65537] + [0] * 6 + [2] + [0] * 6 + zeros
    told_70 = "70 4294967295 65535 0 |6 70 4294967299 65537 0 0 0 0 0 0 2 0 0 0 0 0 0 " + told_zeros + "||\n"
    none_73 = [6, 73, 0, 0] + [0] * 13 + [255] + [0] * 9
    told_73 = "73 0 0 0 |6 73 " + "0 " * 15 + "255 " + "0 " * 9 + "||\n"
    none_70 = "70 0 0 0 |6 70 " + "0 " * 15 + "255 " + "0 " * 9 + "||\n"
    entry = "T400000000000" + "00" + "0012345678" + "0000000002" + "0000000000000123500" + "0000000001" + "0000000001" + "0006302026"
    large = "T400000000000" + "00" + "%010d" % (2**32 + 12345678) + "%010d" % (2**32 + 2) + "0000000000000123500" + "%010d%010d%010d" % (
        257, 2**32 + 1, 2**32 + 6302026)
    frames = "0200BC614E00000002000000000001E26C01010060294A/000000000200000001000000000001E26C/"
    return (
        ("words of a state that was opened", opened, [0, 0, 0, 0, 0, 2026, 6] + [0] * 20),
        ("the words tell it again", exports.state_in(opened), State(held=HELD)),
        ("a standing of 7, words lent short", called([7] + opened[1:], "E0101", "K260", "F01082", opening(0, 2026, 6)),
         ["72 0 0 0 |7 0 0 0 0 2026 6 0 0 0 0 0 0 0 0 0 0 " + told_zeros + "||\n", "", "72 999 999 999 |" + "." * 82 + "\n",
          "72 999 999 999 |7 0 0 0 0 2026 6 0 0 0 0 0 0 0 0 0 0 " + told_zeros + "||\n"]),
        ("a number that is not listed", called([6, 9, 3, 2] + [0] * 23, "E0101"), ["72 0 0 0 |6 9 3 2 " + "0 " * 23 + "||\n"]),
        ("a line that is too large", called([6, 52, 2**32 + 3, 2] + [0] * 23, "E0101")[0][:21], "52 4294967295 2 0 |6 "),
        ("70 again touches no word, an opening writes all", called(odd_70, "L0101|A", "E0101", opening(0, 2026, 5)),
         [told_70, told_70, "70 0 0 0 |6 70 " + "0 " * 25 + "||\n"]),
        ("73, a line, the end, its frame, and what is written", called(opened, opening(9, 2025, 9), "L0101|A", "E0101", "F00017", "RT003"),
         [told_73] * 3 + ["0 0 0 17 |FF49000000000000/\n", "83 0 0 |...\n"]),
        ("72, 70 and 73 in their order", called(opened, "K264", opening(9, 2025, 5), "K274", opening(9, 2025, 5), opening(2**64 - 1, 2025, 9), opening(5, 2025, 9)),
         ["", "72 0 0 0 |0 0 0 0 0 2026 6 " + "0 " * 20 + "||\n", "", none_70, told_73, told_73]),
        ("a format that is none", called(opened[:17] + [9] + opened[18:], "E0101"), ["72 0 0 0 |0 0 0 0 0 2026 6 " + "0 " * 10 + "9 " + "0 " * 9 + "||\n"]),
        ("refused with 73, in a state of PFML", called(none_73[:17] + [0] + none_73[18:], "E0101"), ["72 0 0 0 |6 73 " + "0 " * 25 + "||\n"]),
        ("words that PFML does not use, at the end", called([4, *accepted_state[1:18], 1, 2, 3, 4, 5, 6, 7, 8, 9], entry, "E0101"),
         ["", "0 0 0 0 |5 0 0 0 6 2026 6 2026 3 0 0 0 0 2 1 123500 0 0 1 2 3 1 5 6 7 8 9 ||12345678:2:123500:1:1:6302026\n"]),
        ("and at a refusal", called([3, *accepted_state[1:18], 1, 2, 3, 4, 5, 6, 7, 8, 9], "E0101"), ["8 7 1 0 |6 8 7 1 " + "0 " * 23 + "||\n"]),
        ("the paper's second frame", called(refused_52, "E0000", "F00017", "F00016"),
         [told_52, "0 0 0 17 |FF34000000030002/\n", "88 0 0 0 |" + "." * 16 + "\n"]),
        ("the paper's first frames", called(accepted_state, entry, "F01084", "F01081", "F00082"),
         ["", "0 0 0 82 |" + frames + "..\n", "88 0 0 0 |" + "." * 81 + "\n", "72 0 0 0 |" + "." * 82 + "\n"]),
        ("the low bytes of an entry that is too large", called(accepted_state, large, "F01082"), ["", "0 0 0 82 |" + frames + "\n"]),
        ("frames before the end", called(opened, "F01003"), ["87 0 0 0 |...\n"]),
    )


def file_of(data, pick):
    """The calls of the paper over a file: each lent all that remains, or at least 292 bytes of it."""
    ids, entries = [9] * 3, [NINES] * 2
    st, reply = walk.open_walk(PFML, HELD, ids, entries)
    while data and not reply.number:
        st, reply = walk.line_call(st, data[:pick.choice((292, 293, 600, len(data) + 292))], ids, entries)
        data = data[reply.taken:]
    return walk.end_call(st, ids, entries), ids, entries


def chance_file(pick):
    """A file by chance: often one that is accepted."""
    ids, entries, lines = [0] * 3, [NO_ENTRY] * 2, []
    st, _ = walk.open_walk(PFML, HELD, ids, entries)
    while st.stage < ACCEPTED and len(lines) < 20:
        if st.stage == AFTER_F and pick.random() < 0.9:
            break
        lines.append(chance_line(st, pick))
        st, _ = walk.line_call(st, lines[-1], ids, entries)
    return "".join(lines)


def employers_of(data):
    """The E records of an accepted file with what stands under each, by its letters and columns alone."""
    found = []
    for line in data.replace("\r\n", "\n").replace("\r", "\n").split("\n"):
        if line[:1] in ("E", "e"):
            found.append((int(line[5:14]), 0, 0, int(line[186]), int(line[281]), int(line[282:290])))
        if line[:1] in ("S", "s"):
            fein, count, cents, *kind = found[-1]
            found[-1] = (fein, count + 1, cents + int(line[63:77]), *kind)
    return found


def against_itself():
    """The whole file against its calls, and the list of an accepted file against its E and S records; how many were tried and accepted."""
    pick = random.Random(72)
    wrong, taken = [], 0
    for k in range(2000):
        data = chance_file(pick)
        ids, entries = [9] * 3, [NINES] * 2
        answer = walk.whole_call(PFML, HELD, data, ids, entries)
        if (answer, ids, entries) != file_of(data, pick):
            wrong.append("file %d by calls" % k)
        if answer[0].stage == ACCEPTED:
            taken += 1
            found = employers_of(data)
            if ids != [0] * 3 or entries != found + [NO_ENTRY] * (2 - len(found)):
                wrong.append("employers of file %d" % k)
        elif ids != [0] * 3 or entries != [NO_ENTRY] * 2:
            wrong.append("tables of file %d" % k)
    return wrong, taken


def check(label, good):
    print(("ok     " if good else "FAILED ") + label)
    return bool(good)


def compare(paths, texts):
    results = []
    for path, text in zip(paths, texts):
        with open(path, encoding="latin-1", newline="") as f:
            results.append(check(os.path.relpath(path, records.ROOT) + " is what the reference says of %d calls" % texts[1].count("\n"), f.read() == text))
    for label, said, right in files_by_hand() + kinds_by_hand() + rules_by_hand() + exports_by_hand():
        results.append(check("by hand: " + label, said == right))
    wrong, taken = against_itself()
    results.append(check("2000 files in one slice and by calls, %d of them accepted%s" % (taken, "".join("; " + w for w in wrong[:3])), not wrong and taken))
    print("%d passed, %d failed" % (sum(results), len(results) - sum(results)))
    return 0 if all(results) else 1


def main():
    if "--seed" in sys.argv:
        seed, path = sys.argv[sys.argv.index("--seed") + 1:][:2]
        for end, text in zip(("", ".told"), made(int(seed), ())):
            records.write(path + end, text)
        return 0
    texts = made(290, HAND)
    paths = [os.path.join(records.ROOT, "tests", "c", n) for n in ("calls.script", "calls.told")]
    if "--write" in sys.argv:
        for path, text in zip(paths, texts):
            records.write(path, text)
        print("%d answers written" % texts[1].count("\n"))
        return 0
    return compare(paths, texts)


if __name__ == "__main__":
    sys.exit(main())
