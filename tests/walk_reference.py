"""The walk over a wage file, written from document 01: opening, one line, the end, and a whole file; and from include/wage.h, that a format is named at
opening and kept.

It shares nothing with the product. Every state gets an answer, one that a caller made up too, and so do any bytes and tables of any length.

A state is a `State`. The id table is a list of numbers, the employer list a list of entries, each six numbers by document 02 (xiii): FEIN, S count, cents,
amended flag, final flag, cease date. Both are written in place, as a call writes what it is lent. An answer is the next state and a `Reply`: the paper's
number (0 where nothing is refused), line and column, and the bytes taken.
"""
from typing import NamedTuple

import record_cases as records
import reference as ref

BEFORE_A, AFTER_A, E_OPEN, AFTER_T, AFTER_F, ACCEPTED, REFUSED = range(7)
MOST_S = 100000
MOST_ENTRIES = 65536
MOST_LINES = 231074
MOST_WAGES = 99999999999999
MOST_FEIN = 999999999
# PFML's number, and what a state holds for every number that names no format; the numbers that name other formats, or will: of these nothing is known here
PFML, NO_FORMAT = 0, 255
OTHER_FORMATS = range(1, 5)
# the numbers that an opening refuses with: they are answered again and touch nothing
AT_OPENING = (70, 73)
# the numbers that a refusal leaves in the state: those of lines and of the end of the input, and those of an opening
LEFT = {*range(1, 9), *range(10, 21), *range(30, 66), 70}
NO_ENTRY = (0,) * 6


class State(NamedTuple):
    stage: int = BEFORE_A
    lines: int = 0
    # the last closed quarter, and A's
    held: tuple = (0, 0)
    filed: tuple = (0, 0)
    # the open E: FEIN, whether S records follow, and those under it
    fein: int = 0
    follow: int = 0
    count: int = 0
    sum: int = 0
    # the file so far
    all_count: int = 0
    employers: int = 0
    all_sum: int = 0
    # how many ids of the table are the open E's
    used: int = 0
    # a refused walk's refusal
    number: int = 0
    line: int = 0
    column: int = 0
    format: int = PFML
    # PFML uses none of these: the open E's second sum, other records, nearest number, whether a note was seen, and its account; the file's second sum,
    # other records and notes
    second: int = 0
    others: int = 0
    nearest: int = 0
    noted: int = 0
    account: tuple = (0, 0)
    all_second: int = 0
    all_others: int = 0
    notes: int = 0


class Reply(NamedTuple):
    number: int = 0
    line: int = 0
    column: int = 0
    taken: int = 0


def may_be_held(quarter):
    year, month = quarter
    return 2025 <= year <= 9999 and month in (3, 6, 9, 12)


def may_be_filed(quarter, held):
    """What A's edits let pass: 38 and 40, 39 and 41, and so the current quarter too."""
    year, month = quarter
    return year >= 2025 and month in (3, 6, 9, 12) and ref.timing(tuple(held), tuple(quarter)) != ref.LATER


def open_e_unfit(st, ids):
    return (st.used > len(ids) or st.all_count < st.count or st.sum > st.count * MOST_WAGES or st.employers == 0
            or st.fein > MOST_FEIN)


def unfit(st, ids, entries):
    """72, clause by clause."""
    if st.employers > min(len(entries), MOST_ENTRIES):
        return True
    if st.all_count > MOST_S or st.all_sum > st.all_count * MOST_WAGES or st.lines > MOST_LINES:
        return True
    if st.stage == E_OPEN and open_e_unfit(st, ids):
        return True
    if st.stage == REFUSED:
        return st.number not in (LEFT if st.format == PFML else AT_OPENING)
    if st.format != PFML:
        return True
    if not may_be_held(st.held):
        return True
    return st.stage != BEFORE_A and not may_be_filed(st.filed, st.held)


def clear(ids, entries):
    ids[:] = [0] * len(ids)
    entries[:] = [NO_ENTRY] * len(entries)


def refuse(st, number, line, column, ids, entries):
    """A refusal by an edit or by the end of the input: both tables zeroed, and of the state nothing kept but the format, number and place."""
    clear(ids, entries)
    return State(stage=REFUSED, number=number, line=line, column=column, format=st.format), Reply(number, line, column)


def not_reading(st, ids, entries):
    """The answer to a line or an end call that no edit decides; None where the walk goes on."""
    if unfit(st, ids, entries):
        return st, Reply(72)
    if st.stage == ACCEPTED:
        return st, Reply(71)
    if st.stage == REFUSED:
        if st.number not in AT_OPENING:
            clear(ids, entries)
        return st, Reply(st.number, st.line, st.column)
    return None


def number_on(text, first, last):
    return ref.number_or_zero(text, first, last)


def context(st, text, ids, entries):
    """What the edits of a line depend on; an earlier E's FEIN stands in the list, an id under the open E in the table."""
    feins = {entry[0] for entry in entries[:st.employers]}
    return dict(
        phase=st.stage, held=tuple(st.held), filed=tuple(st.filed), fein=st.fein, follow=st.follow, count=st.count, sum=st.sum, all_count=st.all_count,
        employers=st.employers, all_sum=st.all_sum, ids_full=st.used >= len(ids), list_full=st.employers >= min(len(entries), MOST_ENTRIES),
        seen_fein=number_on(text, 6, 14) in feins, seen_id=number_on(text, 2, 10) in ids[:st.used])


# what is zero of an open E's numbers where it has no S records yet
NEW_E = dict(count=0, sum=0, used=0, second=0, others=0, nearest=0, noted=0, account=(0, 0))
NO_E = dict(NEW_E, fein=0, follow=0)


def after_line(st, text, ids, entries):
    """The state after a line that passed; what it writes is written."""
    letter = text[0]
    st = st._replace(lines=st.lines + 1)
    if letter == "A":
        return st._replace(stage=AFTER_A, filed=(number_on(text, 2, 5), number_on(text, 19, 20)), **NO_E)
    if letter == "E":
        fein = number_on(text, 6, 14)
        entries[st.employers] = (fein, 0, 0, number_on(text, 187, 187), number_on(text, 282, 282), number_on(text, 283, 290))
        return st._replace(stage=E_OPEN, employers=st.employers + 1, fein=fein, follow=number_on(text, 190, 190), **NEW_E)
    if letter == "S":
        identity, wages = number_on(text, 2, 10), number_on(text, 64, 77)
        if identity:
            ids[st.used] = identity
        return st._replace(count=st.count + 1, sum=st.sum + wages, all_count=st.all_count + 1, all_sum=st.all_sum + wages,
                           used=st.used + (1 if identity else 0))
    if letter == "T":
        ids[:st.used] = [0] * st.used
        fein, _, _, *kind = entries[st.employers - 1]
        entries[st.employers - 1] = (fein, st.count, st.sum, *kind)
        return st._replace(stage=AFTER_T, **NO_E)
    return st._replace(stage=AFTER_F, **NO_E)


def open_walk(named, held, ids, entries):
    """`named` is the format's number."""
    known = PFML if named == PFML else NO_FORMAT
    number = 70 if not may_be_held(held) else 73 if known == NO_FORMAT else 0
    if number:
        return State(stage=REFUSED, number=number, format=known), Reply(number)
    clear(ids, entries)
    return State(held=tuple(held), format=known), Reply()


def line_call(st, data, ids, entries):
    answer = not_reading(st, ids, entries)
    if answer:
        return answer
    text = ref.upper(data[:290])
    number, place = records.judge(context(st, text, ids, entries), data)
    if number:
        return refuse(st, number, st.lines + 1, place, ids, entries)
    return after_line(st, text, ids, entries), Reply(taken=place)


def end_call(st, ids, entries):
    answer = not_reading(st, ids, entries)
    if answer:
        return answer
    if st.stage == AFTER_F:
        return st._replace(stage=ACCEPTED), Reply()
    number = {BEFORE_A: 5, AFTER_A: 6, E_OPEN: 7, AFTER_T: 8}[st.stage]
    return refuse(st, number, st.lines + 1, 1, ids, entries)


def whole_call(named, held, data, ids, entries):
    """Opening, line calls while any byte remains and none is refused, then one end call, whose answer this is."""
    st, reply = open_walk(named, held, ids, entries)
    while data and not reply.number:
        st, reply = line_call(st, data, ids, entries)
        data = data[reply.taken:]
    return end_call(st, ids, entries)
