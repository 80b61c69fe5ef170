"""The exports for C and Rust over the walk of `walk_reference`: the state as words, the writing of T and F, the frames.

Written from document 01, document 02 (xiii), include/wage.h and docs/DECISIONS.md; it shares nothing with the product.
"""
import walk_reference as walk
from walk_reference import ACCEPTED, AFTER_T, E_OPEN, NO_FORMAT, PFML, REFUSED, Reply, State

WORDS = 27
EMPLOYERS = 14
FORMAT = 17
# the numbers of refusals in the papers, 73, 84 and 85 those of document 02
LISTED = {*range(1, 9), *range(10, 21), *range(30, 66), *range(70, 74), *range(80, 86)}
MOST_LINE, MOST_COLUMN = 2**32 - 1, 2**16 - 1
# of an entry's six numbers in its frame
ENTRY_BYTES = (4, 4, 8, 1, 1, 4)
UNFIT = State(stage=REFUSED, number=72)


def words_of(st):
    return [st.stage, st.number, st.line, st.column, st.lines, *st.held, *st.filed, st.fein, st.follow, st.count, st.sum, st.all_count, st.employers,
            st.all_sum, st.used, st.format, st.second, st.others, st.nearest, st.noted, *st.account, st.all_second, st.all_others, st.notes]


def state_in(words):
    """The state that words tell; one that every call answers with 72 where they are too few, stand nowhere or have a number that is not listed."""
    if len(words) < WORDS or words[0] > REFUSED or (words[0] == REFUSED and words[1] not in LISTED):
        return UNFIT
    number, line, column = (words[1], min(words[2], MOST_LINE), min(words[3], MOST_COLUMN)) if words[0] == REFUSED else (0, 0, 0)
    return State(
        stage=words[0], number=number, line=line, column=column, lines=min(words[4], MOST_LINE), held=(words[5], words[6]), filed=(words[7], words[8]),
        fein=words[9], follow=1 if words[10] else 0, count=words[11], sum=words[12], all_count=words[13], employers=words[14], all_sum=words[15],
        used=words[16], format=PFML if words[FORMAT] == PFML else NO_FORMAT, second=words[18], others=words[19], nearest=words[20],
        noted=1 if words[21] else 0, account=(words[22], words[23]), all_second=words[24], all_others=words[25], notes=words[26])


class Everything:
    """A table that is not lent: nothing exceeds its length."""

    def __len__(self):
        return 2**62


def unfit_without_ids(st, entries):
    """72 of a call that is lent no id table: none is compared."""
    return walk.unfit(st._replace(used=0), [], entries)


def write_call(letter, st, length):
    """The number, and the record; None where it is refused."""
    if unfit_without_ids(st, Everything()):
        return 72, None
    if length != 290:
        return 83, None
    if st.stage != (E_OPEN if letter == "T" else AFTER_T):
        return 80, None
    if letter == "T" and st.follow and not st.count:
        return 81, None
    if (st.sum if letter == "T" else st.all_sum) >= (10**14 if letter == "T" else 10**15):
        return 82, None
    if letter == "T":
        return 0, ("T%07dPFML%09d     %014d" % (st.count, st.fein, st.sum)).ljust(290)
    return 0, ("F%010d%010dPFML               %015d" % (st.all_count, st.employers, st.all_sum)).ljust(290)


def frame(kind, *numbers):
    """Pairs of a number and its bytes. Of a number that is too large, the low bytes are told."""
    return "%02X" % kind + "".join("%0*X" % (2 * size, number % 256**size) for number, size in numbers) + "\n"


def frames_of(st, entries):
    if st.stage == REFUSED:
        return frame(255, (st.number, 1), (st.line, 4), (st.column, 2))
    told = "".join(frame(2, *zip(entry, ENTRY_BYTES)) for entry in entries[:st.employers])
    return told + frame(0, (st.all_count, 4), (st.employers, 4), (st.all_sum, 8))


def frames_call(st, entries, buffer):
    """The reply and the buffer."""
    if unfit_without_ids(st, entries):
        return Reply(72), buffer
    if st.stage < ACCEPTED:
        return Reply(87), buffer
    told = frames_of(st, entries)
    if len(told) > len(buffer):
        return Reply(88), buffer
    return Reply(taken=len(told)), told + buffer[len(told):]
