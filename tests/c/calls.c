// Runs a script of calls of the library's exports, and prints each answer with all that the call leaves.
//
// The state's words, an id table of 40 numbers and an employer list of 12 entries are kept from command to command. A command ends with #. Its first
// character names it, digits in fixed columns follow, and then, where a call is lent bytes, a stroke and these:
//
//     O  opening: the format's number 2-21, year 22-26, month 27-28, ids lent 29-30, entries lent 31-32
//     L  a line: ids lent 2-3, entries lent 4-5; bytes
//     E  the end: ids lent 2-3, entries lent 4-5
//     W  a whole file: as O; bytes
//     R  a record written: T or F in 2, the length of the slice, at most 300, in 3-5. Full stops stand in the slice before
//     H  a record of an amended withholding file written: as R; of a T the payments 6-25 and the total of all employees 26-45
//     F  the frames: entries lent 2-3, the length of the buffer, at most 700, in 4-6. Full stops stand in it before
//     B  a record built: A, E or S in 2, the length of the slice, at most 300, in 3-5; then the values, at most 40, a comma before each; the texts, as
//        bytes. Full stops stand in the slice before
//     G  a field read: the record's letter 2, the field's number 3-22; the line, as bytes
//     X  a line, lent a list of 65,540 entries, each 7 to 12: the state has 65,535 employers, or one or two more, by the digit in 2; bytes. What it
//        leaves is not kept
//     S  another state of PFML: the words 0 to 3 as `set_standing` reads them, those up to 16 from 20 on, as wide as `set_state` says, zeros after them
//     N  another number in one word of the state: its place 2-3, the number 4-23
//     T  another id and another entry: the id's place 2-3, the id 4-13; the entry's place 14-15, its FEIN 16-25, count 26-35, cents 36-54, amended flag
//        55-64, final flag 65-74 and date 75-84
//     K  what the calls to come are lent: so many words of state 2-3, at most 30, and of the answer 4, at most 6. At first it is 27 and 4
//
// The first four calls and X print a line: number, line, column and bytes; the state; the ids; the entries. Zeros at the end of a table are left
// out. X prints no ids, and the entries from 65,534 on. R, H and B print number, line and column, and the slice; F all four, and the buffer, LF as a
// slash; G all four, and the length of the text and the first column. The number is the one returned; a word of the answer that is not lent is told as 999.
//
// What a call is lent stands right before memory that nobody may touch, and after some that is looked at afterwards. Where a call leaves something that
// no line would show, the program ends with a message. The calls are made on a thread that has the stack that wage.h names, and no more.
#include <stddef.h>
#include <stdint.h>
#include <stdio.h>
#include <stdlib.h>
#include <string.h>
#include <sys/mman.h>
#include <wage.h>

#include "on_stack.h"

enum { IDS = 40, ENTRIES = 12, LONG_LIST = 65540, LONG_LIST_TOLD_FROM = 65534, MOST_WORDS = 30, MOST_ANSWER = 6, MOST_SLICE = 300, MOST_BUFFER = 700, MOST_VALUES = 40 };

_Static_assert(sizeof(wage_employer) == 48 && offsetof(wage_employer, count) == 8 && offsetof(wage_employer, cents) == 16, "as wage.h says");
_Static_assert(offsetof(wage_employer, amended) == 24 && offsetof(wage_employer, final_return) == 32 && offsetof(wage_employer, cease_date) == 40, "as wage.h says");

static const uint64_t untold = 999;
static const uint64_t behind_state = 5555555;

// A command's characters.
struct text {
    const uint8_t *at;
    size_t length;
};

// Tables of so many entries.
struct tables {
    uint32_t *ids;
    size_t ids_length;
    wage_employer *list;
    size_t list_length;
};

static uint64_t state[MOST_WORDS];
static uint64_t answer[MOST_ANSWER];
static uint32_t ids[IDS];
static wage_employer list[ENTRIES];
static size_t words_lent = WAGE_STATE_WORDS, answer_lent = WAGE_ANSWER_WORDS;

static void stop(const char *why)
{
    fflush(stdout);
    fprintf(stderr, "calls: %s\n", why);
    exit(1);
}

static size_t lesser(size_t a, size_t b)
{
    return a < b ? a : b;
}

// ---- what is lent

enum area { STATE, BYTES, ANSWER, ID_TABLE, LIST, OUT, AREAS };
enum { AREA = 1 << 22, PAGE = 1 << 16, BEFORE = 64, UNTOUCHED = 0xA5 };

static uint8_t *area_end[AREAS];

static void make_areas(void)
{
    for (int i = 0; i < AREAS; i++) {
        uint8_t *area = mmap(NULL, AREA + PAGE, PROT_READ | PROT_WRITE, MAP_PRIVATE | MAP_ANONYMOUS, -1, 0);
        if (area == MAP_FAILED || mprotect(area + AREA, PAGE, PROT_NONE) != 0) {
            stop("no memory");
        }
        area_end[i] = area + AREA;
    }
}

// The content of `from` at the end of an area. What has no bytes is lent by turns as a pointer to what nobody may touch and as the null pointer.
static void *lend(enum area which, const void *from, size_t size)
{
    static int turn;
    if (size > AREA - BEFORE) {
        stop("too much is to be lent");
    }
    uint8_t *at = area_end[which] - size;
    memset(at - BEFORE, UNTOUCHED, BEFORE);
    if (size == 0) {
        turn = !turn;
        return turn ? at : NULL;
    }
    return memcpy(at, from, size);
}

static void look_before(enum area which, size_t size)
{
    for (uint8_t *at = area_end[which] - size - BEFORE; at < area_end[which] - size; at++) {
        if (*at != UNTOUCHED) {
            stop("a call wrote in front of what it was lent");
        }
    }
}

static void take_back(enum area which, void *to, size_t size)
{
    look_before(which, size);
    memcpy(to, area_end[which] - size, size);
}

// What was lent to be read only.
static void take_back_same(enum area which, const void *from, size_t size)
{
    look_before(which, size);
    if (memcmp(from, area_end[which] - size, size) != 0) {
        stop("a call wrote into what it may only read");
    }
}

// ---- reading a command

// The number in some columns, counted from 1; 0 where they are not all digits.
static uint64_t number_in(struct text s, size_t first, size_t last)
{
    uint64_t value = 0;
    for (size_t i = first - 1; i < last; i++) {
        if (i >= s.length || s.at[i] < '0' || s.at[i] > '9') {
            return 0;
        }
        value = value * 10 + (s.at[i] - (uint64_t)'0');
    }
    return value;
}

// The bytes after the first n, none where there are no more.
static struct text behind(struct text s, size_t n)
{
    n = lesser(n, s.length);
    return (struct text){s.at + n, s.length - n};
}

// The numbers from a place on, a comma before each, up to the stroke; how many there are.
static size_t numbers_from(struct text s, size_t at, uint64_t *to, size_t most)
{
    size_t count = 0;
    while (at < s.length && s.at[at] == ',' && count < most) {
        size_t end = at + 1;
        while (end < s.length && s.at[end] >= '0' && s.at[end] <= '9') {
            end++;
        }
        to[count++] = number_in(s, at + 2, end);
        at = end;
    }
    return count;
}

// The bytes after the first stroke from a place on.
static struct text behind_stroke(struct text s, size_t at)
{
    while (at < s.length && s.at[at] != '|') {
        at++;
    }
    return behind(s, at + 1);
}

static uint32_t small(uint64_t v)
{
    return v <= UINT32_MAX ? (uint32_t)v : 0;
}

static struct tables tables_in(struct text s, size_t column)
{
    size_t n = number_in(s, column, column + 1), m = number_in(s, column + 2, column + 3);
    return (struct tables){ids, lesser(n, IDS), list, lesser(m, ENTRIES)};
}

// ---- printing

static void put(uint64_t n)
{
    printf("%llu ", (unsigned long long)n);
}

static void put_words(const uint64_t *words, size_t count)
{
    for (size_t i = 0; i < count; i++) {
        put(words[i]);
    }
}

static void put_ids(void)
{
    size_t end = IDS;
    while (end > 0 && ids[end - 1] == 0) {
        end--;
    }
    putchar('|');
    for (size_t i = 0; i < end; i++) {
        printf("%s%lu", i > 0 ? "," : "", (unsigned long)ids[i]);
    }
}

static void put_entries(const wage_employer *from, size_t count)
{
    static const wage_employer none;
    while (count > 0 && memcmp(&from[count - 1], &none, sizeof none) == 0) {
        count--;
    }
    putchar('|');
    for (size_t i = 0; i < count; i++) {
        wage_employer e = from[i];
        printf("%s%llu:%llu:%llu", i > 0 ? "," : "", (unsigned long long)e.fein, (unsigned long long)e.count, (unsigned long long)e.cents);
        printf(":%llu:%llu:%llu", (unsigned long long)e.amended, (unsigned long long)e.final_return, (unsigned long long)e.cease_date);
    }
}

static void put_bytes(const uint8_t *bytes, size_t length)
{
    putchar('|');
    for (size_t i = 0; i < length; i++) {
        putchar(bytes[i] == '\n' ? '/' : bytes[i]);
    }
    putchar('\n');
}

// ---- a call's answer

static uint64_t *lend_answer(void)
{
    for (size_t i = 0; i < MOST_ANSWER; i++) {
        answer[i] = untold;
    }
    return lend(ANSWER, answer, answer_lent * sizeof *answer);
}

// The number returned takes the place of the first word, which says the same where it is lent.
static void take_answer(uint64_t number)
{
    take_back(ANSWER, answer, answer_lent * sizeof *answer);
    if (answer_lent > 0 && answer[0] != number) {
        stop("the number returned is not the answer's");
    }
    for (size_t i = WAGE_ANSWER_WORDS; i < MOST_ANSWER; i++) {
        if (answer[i] != untold) {
            stop("a call wrote behind the answer's words");
        }
    }
    answer[0] = number;
}

static void take_state(uint64_t *words)
{
    take_back(STATE, words, words_lent * sizeof *words);
    for (size_t i = WAGE_STATE_WORDS; i < MOST_WORDS; i++) {
        if (words[i] != behind_state) {
            stop("a call wrote behind the state's words");
        }
    }
}

// ---- the calls

static uint64_t call(struct text s, uint64_t *st, uint64_t *an, struct tables t)
{
    uint64_t format = number_in(s, 2, 21), year = number_in(s, 22, 26), month = number_in(s, 27, 28);
    struct text given = behind(s, s.at[0] == 'L' ? 6 : s.at[0] == 'X' ? 3 : 33);
    const uint8_t *bytes = lend(BYTES, given.at, given.length);
    uint64_t number;
    switch (s.at[0]) {
    case 'O':
        number = wage_open(format, year, month, st, words_lent, an, answer_lent, t.ids, t.ids_length, t.list, t.list_length);
        break;
    case 'E':
        number = wage_end(st, words_lent, an, answer_lent, t.ids, t.ids_length, t.list, t.list_length);
        break;
    case 'W':
        number = wage_whole(format, year, month, bytes, given.length, st, words_lent, an, answer_lent, t.ids, t.ids_length, t.list, t.list_length);
        break;
    default:
        number = wage_line(st, words_lent, bytes, given.length, an, answer_lent, t.ids, t.ids_length, t.list, t.list_length);
    }
    take_back_same(BYTES, given.at, given.length);
    return number;
}

// The call over these words and tables; prints the answer and the words.
static void lent_call(struct text s, uint64_t *words, struct tables t)
{
    size_t ids_size = t.ids_length * sizeof *t.ids, list_size = t.list_length * sizeof *t.list;
    uint64_t *st = lend(STATE, words, words_lent * sizeof *words), *an = lend_answer();
    struct tables lent = {lend(ID_TABLE, t.ids, ids_size), t.ids_length, lend(LIST, t.list, list_size), t.list_length};
    take_answer(call(s, st, an, lent));
    take_state(words);
    take_back(ID_TABLE, t.ids, ids_size);
    take_back(LIST, t.list, list_size);
    put_words(answer, WAGE_ANSWER_WORDS);
    putchar('|');
    put_words(words, WAGE_STATE_WORDS);
}

static void kept_call(struct text s, struct tables t)
{
    lent_call(s, state, t);
    put_ids();
    put_entries(list, ENTRIES);
    putchar('\n');
}

static void line_beyond(struct text s)
{
    static wage_employer long_list[LONG_LIST];
    uint32_t no_ids[IDS] = {0};
    uint64_t words[MOST_WORDS];
    for (size_t i = 0; i < LONG_LIST; i++) {
        long_list[i] = (wage_employer){7, 8, 9, 10, 11, 12};
    }
    memcpy(words, state, sizeof words);
    words[WAGE_FILE_EMPLOYERS] = 65535 + lesser(number_in(s, 2, 2), 2);
    lent_call(s, words, (struct tables){no_ids, IDS, long_list, LONG_LIST});
    put_entries(long_list + LONG_LIST_TOLD_FROM, LONG_LIST - LONG_LIST_TOLD_FROM);
    putchar('\n');
}

// The answer's three numbers, and the slice of a record of so many bytes that was written or built.
static void put_record(const uint8_t *slice, size_t length, uint64_t bytes)
{
    if (answer_lent > WAGE_ANSWER_BYTES && answer[WAGE_ANSWER_BYTES] != (answer[0] == WAGE_FINE ? bytes : 0)) {
        stop("a record written has another length");
    }
    put_words(answer, WAGE_ANSWER_BYTES);
    put_bytes(slice, length);
}

static uint64_t write_call(struct text s, const uint64_t *st, uint8_t *out, size_t length, uint64_t *an)
{
    int t = s.length > 1 && s.at[1] == 'T';
    if (s.at[0] == 'R') {
        return (t ? wage_write_t : wage_write_f)(st, words_lent, out, length, an, answer_lent);
    }
    if (!t) {
        return wage_wham_write_f(st, words_lent, out, length, an, answer_lent);
    }
    return wage_wham_write_t(st, words_lent, number_in(s, 6, 25), number_in(s, 26, 45), out, length, an, answer_lent);
}

static void record_written(struct text s)
{
    uint8_t slice[MOST_SLICE];
    size_t length = lesser(number_in(s, 3, 5), MOST_SLICE);
    memset(slice, '.', length);
    const uint64_t *st = lend(STATE, state, words_lent * sizeof *state);
    uint8_t *out = lend(OUT, slice, length);
    uint64_t *an = lend_answer();
    take_answer(write_call(s, st, out, length, an));
    take_back_same(STATE, state, words_lent * sizeof *state);
    take_back(OUT, slice, length);
    put_record(slice, length, s.at[0] == 'R' ? WAGE_RECORD_BYTES : WAGE_WHAM_RECORD_BYTES);
}

static void record_built(struct text s)
{
    uint8_t slice[MOST_SLICE];
    uint64_t values[MOST_VALUES];
    size_t length = lesser(number_in(s, 3, 5), MOST_SLICE), count = numbers_from(s, 5, values, MOST_VALUES);
    struct text texts = behind_stroke(s, 5);
    uint8_t letter = s.length > 1 ? s.at[1] : 0;
    memset(slice, '.', length);
    const uint64_t *lent = lend(STATE, values, count * sizeof *values);
    const uint8_t *bytes = lend(BYTES, texts.at, texts.length);
    uint8_t *out = lend(OUT, slice, length);
    uint64_t *an = lend_answer();
    take_answer((letter == 'A' ? wage_build_a : letter == 'E' ? wage_build_e : wage_build_s)(lent, count, bytes, texts.length, out, length, an, answer_lent));
    take_back_same(STATE, values, count * sizeof *values);
    take_back_same(BYTES, texts.at, texts.length);
    take_back(OUT, slice, length);
    put_record(slice, length, WAGE_RECORD_BYTES);
}

static void field_read(struct text s)
{
    uint8_t letter = s.length > 1 ? s.at[1] : 0;
    size_t field = number_in(s, 3, 22);
    struct text given = behind(s, 23);
    const uint8_t *line = lend(BYTES, given.at, given.length);
    uint64_t *an = lend_answer();
    take_answer(wage_field_number(letter, field, line, given.length, an, answer_lent));
    uint64_t length = wage_field_text(letter, field, line, given.length);
    take_back_same(BYTES, given.at, given.length);
    put_words(answer, WAGE_ANSWER_WORDS);
    putchar('|');
    put(length);
    put(wage_field_first(letter, field));
    putchar('\n');
}

static void frames_written(struct text s)
{
    uint8_t buffer[MOST_BUFFER];
    size_t entries = lesser(number_in(s, 2, 3), ENTRIES), length = lesser(number_in(s, 4, 6), MOST_BUFFER);
    memset(buffer, '.', length);
    const uint64_t *st = lend(STATE, state, words_lent * sizeof *state);
    const wage_employer *employers = lend(LIST, list, entries * sizeof *list);
    uint8_t *out = lend(OUT, buffer, length);
    uint64_t *an = lend_answer();
    take_answer(wage_frames(st, words_lent, employers, entries, out, length, an, answer_lent));
    take_back_same(STATE, state, words_lent * sizeof *state);
    take_back_same(LIST, list, entries * sizeof *list);
    take_back(OUT, buffer, length);
    put_words(answer, WAGE_ANSWER_WORDS);
    put_bytes(buffer, length);
}

// ---- what is kept, altered

// A few reasons can stand in a refused state: of a line, of a field, of a full table, of a bad quarter, of an unknown format; and four that no refusal leaves
// there. Another number is read as the last.
static uint64_t reason(uint64_t number)
{
    static const uint64_t known[] = {1, 44, 63, 64, 65, 70, 71, 72, 73, 80, 83};
    for (size_t i = 0; i < sizeof known / sizeof *known; i++) {
        if (known[i] == number) {
            return number;
        }
    }
    return 83;
}

// The standing 2 (0 to 4 the phases, 5 accepted, 6 refused), and the refusal's number 3-4, line 5-14 and column 15-19.
static void set_standing(struct text s)
{
    uint64_t standing = lesser(number_in(s, 2, 2), 6), column = number_in(s, 15, 19);
    int refused = standing == 6;
    state[WAGE_STANDING] = standing;
    state[WAGE_REFUSAL] = refused ? reason(number_in(s, 3, 4)) : 0;
    state[WAGE_REFUSAL_LINE] = refused ? small(number_in(s, 5, 14)) : 0;
    state[WAGE_REFUSAL_COLUMN] = refused && column < 65536 ? column : 0;
}

static void set_state(struct text s)
{
    // of the words from the lines read on, from column 20 on
    static const size_t widths[] = {10, 5, 2, 5, 2, 10, 1, 10, 19, 10, 10, 19, 10};
    size_t column = 20;
    for (size_t i = WAGE_FORMAT; i < WAGE_STATE_WORDS; i++) {
        state[i] = 0;
    }
    set_standing(s);
    for (size_t i = 0; i < sizeof widths / sizeof *widths; i++) {
        state[WAGE_LINES + i] = number_in(s, column, column + widths[i] - 1);
        column += widths[i];
    }
    state[WAGE_LINES] = small(state[WAGE_LINES]);
    state[WAGE_OPEN_S_FOLLOW] = state[WAGE_OPEN_S_FOLLOW] == 1;
}

static void set_word(struct text s)
{
    uint64_t place = number_in(s, 2, 3);
    if (place < WAGE_STATE_WORDS) {
        state[place] = number_in(s, 4, 23);
    }
}

static void set_tables(struct text s)
{
    uint64_t at = number_in(s, 2, 3), place = number_in(s, 14, 15);
    if (at < IDS) {
        ids[at] = small(number_in(s, 4, 13));
    }
    if (place < ENTRIES) {
        list[place] = (wage_employer){number_in(s, 16, 25), number_in(s, 26, 35), number_in(s, 36, 54), number_in(s, 55, 64), number_in(s, 65, 74),
                                      number_in(s, 75, 84)};
    }
}

static void set_lending(struct text s)
{
    words_lent = lesser(number_in(s, 2, 3), MOST_WORDS);
    answer_lent = lesser(number_in(s, 4, 4), MOST_ANSWER);
}

// ---- the script

static void command(struct text s)
{
    switch (s.length > 0 ? s.at[0] : 0) {
    case 'O':
    case 'W':
        kept_call(s, tables_in(s, 29));
        break;
    case 'L':
    case 'E':
        kept_call(s, tables_in(s, 2));
        break;
    case 'X':
        line_beyond(s);
        break;
    case 'R':
    case 'H':
        record_written(s);
        break;
    case 'F':
        frames_written(s);
        break;
    case 'B':
        record_built(s);
        break;
    case 'G':
        field_read(s);
        break;
    case 'S':
        set_state(s);
        break;
    case 'N':
        set_word(s);
        break;
    case 'T':
        set_tables(s);
        break;
    case 'K':
        set_lending(s);
        break;
    default:
        stop("no such command");
    }
}

static struct text read_all(void)
{
    size_t length = 0, room = 0, got = 0;
    uint8_t *text = NULL;
    do {
        length += got;
        if (length == room) {
            room = room > 0 ? 2 * room : 1 << 16;
            text = realloc(text, room);
            if (text == NULL) {
                stop("no memory");
            }
        }
        got = fread(text + length, 1, room - length, stdin);
    } while (got > 0);
    if (ferror(stdin)) {
        stop("the script cannot be read");
    }
    return (struct text){text, length};
}

static struct text script;

static void *run_script(void *none)
{
    const uint8_t *end;
    while ((end = memchr(script.at, '#', script.length)) != NULL) {
        size_t length = (size_t)(end - script.at);
        command((struct text){script.at, length});
        script = behind(script, length + 1);
    }
    return none;
}

int main(void)
{
    if (wage_abi_version() != WAGE_ABI_VERSION) {
        stop("the library is of another version than wage.h");
    }
    script = read_all();
    make_areas();
    for (size_t i = WAGE_STATE_WORDS; i < MOST_WORDS; i++) {
        state[i] = behind_state;
    }
    on_stack(NULL, WAGE_STACK_BYTES, run_script);
    if (fflush(stdout) != 0 || ferror(stdout)) {
        stop("the answers cannot be written");
    }
    return 0;
}
