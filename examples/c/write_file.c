/* A wage file written: A, E and S records are built from unpadded values, T and F are those that the walk accepts next.
 *
 *     write_file > FILE
 *
 * Each record is lent to the walk before it is written out, so that what comes out is a whole file that is accepted under the last closed quarter 202606.
 * The exit status is 0, or 1 where the library is of another version or a record is refused or cannot be written. */
#include <stdint.h>
#include <stdio.h>
#include <stdlib.h>
#include <string.h>
#include <wage.h>

enum { YEAR = 2026, MONTH = 6, MOST_IDS = 100, MOST_EMPLOYERS = 10, MOST_TEXTS = 300, LINE = WAGE_RECORD_BYTES + 1 };

/* The walk that goes with the file, and the line that is being made. */
static uint64_t state[WAGE_STATE_WORDS], answer[WAGE_ANSWER_WORDS];
static uint32_t ids[MOST_IDS];
static wage_employer list[MOST_EMPLOYERS];
static uint8_t line[LINE];

static void refuse(const char *what)
{
    fflush(stdout);
    fprintf(stderr, "%s refused: number %d, column %d\n", what, (int)answer[WAGE_ANSWER_NUMBER], (int)answer[WAGE_ANSWER_COLUMN]);
    exit(1);
}

/* The values of a record. Fields that are not set are 0, or texts of no characters. */
struct values {
    uint64_t entries[WAGE_E_FIELDS]; /* E has the most fields */
    uint8_t texts[MOST_TEXTS];
    size_t length;
};

static void set_number(struct values *v, size_t field, uint64_t number)
{
    v->entries[field] = number;
}

/* Texts stand one behind the other in the order of their fields, so they are set in that order. */
static void set_text(struct values *v, size_t field, const char *text)
{
    size_t length = strlen(text);
    if (length > MOST_TEXTS - v->length) {
        fprintf(stderr, "no room for: %s\n", text);
        exit(1);
    }
    memcpy(v->texts + v->length, text, length);
    v->entries[field] = length;
    v->length += length;
}

/* The record in `line` goes to the walk, and then out. */
static void hand_on(void)
{
    line[WAGE_RECORD_BYTES] = '\n';
    if (wage_line(state, WAGE_STATE_WORDS, line, LINE, answer, WAGE_ANSWER_WORDS, ids, MOST_IDS, list, MOST_EMPLOYERS) != WAGE_FINE) {
        refuse("a line");
    }
    if (fwrite(line, 1, LINE, stdout) != LINE) {
        exit(1);
    }
}

static void write_transmitter(void)
{
    struct values v = {{0}, {0}, 0};
    set_number(&v, WAGE_A_TAX_YEAR, YEAR);
    set_number(&v, WAGE_A_FEIN, 123456789);
    set_number(&v, WAGE_A_PERIOD, MONTH);
    set_text(&v, WAGE_A_NAME, "Northern Payroll LLC");
    set_text(&v, WAGE_A_STREET, "12 Water Street");
    set_text(&v, WAGE_A_CITY, "Augusta");
    set_text(&v, WAGE_A_STATE, "ME");
    set_text(&v, WAGE_A_ZIP, "04332");
    set_text(&v, WAGE_A_ZIP_EXTENSION, "-1061");
    set_text(&v, WAGE_A_CONTACT, "Jo Smith");
    set_number(&v, WAGE_A_PHONE, 2075551212);
    if (wage_build_a(v.entries, WAGE_A_FIELDS, v.texts, v.length, line, WAGE_RECORD_BYTES, answer, WAGE_ANSWER_WORDS) != WAGE_FINE) {
        refuse("A");
    }
    hand_on();
}

static void write_employer(uint64_t fein, const char *name, int employees)
{
    struct values v = {{0}, {0}, 0};
    set_number(&v, WAGE_E_TAX_YEAR, YEAR);
    set_number(&v, WAGE_E_FEIN, fein);
    set_text(&v, WAGE_E_NAME, name);
    set_text(&v, WAGE_E_STREET, "4 Ridge Road");
    set_text(&v, WAGE_E_CITY, "Bangor");
    set_text(&v, WAGE_E_STATE, "ME");
    set_text(&v, WAGE_E_ZIP, "04401");
    set_number(&v, WAGE_E_ACCOUNT, WAGE_NO_ACCOUNT);
    set_number(&v, WAGE_E_PERIOD, MONTH);
    set_number(&v, WAGE_E_S_FOLLOW, employees > 0);
    set_text(&v, WAGE_E_CONTACT, "Ann Roy");
    set_text(&v, WAGE_E_EMAIL, "ann@orchard.example");
    set_number(&v, WAGE_E_PHONE, 2075550100);
    if (wage_build_e(v.entries, WAGE_E_FIELDS, v.texts, v.length, line, WAGE_RECORD_BYTES, answer, WAGE_ANSWER_WORDS) != WAGE_FINE) {
        refuse("E");
    }
    hand_on();
}

static void write_employee(uint64_t fein, uint64_t identity, const char *last_name, const char *first_name, uint64_t cents)
{
    struct values v = {{0}, {0}, 0};
    set_number(&v, WAGE_S_IDENTITY, identity);
    set_text(&v, WAGE_S_LAST_NAME, last_name);
    set_text(&v, WAGE_S_FIRST_NAME, first_name);
    set_number(&v, WAGE_S_PERIOD, MONTH);
    set_number(&v, WAGE_S_TAX_YEAR, YEAR);
    set_number(&v, WAGE_S_WAGES, cents);
    set_number(&v, WAGE_S_FEIN, fein);
    if (wage_build_s(v.entries, WAGE_S_FIELDS, v.texts, v.length, line, WAGE_RECORD_BYTES, answer, WAGE_ANSWER_WORDS) != WAGE_FINE) {
        refuse("S");
    }
    hand_on();
}

/* T closes an employer: the walk knows its count and its wages. */
static void write_total(void)
{
    if (wage_write_t(state, WAGE_STATE_WORDS, line, WAGE_RECORD_BYTES, answer, WAGE_ANSWER_WORDS) != WAGE_FINE) {
        refuse("T");
    }
    hand_on();
}

static void write_final(void)
{
    if (wage_write_f(state, WAGE_STATE_WORDS, line, WAGE_RECORD_BYTES, answer, WAGE_ANSWER_WORDS) != WAGE_FINE) {
        refuse("F");
    }
    hand_on();
}

int main(void)
{
    if (wage_abi_version() != WAGE_ABI_VERSION) {
        fprintf(stderr, "write_file: the library is of another version than wage.h\n");
        return 1;
    }
    if (wage_open(WAGE_FORMAT_PFML, YEAR, MONTH, state, WAGE_STATE_WORDS, answer, WAGE_ANSWER_WORDS, ids, MOST_IDS, list, MOST_EMPLOYERS) != WAGE_FINE) {
        refuse("the quarter");
    }
    write_transmitter();
    write_employer(12345678, "Orchard Hill Farm", 2);
    write_employee(12345678, 111223333, "O'Neil-Roy", "Anne", 123456);
    write_employee(12345678, 0, "de la Cruz", "Luis", 44);
    write_total();
    write_employer(700000000, "Ridge Cider Works", 0);
    write_total();
    write_final();
    if (wage_end(state, WAGE_STATE_WORDS, answer, WAGE_ANSWER_WORDS, ids, MOST_IDS, list, MOST_EMPLOYERS) != WAGE_FINE) {
        refuse("the file");
    }
    return fflush(stdout) == 0 ? 0 : 1;
}
