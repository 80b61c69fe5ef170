/* The wage file library for C and C++: the walk over a file of one of the formats below, the
 * writing of T and F records, the building of A, E and S records of the paid leave wage file and
 * the reading of their fields, and the frames of the acknowledgement.
 *
 * It is proved in Rattle (docs/PROVED.md): every call below returns, touches nothing but what it
 * is lent, and answers as written here, whatever numbers and bytes it is lent. Link libwage.a
 * (x86-64 Linux), which `rt lib`, in crates/wage, writes; of the C library it needs memcpy and memset.
 *
 * What the caller owes. No proof reaches a caller in C, and nothing below is tested at run time:
 *   - each pointer is good for as many elements as the length after it says: to be read, and
 *     where it is not const to be written;
 *   - it is aligned as its type is in C: 8 bytes for uint64_t and wage_employer, 4 for uint32_t,
 *     1 for bytes;
 *   - no two of the areas lent to one call overlap, one that is only read included;
 *   - the thread has WAGE_STACK_BYTES of stack: wage_whole needs the most of them, less than
 *     39,000, for one table of fixed size, the other calls less than 4,096. No call is recursive,
 *     and none takes stack by the length of what it is lent.
 * With length 0 a pointer is not followed, and may be null. The library has no memory of its
 * own: between two calls the caller keeps everything, and calls from several threads at once are
 * fine as long as they share nothing that one of them writes. */
#ifndef WAGE_H
#define WAGE_H

#include <stddef.h>
#include <stdint.h>

#ifdef __cplusplus
extern "C" {
#endif

/* The version of what is declared here. A program compares it with what the library says of
 * itself before it makes any other call: the words of the state and the entries of the list
 * change from version to version. */
#define WAGE_ABI_VERSION 2
uint64_t wage_abi_version(void);

/* A stack of so many bytes is enough for every call, also where a thread has no more than that
 * in all. */
#define WAGE_STACK_BYTES 65536

/* An entry of the employer list: 48 bytes, six numbers in this order and no padding. */
typedef struct wage_employer {
    uint64_t fein;
    uint64_t count;        /* S records */
    uint64_t cents;        /* their wages; in an amended withholding file the correct tax */
    /* of the paid leave wage file alone; in another format these three are 0 */
    uint64_t amended;      /* 1 if the return is amended, else 0 */
    uint64_t final_return; /* 1 if it is final, else 0 */
    uint64_t cease_date;   /* of a final return the day, MMDDYYYY as a number; else 0 */
} wage_employer;

/* The format of a file, by the number that it is given at opening. Another number names no
 * format; the state of a walk that was opened with one holds WAGE_FORMAT_NONE. */
enum {
    WAGE_FORMAT_PFML = 0,      /* the paid leave wage file, records of 290 characters */
    WAGE_FORMAT_WHAM_2024 = 1, /* the amended withholding file, edition 2024, of 275 */
    WAGE_FORMAT_NONE = 255
};

/* Every call but wage_abi_version, wage_field_text and wage_field_first returns a number: 0 if
 * all is well, else that of the refusal.
 *
 *   1 to 65, 91  the file is refused: docs/REASONS.md has every number
 *   70           year and month are no last closed quarter
 *   71           a line or the end after acceptance; nothing changed
 *   72           the state is unfit: words that tell no walk, a format that is none, numbers that
 *                no walk has, or more in use than the tables lent hold; nothing changed
 *   73           the format's number names no format
 *   80 to 83     wage_write_t, wage_write_f, wage_wham_write_t, wage_wham_write_f: below
 *   84, 85       wage_build_a, wage_build_e, wage_build_s: below
 *   87, 88       wage_frames: below */
enum {
    WAGE_FINE = 0,
    WAGE_BAD_QUARTER = 70,
    WAGE_WALK_ENDED = 71,
    WAGE_STATE_UNFIT = 72,
    WAGE_UNKNOWN_FORMAT = 73,
    WAGE_NOT_TO_BE_WRITTEN = 80,
    WAGE_NONE_TO_TOTAL = 81,
    WAGE_SUM_TOO_LARGE = 82,
    WAGE_SLICE_LENGTH = 83,
    WAGE_BUILD_LENGTH = 84,
    WAGE_VALUE_TOO_LONG = 85,
    WAGE_WALK_NOT_ENDED = 87,
    WAGE_BUFFER_TOO_SMALL = 88
};

/* Every call that is lent an `answer` puts four words at its front, as many of them as fit; the
 * words after them stay. A caller that wants none lends length 0. */
enum {
    WAGE_ANSWER_NUMBER = 0, /* what the call returns */
    WAGE_ANSWER_LINE = 1,   /* from 1; 0 if the refusal is not of the file */
    WAGE_ANSWER_COLUMN = 2, /* from 1; 0 if the refusal is neither of the file nor of a field */
    /* wage_line: bytes taken; wage_frames: bytes written; a record written or built: its 290 or
     * 275; all others, and every refusal: 0 */
    WAGE_ANSWER_BYTES = 3,
    WAGE_ANSWER_VALUE = 3,  /* wage_field_number: the number */
    WAGE_ANSWER_WORDS = 4
};

/* The state of a walk: 27 words that wage_open fills and every later call is lent. Words after
 * them stay.
 *
 * A call reads any words. Fewer than 27, a standing above 6, or a refusal of a number that is
 * not in the list above or in docs/REASONS.md tell no walk, and the call answers 72; so it does
 * where FORMAT names no format, unless the walk is refused with 70 or 73, and where a walk whose
 * format is named is refused with 73. S_FOLLOW and NOTED
 * count as 1 unless they are 0; LINE and LINES above 4,294,967,295 and COLUMN above 65,535 count
 * as these. A call of the walk then writes the state that it leaves, all 27 words; a line or end
 * call that answers 70, 71, 72 or 73 writes none.
 *
 * PFML uses none of the words 18 to 26: a walk over it has zeros there, and 72 compares none of
 * them. WHAM 2024 uses OPEN_SECOND, FILE_SECOND (both compared), the two words of the account,
 * and FILE_OTHERS; it has zeros in the others, and in IDS_USED. Whatever a caller puts there: an
 * opening and a refusal set all of them to zero; an A, E, T or F record sets the open E's to
 * zero, or to what E says, and leaves the file's; an S record adds to the second sums, an R
 * record to FILE_OTHERS; the end of an accepted file and a refusal that is answered again leave
 * all of them. */
enum {
    /* 0 before A, 1 after A, 2 E open, 3 after T, 4 after F, 5 accepted, 6 refused */
    WAGE_STANDING = 0,
    WAGE_REFUSAL = 1,            /* the refusal's number, line and column; 0 unless refused */
    WAGE_REFUSAL_LINE = 2,
    WAGE_REFUSAL_COLUMN = 3,
    WAGE_LINES = 4,              /* lines read */
    WAGE_HELD_YEAR = 5,          /* the last closed quarter */
    WAGE_HELD_MONTH = 6,
    WAGE_FILED_YEAR = 7,         /* A's quarter; in WHAM A's year, and the first E's month */
    WAGE_FILED_MONTH = 8,
    WAGE_OPEN_FEIN = 9,          /* the open E: its FEIN, */
    WAGE_OPEN_S_FOLLOW = 10,     /* its flag that S records follow, */
    WAGE_OPEN_COUNT = 11,        /* the S records under it */
    WAGE_OPEN_CENTS = 12,        /* and their wages; in WHAM the correct tax, S 203-214 */
    WAGE_FILE_COUNT = 13,        /* S records of the file, */
    WAGE_FILE_EMPLOYERS = 14,    /* E records, */
    WAGE_FILE_CENTS = 15,        /* and the wages, or the correct tax, of all S records */
    WAGE_IDS_USED = 16,          /* ids of the table that are the open E's */
    WAGE_FORMAT = 17,            /* the format's number; one that is not listed above is none */
    WAGE_OPEN_SECOND = 18,       /* the open E: its second sum, in WHAM the original tax, */
    WAGE_OPEN_OTHERS = 19,       /* its other records, */
    WAGE_OPEN_NEAREST = 20,      /* the nearest number, */
    WAGE_OPEN_NOTED = 21,        /* the flag that a note was seen, */
    WAGE_OPEN_ACCOUNT_HEAD = 22, /* and its account: 6 and 5 characters to the base 256 */
    WAGE_OPEN_ACCOUNT_TAIL = 23,
    WAGE_FILE_SECOND = 24,       /* the file's second sum, */
    WAGE_FILE_OTHERS = 25,       /* its other records, in WHAM R, */
    WAGE_FILE_NOTES = 26,        /* and its notes */
    WAGE_STATE_WORDS = 27
};

/* The tables. `ids` has room for the identity numbers under one employer (a zero one takes
 * none; in WHAM no number is kept, and length 0 is enough), `list` for the employers of the
 * file: at most 65,536 are taken. No room for one more is
 * refusal 62 or 63. A call may be lent tables of another length than the call before, as long as
 * they hold what is in use (else 72); their content is the caller's to keep. An E record sets all
 * six numbers of its entry, count and cents to zero; T sets these two. A refusal by an edit (1
 * to 65, 91) zeroes every entry of both tables, again with each later line or end call; after acceptance
 * `list` holds the employers in file order, then zeros, and `ids` zeros. */

/* Opens a walk over a file of this format for the last closed quarter, year 2025 to 9999 and
 * month 3, 6, 9 or 12: zeroes both tables and fills the state. In this order: 72 for fewer than
 * 27 words of state: nothing is touched but the answer; 70 for another quarter; 73 for another
 * format. After 70 and 73 the state holds that refusal, and no table is touched; each later line
 * or end call answers it again and touches nothing but the answer. */
uint64_t wage_open(uint64_t format, uint64_t year, uint64_t month, uint64_t *state, size_t state_length, uint64_t *answer, size_t answer_length,
                   uint32_t *ids, size_t ids_length, wage_employer *list, size_t list_length);

/* Reads the first line of the bytes: all that remains of the file, or at least two more bytes
 * of it than a record of the format has, 292 or 277.
 * ANSWER_BYTES says how many the line and its end take, and what follows them is ignored. No
 * bytes are a line of length 0. */
uint64_t wage_line(uint64_t *state, size_t state_length, const uint8_t *bytes, size_t bytes_length, uint64_t *answer, size_t answer_length,
                   uint32_t *ids, size_t ids_length, wage_employer *list, size_t list_length);

/* Ends the file: 0 is acceptance, 5 to 8 that something is missing. */
uint64_t wage_end(uint64_t *state, size_t state_length, uint64_t *answer, size_t answer_length, uint32_t *ids, size_t ids_length,
                  wage_employer *list, size_t list_length);

/* A file in one piece: opening, a line call while any byte remains and none is refused, then the
 * end call, whose answer this is. */
uint64_t wage_whole(uint64_t format, uint64_t year, uint64_t month, const uint8_t *bytes, size_t bytes_length, uint64_t *state,
                    size_t state_length, uint64_t *answer, size_t answer_length, uint32_t *ids, size_t ids_length, wage_employer *list,
                    size_t list_length);

/* Writes the T, or the F, record that the walk accepts next into `out`, 290 bytes without a line
 * end. In this order: 72; 83 if `out` is not 290 bytes; 80 if no T (no F) can stand here; 81 for
 * a T without S records under an E that says some follow; 82 if the sum is too large for the
 * record. If refused, `out` is untouched. No table is lent, so 72 compares none. */
#define WAGE_RECORD_BYTES 290
uint64_t wage_write_t(const uint64_t *state, size_t state_length, uint8_t *out, size_t out_length, uint64_t *answer, size_t answer_length);
uint64_t wage_write_f(const uint64_t *state, size_t state_length, uint8_t *out, size_t out_length, uint64_t *answer, size_t answer_length);

/* The same for an amended withholding file, into 275 bytes. `payments` are the cents of T
 * 112-122, which no S record says; T 123-136 is what is due, or overpaid, by them. `total` is
 * read in edition 2020 alone, of which there is no format yet: any number will do. In this
 * order: 72; 83 if `out` is not 275 bytes; 80 if no T (no F) can stand here, or the walk is over
 * a file of another format: an F may also follow an E that says 0 and has no T; 81 as above; 82
 * if the payments or a sum is too large for the record. wage_write_t and wage_write_f answer 80
 * to a walk over such a file, and these two to a walk over a paid leave wage file. */
#define WAGE_WHAM_RECORD_BYTES 275
uint64_t wage_wham_write_t(const uint64_t *state, size_t state_length, uint64_t payments, uint64_t total, uint8_t *out, size_t out_length,
                           uint64_t *answer, size_t answer_length);
uint64_t wage_wham_write_f(const uint64_t *state, size_t state_length, uint8_t *out, size_t out_length, uint64_t *answer, size_t answer_length);

/* The fields of the records of PFML, counted from 0 in the order of their tables: places in `values`,
 * and arguments of the calls that read a field. Beside each stand its columns; a text is named
 * as one, all others are numbers. The fields without a name are the record's letter, the taxing
 * entity code and blank space, which no caller gives. */
enum {
    WAGE_A_TAX_YEAR = 1,         /* 2-5 */
    WAGE_A_FEIN = 2,             /* 6-14 */
    WAGE_A_PERIOD = 4,           /* 19-20: 3, 6, 9 or 12 */
    WAGE_A_NAME = 6,             /* 24-73, text */
    WAGE_A_STREET = 7,           /* 74-113, text */
    WAGE_A_CITY = 8,             /* 114-138, text */
    WAGE_A_STATE = 9,            /* 139-140, text */
    WAGE_A_ZIP = 11,             /* 154-158, text: 04332, K1A 0 */
    WAGE_A_ZIP_EXTENSION = 12,   /* 159-163, text: -1061, B1, or empty */
    WAGE_A_CONTACT = 13,         /* 164-193, text */
    WAGE_A_PHONE = 14,           /* 194-203 */
    WAGE_A_PHONE_EXTENSION = 15, /* 204-207, text, may be empty */
    WAGE_A_FIELDS = 17
};
enum {
    WAGE_E_TAX_YEAR = 1,           /* 2-5 */
    WAGE_E_FEIN = 2,               /* 6-14 */
    WAGE_E_NAME = 4,               /* 24-73, text */
    WAGE_E_STREET = 5,             /* 74-113, text */
    WAGE_E_CITY = 6,               /* 114-138, text */
    WAGE_E_STATE = 7,              /* 139-140, text */
    WAGE_E_ZIP_EXTENSION = 9,      /* 149-153, text: -1061, B1, or empty */
    WAGE_E_ZIP = 10,               /* 154-158, text: 04332, K1A 0 */
    WAGE_E_ACCOUNT = 14,           /* 173-182: the number, or WAGE_NO_ACCOUNT */
    WAGE_E_AMENDED = 16,           /* 187-187: 0 or 1 */
    WAGE_E_PERIOD = 17,            /* 188-189: 3, 6, 9 or 12 */
    WAGE_E_S_FOLLOW = 18,          /* 190-190: 1 if S records follow, else 0 */
    WAGE_E_FIFTEEN_EMPLOYEES = 19, /* 191-191: 0 or 1 in period 9, in another any digit */
    WAGE_E_CONTACT = 21,           /* 201-230, text */
    WAGE_E_EMAIL = 22,             /* 231-260, text */
    WAGE_E_PHONE = 23,             /* 261-270 */
    WAGE_E_PHONE_EXTENSION = 24,   /* 271-274, text, may be empty */
    WAGE_E_FINAL = 26,             /* 282-282: 0 or 1 */
    WAGE_E_CEASE_DATE = 27,        /* 283-290: MMDDYYYY, 0 unless final */
    WAGE_E_FIELDS = 28
};
enum {
    WAGE_S_IDENTITY = 1,   /* 2-10: 0 if applied for */
    WAGE_S_LAST_NAME = 2,  /* 11-30, text */
    WAGE_S_FIRST_NAME = 3, /* 31-42, text */
    WAGE_S_PERIOD = 5,     /* 46-47: 3, 6, 9 or 12 */
    WAGE_S_TAX_YEAR = 6,   /* 48-51 */
    WAGE_S_WAGES = 8,      /* 64-77: cents */
    WAGE_S_FEIN = 11,      /* 147-155 */
    WAGE_S_FIELDS = 13
};
enum {
    WAGE_T_COUNT = 1, /* 2-8 */
    WAGE_T_FEIN = 3,  /* 13-21 */
    WAGE_T_WAGES = 5, /* 27-40: cents */
    WAGE_T_FIELDS = 7
};
enum {
    WAGE_F_COUNT = 1,     /* 2-11 */
    WAGE_F_EMPLOYERS = 2, /* 12-21 */
    WAGE_F_WAGES = 5,     /* 41-55: cents */
    WAGE_F_FIELDS = 7
};

/* The value of an account number that is left out: its ten columns are blank. */
#define WAGE_NO_ACCOUNT ((uint64_t)-1)

/* Builds an A, E or S record of PFML from unpadded values into `out`, 290 bytes without a line end, in
 * capitals: texts left justified and filled with blanks, numbers right justified and filled with
 * zeros.
 *
 * `values` has one entry for each field of the record: of a number the number; of a text how
 * many bytes of `texts` it takes, where the texts stand one after the other in the order of the
 * fields; the entries of fields without a name are not looked at. An entry past the end is 0, a
 * text ends where `texts` ends, and what is left over of either is ignored.
 *
 * In this order: 84 if `out` is not 290 bytes, column 0; then field by field, in the order of
 * the columns: 85 if the value is longer than the field, at the field's first column (trailing
 * blanks count); 3 at the first character that a file may not hold; then the field's own rules
 * over the padded record, of docs/REASONS.md 32, 33, 35 to 38, 40, 44, 47, 48, 50, 51, 52, 54
 * and 64, with their columns. If refused, `out` is untouched. The line is always 0. Rules that
 * look at other records or at the last closed quarter are those of wage_line: what is built here
 * may still be refused there. */
uint64_t wage_build_a(const uint64_t *values, size_t values_length, const uint8_t *texts, size_t texts_length, uint8_t *out, size_t out_length,
                      uint64_t *answer, size_t answer_length);
uint64_t wage_build_e(const uint64_t *values, size_t values_length, const uint8_t *texts, size_t texts_length, uint8_t *out, size_t out_length,
                      uint64_t *answer, size_t answer_length);
uint64_t wage_build_s(const uint64_t *values, size_t values_length, const uint8_t *texts, size_t texts_length, uint8_t *out, size_t out_length,
                      uint64_t *answer, size_t answer_length);

/* Read a field of a line of PFML. `letter` is A, E, S, T or F, a capital, and decides by itself which
 * record's fields are meant; `field` is one of the numbers above, or that of a field without a
 * name. Of a record that was built the values come back, in capitals and without trailing
 * blanks; an account number that was left out has a text of no characters.
 *
 * wage_field_number: the number in the field's columns, as ANSWER_VALUE, and 0. 30 where it is
 * none, with the first column that holds no digit, those past the line's end among them; at the
 * first column of a field that has more than 19 columns; and at column 0 where there is no such
 * field. wage_field_text: how many characters the field has, counted without trailing blanks and
 * as far as the line goes; 0 where there is no such field. wage_field_first: the field's first
 * column, so that its text begins at line[wage_field_first(letter, field) - 1]; 0 where there is
 * no such field. */
uint64_t wage_field_number(uint8_t letter, size_t field, const uint8_t *line, size_t line_length, uint64_t *answer, size_t answer_length);
uint64_t wage_field_text(uint8_t letter, size_t field, const uint8_t *line, size_t line_length);
uint64_t wage_field_first(uint8_t letter, size_t field);

/* Writes the acknowledgement of a walk that has ended, by acceptance or by refusal, to the front
 * of `out`; bytes after it stay. It is lines of hexadecimal, each with LF: for each employer 47
 * bytes, or 35 in another format than PFML, and 35 more; 17 bytes for a refusal. The return value tells whether it was written,
 * not whether the file was accepted: that is WAGE_STANDING. In this order: 72, which compares
 * the list alone; 87 if the walk has not ended; 88 if `out` is too small. `out` is then
 * untouched.
 *
 * An employer's frame has 4 bytes for the FEIN, 4 for the count and 8 for the cents, and in PFML
 * 1 for each of the two flags and 4 for the date. The numbers of a file fit; of a larger one, which only the
 * caller can have put into the list, the low bytes are written. */
#define WAGE_FRAMES_BYTES(employers) (47 * (size_t)(employers) + 35) /* in any format */
uint64_t wage_frames(const uint64_t *state, size_t state_length, const wage_employer *list, size_t list_length, uint8_t *out, size_t out_length,
                     uint64_t *answer, size_t answer_length);

#ifdef __cplusplus
}
#endif

#endif
