/* The acknowledgement of a wage file that is held in memory.
 *
 *     acknowledge YYYYMM FILE [FORMAT]     YYYYMM: the last closed quarter; FORMAT: the number of the file's format in wage.h, that of PFML if not given
 *
 * Prints the frames. The exit status is 0 for accepted, 1 for refused, 2 for no answer. */
#include <stdint.h>
#include <stdio.h>
#include <stdlib.h>
#include <wage.h>

enum { MOST_IDS = 8192, MOST_EMPLOYERS = 1024 };

/* The whole file, and its length; null if it cannot be read. */
static uint8_t *read_file(const char *path, size_t *length)
{
    enum { PIECE = 65536 };
    FILE *file = fopen(path, "rb");
    uint8_t *bytes = NULL;
    size_t got;
    if (file == NULL) {
        return NULL;
    }
    *length = 0;
    do {
        bytes = realloc(bytes, *length + PIECE);
        if (bytes == NULL) {
            return NULL;
        }
        got = fread(bytes + *length, 1, PIECE, file);
        *length += got;
    } while (got > 0);
    return ferror(file) ? NULL : bytes;
}

/* Prints the frames of a file: 0 for accepted, 1 for refused, 2 if they cannot be printed. */
static int acknowledge(uint64_t format, uint64_t year, uint64_t month, const uint8_t *file, size_t length)
{
    static uint64_t state[WAGE_STATE_WORDS], answer[WAGE_ANSWER_WORDS];
    static uint32_t ids[MOST_IDS];
    static wage_employer list[MOST_EMPLOYERS];
    static uint8_t frames[WAGE_FRAMES_BYTES(MOST_EMPLOYERS)];

    uint64_t refusal = wage_whole(format, year, month, file, length, state, WAGE_STATE_WORDS, answer, WAGE_ANSWER_WORDS, ids, MOST_IDS, list,
                                  MOST_EMPLOYERS);
    if (refusal != WAGE_FINE) {
        fprintf(stderr, "refused: number %d, line %d, column %d\n", (int)refusal, (int)answer[WAGE_ANSWER_LINE], (int)answer[WAGE_ANSWER_COLUMN]);
    }
    /* It is fine: the walk has ended, and the buffer has room for every employer of the list. */
    wage_frames(state, WAGE_STATE_WORDS, list, MOST_EMPLOYERS, frames, sizeof frames, answer, WAGE_ANSWER_WORDS);
    size_t written = fwrite(frames, 1, answer[WAGE_ANSWER_BYTES], stdout);
    if (written < answer[WAGE_ANSWER_BYTES] || fflush(stdout) != 0) {
        return 2;
    }
    return refusal == WAGE_FINE ? 0 : 1;
}

int main(int count, char **words)
{
    if (wage_abi_version() != WAGE_ABI_VERSION) {
        fprintf(stderr, "acknowledge: the library is of another version than wage.h\n");
        return 2;
    }
    size_t length;
    uint8_t *file = count == 3 || count == 4 ? read_file(words[2], &length) : NULL;
    if (file == NULL) {
        fprintf(stderr, "usage: acknowledge YYYYMM FILE [FORMAT], a file that can be read\n");
        return 2;
    }
    unsigned long quarter = strtoul(words[1], NULL, 10), format = count == 4 ? strtoul(words[3], NULL, 10) : WAGE_FORMAT_PFML;
    return acknowledge(format, quarter / 100, quarter % 100, file, length);
}
