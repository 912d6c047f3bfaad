/*
 * Files of test vectors, read step by step. Their lines are
 *
 *   # ..         a remark
 *   Z            the image becomes a fresh zone's
 *   P o:hex ..   bytes of the image are replaced, each run at its offset
 *   L n          the image gets another length, new bytes being zero
 *   C hex n      a call record, '-' for none, and the length of its answer buffer, which is filled with a5 before;
 *                behind it stand
 *   R n          the number returned,
 *   A hex        the answer without its last zeros, '-' where nothing is written, and
 *   I o:hex ..   the bytes of the image that change, 'same' where none does
 *   T hex n      a table of calls, '-' for none, and the length of its answers; behind it the same three lines, with a
 *                word for each call in A
 *   S n          shortfalls, and the length of the figures; behind it R and
 *   F n n ..     the figures, one for each account, '-' where nothing is written
 *
 * A list beside the files says how many lines of each kind a file has. A line that is none of these, stands in another
 * place or ends too early is a fault of the file, and so is a count that differs from the list's: a test that reads
 * only a part of its vectors fails.
 */
#ifndef VECTOR_FILE_H
#define VECTOR_FILE_H

#include <stddef.h>
#include <stdint.h>

enum { VECTOR_FILL = 0xa5, VECTOR_MOST = 1 << 16 }; /* bytes of a buffer */

enum step_kind { STEP_FRESH, STEP_PATCH, STEP_LENGTH, STEP_CALL, STEP_TABLE, STEP_SHORTFALLS, STEP_KINDS };

/* bytes with their places in the image */
struct patch {
    size_t count;
    struct {
        size_t offset;
        uint8_t value;
    } bytes[VECTOR_MOST];
};

struct vector_step {
    enum step_kind kind;
    size_t image_len;          /* the image's length after the step */
    struct patch patch;        /* what a patch replaces, what a call or a table changes */
    uint8_t call[VECTOR_MOST]; /* one record, or those of a table */
    size_t call_len, answer_len;
    uint32_t number;
    uint8_t answer[VECTOR_MOST]; /* the whole buffer, of answers or of figures, as it is left */
};

void patch_image(const struct patch *patch, uint8_t *image);

struct tally {
    unsigned long passed, failed;
};

/* Makes a step; whether all goes as the step says. */
typedef int step_test(const struct vector_step *step);

/* Walks through the files of the list whose names begin so. A call, a table and shortfalls count once each; a step of
 * another kind or a file counts where it fails. */
void walk_vectors(const char *list, const char *beginning, step_test *test, struct tally *tally);

/* The line that the gate reads, and the status of the program. */
int show_tally(const struct tally *tally);

#endif
