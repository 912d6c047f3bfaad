/*
 * The journal: a line for each call made, refused ones too. Line 0 is the start; calls count from 1, so that the last
 * line's sequence number is how many calls were made.
 *
 * A line's hash is SHA-256 over these bytes, one behind the other; numbers are little-endian:
 *
 *   the hash of the line before it     32 bytes, zeros for line 0
 *   sequence number                    u64
 *   number returned                    u32
 *   time, entry, call record, answer, further buffer, image hash
 *                                      each: u8 0 where it is not there, else u8 1, u32 length, the bytes
 *
 * The last line of a commit has the SHA-256 of the image after it as its image hash, lines before it in the same
 * commit have none. So the last hash of a journal fixes every byte of the journal and of the image.
 *
 * A call that was made by itself is a commit of one line. The calls of a table are a commit of as many lines, each with
 * the table's entry and its own call record, number and answer, and all with one time: a table ends with its image
 * hash.
 */
#ifndef JOURNAL_H
#define JOURNAL_H

#include "../include/crz_records.h"

/* What a line is, by the entry that it names: the start, a call by itself, one of a table; or none, where nobody writes
 * such lines. */
enum line_kind { LINE_NONE, LINE_START, LINE_CALL, LINE_IN_TABLE };

/* What a line can name: an entry of the library, or an import, a start whose further buffer is the image. */
struct entry {
    const char *name;
    enum line_kind lines;
};

#define ENTRY(name, lines, ...) extern const struct entry entry_##name;
#include "../include/entries.h"
extern const struct entry entry_import;

enum { HASH_LENGTH = 32, TIME_LENGTH = 24, ENTRY_LENGTH = 31, FURTHER_LENGTH = 8192, HASH_DIGITS = 2 * HASH_LENGTH };

struct hash {
    uint8_t bytes[HASH_LENGTH];
};

struct line {
    uint64_t sequence;
    char time[TIME_LENGTH + 1];   /* UTC: 2024-05-01T08:15:30.123Z */
    char entry[ENTRY_LENGTH + 1]; /* what the call went through */
    size_t call_length;           /* 0 for the start */
    uint8_t call[CRZ_CALL_LENGTH];
    uint32_t number;                   /* what the entry returned */
    size_t answer_length;              /* as it is kept: without the zeros behind the last entry */
    uint8_t answer[CRZ_ANSWER_LENGTH]; /* whole */
    int has_further;
    size_t further_length;
    uint8_t further[FURTHER_LENGTH]; /* what the entry left in a buffer beside image and answer */
    int has_image_hash;
    struct hash image_hash;
    struct hash hash;
};

/* The first line of a zone that starts now: fresh, or with the image given. */
void line_start(struct line *line, const uint8_t *imported);

/* The line of a call made now by itself. */
void line_call(struct line *line, uint64_t sequence, const uint8_t *call, uint32_t number, const uint8_t *answer);

/* The lines of `count` calls made now as a table, the first of them with that sequence number. */
void line_table(struct line *lines, uint64_t sequence, const uint8_t *calls, const uint8_t *answers, size_t count);

/* Whether a line names this entry; what it is by the entry that it names. */
int line_names(const struct line *line, const struct entry *entry);
enum line_kind line_kind(const struct line *line);
int line_in_table(const struct line *line);

/* The sequence numbers of a table's first and last call. */
struct span {
    uint64_t first, last;
};

/* Each returns 0, or -1 after a message. */
int hash_image(const uint8_t image[CRZ_IMAGE_LENGTH], struct hash *hash);
int hash_line(const struct hash *before, const struct line *line, struct hash *hash);

int hash_same(const struct hash *a, const struct hash *b);
void hash_words(const struct hash *hash, char words[HASH_DIGITS + 1]);

#endif
