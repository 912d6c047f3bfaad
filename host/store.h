/*
 * The store of a zone: one file with the image and the journal, committed together. Nothing of the engine behind it is
 * seen here. It keeps bytes: hashes are made and judged by its users.
 *
 * Each function that returns an int returns 0, or -1 after a message that names the file.
 */
#ifndef STORE_H
#define STORE_H

#include "journal.h"

/* Of a zone without tables, and from its first table on: older programs know the first one alone and leave the file. */
enum { STORE_FORMAT = 4, STORE_FORMAT_TABLES = 5 };

enum store_use { STORE_READ, STORE_WRITE, STORE_VERIFY };

struct store;

/* What is kept beside the journal. */
struct kept {
    uint8_t image[CRZ_IMAGE_LENGTH];
    struct hash last_hash; /* of the last line */
};

/* The newest state: the image, the last line and the hash of the line before it, zeros before line 0. */
struct newest {
    struct kept kept;
    struct line last;
    struct hash before;
};

enum commit { COMMIT_DONE, COMMIT_NOT_DONE, COMMIT_UNSURE };

/* Makes the file, whole or not at all; a file that exists stays as it is. */
int store_create(const char *path, const uint8_t image[CRZ_IMAGE_LENGTH], const struct line *start);

/* NULL after a message. Every wait for another program ends after `wait` seconds. */
struct store *store_open(const char *path, enum store_use use, unsigned wait);
void store_close(struct store *store);

/* Keeps other writers out until the next commit or cancel. */
int store_begin(struct store *store);
void store_cancel(struct store *store);

/* Reads the newest state, all of one moment. */
int store_read(struct store *store, struct newest *newest);

/*
 * Makes the image and the lines behind the last one, CRZ_TABLE_COUNT at most, durable, all or nothing; a message where
 * it is not done. The newest state was read after store_begin.
 */
enum commit store_commit(
    struct store *store, const uint8_t image[CRZ_IMAGE_LENGTH], const struct line *lines, size_t count);

/*
 * Visits the lines from `first` to `last` in order, as far as they are there, those of one commit together, until a
 * visit returns another value than 0; returns that value. A commit ends with its image hash; where that is missing,
 * lines come together up to the next one, to the last line, or to as many as are read at once, which is more than a
 * table has. No lock is held during a visit: lines never change.
 */
typedef int visit_commit(void *context, const struct line *lines, size_t count);
int store_walk(struct store *store, uint64_t first, uint64_t last, visit_commit *visit, void *context);

/* Judges how the file is laid out, whatever the zone in it. */
int store_judge(struct store *store);

/* A message that the zone is damaged, and what its user can do. Returns -1. */
int store_damaged(const char *path, enum store_use use, const char *what);

const char *store_path(const struct store *store);
const char *store_engine(void);

#endif
