/* A zone: its image and journal judged by their hashes, and calls made on it through the library. */
#ifndef ZONE_H
#define ZONE_H

#include "older.h"
#include "report.h"
#include "store.h"

/* What one commit made, a call or a table of calls: their lines, and the image that the first of them found. */
struct made {
    struct line lines[CRZ_TABLE_COUNT];
    size_t count;
    uint8_t found[CRZ_IMAGE_LENGTH];
};

/* Calls that are made together. */
struct table {
    const uint8_t *calls; /* their records, one behind the other */
    size_t count;         /* from 1 to CRZ_TABLE_COUNT */
    int stop;             /* whether it ends with the first call that is refused */
};

/* What a first call asks of the journal. */
struct expect {
    int given;
    uint64_t sequence; /* the last line's */
};

/* A fresh zone in a new file; a zone that starts with a raw image, and the layout of that if it is an older one. */
enum status zone_new(const char *path);
enum status zone_import(const char *path, const char *image_path, const struct layout **older);

/* The newest state, its hashes judged. Returns 0, or -1 after a message. */
int zone_read(struct store *store, struct newest *newest);

/*
 * Each makes its calls and commits them with their lines. STATUS_ACCEPTED, STATUS_REFUSED where a call was refused, or
 * another after a message.
 */
enum status zone_call(
    struct store *store, const uint8_t call[CRZ_CALL_LENGTH], const struct expect *expect, struct made *made);
enum status zone_table(struct store *store, const struct table *table, const struct expect *expect, struct made *made);

#endif
