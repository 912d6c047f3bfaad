/* Objects for programs on standard output, one a line: every number whole, money in fen, what is not there null. */
#ifndef JSON_H
#define JSON_H

#include "journal.h"

/* An object begins with its type; its members follow, then its end. */
void json_open(const char *type);
void json_number(const char *name, uint64_t number);
void json_signed(const char *name, int64_t number);
void json_flag(const char *name, int holds);
void json_words(const char *name, const char *words); /* NULL becomes null */
void json_hash(const char *name, const struct hash *hash);
void json_close(void);

/* The number, or null where it is not there. */
void json_if(int is_there, const char *name, uint64_t number);
void json_signed_if(int is_there, const char *name, int64_t number);

/*
 * A line of the journal; `table` is the one that it belongs to, NULL for a call by itself, and `found` the image that
 * the call found, NULL where it is not known.
 */
void json_line(const struct line *line, const struct span *table, const uint8_t *found);

void json_zone(const uint8_t image[CRZ_IMAGE_LENGTH]);

#endif
