/*
 * Buffers as a host lends them. Each has a room of its own between two pages that nobody may read or write, the walls.
 * A buffer that stands at a wall shows every read and write past that end of it, for the program is ended there; bytes
 * of the room around a buffer are painted, and show a write.
 */
#ifndef LENT_H
#define LENT_H

#include <stddef.h>
#include <stdint.h>

/* where a buffer stands: at an odd address between painted bytes, ending at a wall, starting at a wall */
enum lent_place { LENT_BETWEEN, LENT_END_AT_WALL, LENT_START_AT_WALL, LENT_PLACES };

enum { LENT_MOST = 1 << 16 }; /* bytes of a buffer */

struct lent {
    uint8_t *room;
    uint8_t *bytes;
    size_t len;
    int read_only;
};

/* Puts the buffer, whose content is then open, at its place. */
void lend(struct lent *lent, enum lent_place place, size_t len);

/* The same with this content. */
void lend_bytes(struct lent *lent, enum lent_place place, const uint8_t *bytes, size_t len);

/* The same with one byte all over. */
void lend_filled(struct lent *lent, enum lent_place place, uint8_t fill, size_t len);

/* From here on a write ends the program, until the buffer is lent again. */
void lend_for_reading(struct lent *lent);

/* Whether the bytes around the buffer are still as painted. */
int lent_kept(const struct lent *lent);

/* A buffer inside a wall, for calls that must not read or write it. */
uint8_t *lend_nothing(void);

#endif
