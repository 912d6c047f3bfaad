/* Images of older programs, whose layouts are known by their lengths alone, and today's images made of them. */
#ifndef OLDER_H
#define OLDER_H

#include "../include/crz.h"

/* A table of an image: the places in the header that have its count (u16) and its start (u32), and what they are. */
struct table_layout {
    size_t count_place, start_place;
    size_t start, count, record; /* bytes of a record */
};

struct layout {
    size_t length, header;    /* bytes of the image and of its header */
    size_t day, phase, total; /* places in the header: u16; u8 and three zero bytes; u64 */
    struct table_layout accounts, asks, receipts;
    const char *added;    /* what today's image has beside it, for a message */
    const char *finished; /* what finishes a trade that was paid in part by the rule before 3.0.0, for a message */
};

/* The layouts of the past, oldest first; behind the last one stands one of length 0. */
extern const struct layout older_layouts[];

/* The layout of the past that has images of this length, or NULL. */
const struct layout *older_layout(size_t length);

/* The lengths of all of them, for a message. */
enum { OLDER_WORDS = 64 };
void older_lengths(char words[OLDER_WORDS]);

/*
 * Today's image of an older one, valid where that one was: every part at its place of today. What today's image has
 * beside it is as in a fresh zone.
 */
void older_to_today(const struct layout *layout, const uint8_t *older, uint8_t image[CRZ_IMAGE_LENGTH]);

#endif
