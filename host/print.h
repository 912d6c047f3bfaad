/* Answers, journal lines and zones as readable lines on standard output. */
#ifndef PRINT_H
#define PRINT_H

#include "journal.h"
#include "words.h"

/* What a number in an entry is. */
enum unit { UNIT_NONE, UNIT_FEN, UNIT_YUAN };

struct outcome_words {
    const char *word;
    const char *from;
    const char *to; /* NULL for nobody */
    enum unit unit;
};

/* NULL where there is no such outcome. */
const struct outcome_words *outcome_of(uint32_t outcome);

const char *phase_words(uint32_t phase);

/* The lot of an accepted invoice with that invoice pending; 0 for every other call, or where `found` is NULL. */
int invoiced_lot(const struct line *line, const uint8_t *found, struct crz_receipt_fields *lot);

/* A call that was made: its number and sequence, and its entries; `found` is the image that it found. */
void print_made(const struct line *line, const uint8_t found[CRZ_IMAGE_LENGTH]);

/* A line of the journal; `table` is the one that it belongs to, NULL for a call by itself. */
void print_line(const struct line *line, const struct span *table);

void print_zone(const uint8_t image[CRZ_IMAGE_LENGTH]);

#endif
