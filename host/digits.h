/* Whole numbers as a clerk writes them: 1,234,567. */
#ifndef DIGITS_H
#define DIGITS_H

#include <stdint.h>

struct digits {
    char text[32];
};

struct digits grouped(uint64_t number);
struct digits grouped_signed(int64_t number);

/* "s", or nothing for one of a kind. */
const char *plural(uint64_t number);

/* Takes a number with or without its thousands apart. NULL, or what is wrong with the word. */
const char *digits_read(const char *word, int64_t *number);

#endif
