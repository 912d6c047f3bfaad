/* The word that a user most likely meant. */
#ifndef NEAREST_H
#define NEAREST_H

#include <stddef.h>

/* Keeps the candidate that is nearest to a word. */
struct nearest {
    const char *word;
    const char *best; /* NULL as long as no candidate is near */
    unsigned distance;
};

struct nearest nearest_to(const char *word);
void nearest_try(struct nearest *nearest, const char *candidate);

/* "; did you mean 'quote'?", or nothing where no candidate is near. */
void nearest_words(const struct nearest *nearest, char *words, size_t length);

#endif
