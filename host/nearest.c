#include "nearest.h"

#include <stdio.h>
#include <string.h>

enum { LONGEST = 32 };

static unsigned least(unsigned a, unsigned b)
{
    return a < b ? a : b;
}

/* The row of distances below `above`, for the letter at a[i - 1]; `above2` is the row before that, for swapped letters.
 */
static void next_row(
    const char *a, const char *b, size_t i, const unsigned *above2, const unsigned *above, unsigned *row)
{
    row[0] = (unsigned)i;
    for (size_t j = 1; j <= strlen(b); j++) {
        unsigned other = a[i - 1] == b[j - 1] ? 0 : 1;
        row[j] = least(least(above[j] + 1, row[j - 1] + 1), above[j - 1] + other);
        if (i > 1 && j > 1 && a[i - 1] == b[j - 2] && a[i - 2] == b[j - 1])
            row[j] = least(row[j], above2[j - 2] + 1);
    }
}

static void first_row(unsigned *row)
{
    for (unsigned j = 0; j <= LONGEST; j++)
        row[j] = j;
}

/* Letters to add, remove, replace or swap with a neighbour until one word is the other. */
static unsigned edits(const char *a, const char *b)
{
    unsigned rows[3][LONGEST + 1] = {{0}};
    size_t length = strlen(a);
    first_row(rows[0]);
    for (size_t i = 1; i <= length; i++)
        next_row(a, b, i, rows[(i + 1) % 3], rows[(i + 2) % 3], rows[i % 3]);
    return rows[length % 3][strlen(b)];
}

/* Whether the word is the beginning of a longer one. */
static int begins(const char *word, const char *longer)
{
    size_t length = strlen(word);
    return length >= 3 && strncmp(word, longer, length) == 0;
}

struct nearest nearest_to(const char *word)
{
    return (struct nearest){word, NULL, 1 + least(3, (unsigned)(strlen(word) / 2))};
}

void nearest_try(struct nearest *nearest, const char *candidate)
{
    if (strlen(nearest->word) > LONGEST || strlen(candidate) > LONGEST)
        return;
    unsigned distance = begins(nearest->word, candidate) ? 1 : edits(nearest->word, candidate);
    if (distance >= nearest->distance)
        return;
    nearest->best = candidate;
    nearest->distance = distance;
}

void nearest_words(const struct nearest *nearest, char *words, size_t length)
{
    words[0] = '\0';
    if (nearest->best != NULL)
        snprintf(words, length, "; did you mean '%s'?", nearest->best);
}
