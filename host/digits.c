#include "digits.h"

#include <errno.h>
#include <inttypes.h>
#include <stdio.h>
#include <stdlib.h>
#include <string.h>

struct digits grouped(uint64_t number)
{
    struct digits d = {{0}};
    char plain[24];
    int count = snprintf(plain, sizeof plain, "%" PRIu64, number);
    char *at = d.text;
    for (int i = 0; i < count; i++) {
        if (i > 0 && (count - i) % 3 == 0)
            *at++ = ',';
        *at++ = plain[i];
    }
    return d;
}

struct digits grouped_signed(int64_t number)
{
    struct digits d = grouped(number < 0 ? (uint64_t)-number : (uint64_t)number);
    if (number >= 0)
        return d;
    memmove(d.text + 1, d.text, sizeof d.text - 1);
    d.text[0] = '-';
    return d;
}

const char *plural(uint64_t number)
{
    return number == 1 ? "" : "s";
}

static int is_digit(char c)
{
    return c >= '0' && c <= '9';
}

/* Commas stand before each three digits, as in the program's own output. */
static int comma_fits(const char *comma)
{
    return is_digit(comma[1]) && is_digit(comma[2]) && is_digit(comma[3]) && !is_digit(comma[4]);
}

/* The digits of a word without its commas; NULL, or what is wrong with it. */
static const char *plain_digits(const char *word, char *plain, size_t room)
{
    size_t length = 0, first = strcspn(word, ",");
    if (word[first] == ',' && (first == 0 || first > 3 || word[0] == '0'))
        return "has its thousands grouped in another way than 1,234,567";
    for (const char *c = word; *c != '\0'; c++) {
        if (*c == ',' && !comma_fits(c))
            return "has its thousands grouped in another way than 1,234,567";
        if (*c != ',' && !is_digit(*c))
            return "is not a whole number";
        if (*c != ',' && length + 1 < room)
            plain[length++] = *c;
    }
    plain[length] = '\0';
    return length == 0 ? "is not a whole number" : NULL;
}

const char *digits_read(const char *word, int64_t *number)
{
    char plain[1024];
    int negative = word[0] == '-';
    const char *fault = plain_digits(word + negative, plain, sizeof plain);
    if (fault != NULL)
        return fault;
    errno = 0;
    *number = strtoll(plain, NULL, 10);
    if (errno != 0 || strlen(plain) + 1 == sizeof plain)
        return "is too large";
    if (negative)
        *number = -*number;
    return NULL;
}
