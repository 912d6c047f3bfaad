#include "options.h"

#include <stdio.h>

#include "digits.h"
#include "nearest.h"

struct option_words {
    const char *word;
    int64_t least, most; /* of its value; 0 and 0 where it takes none */
};

static const struct option_words options[OPTIONS] = {
    [OPTION_JSON] = {"--json", 0, 0},
    [OPTION_STOP] = {"--stop", 0, 0},
    [OPTION_TABLE] = {"--table", 0, 0},
    [OPTION_HEAD] = {"--head", 0, 0},
    [OPTION_WAIT] = {"--wait", 0, 86400},
    [OPTION_EXPECT] = {"--expect", 0, INT64_MAX},
    [OPTION_ACCOUNT] = {"--account", 1, CRZ_ACCOUNT_COUNT},
    [OPTION_LOT] = {"--lot", 1, CRZ_RECEIPT_COUNT},
    [OPTION_LAST] = {"--last", 0, INT64_MAX},
    [OPTION_HELP] = {"--help", 0, 0},
    [OPTION_VERSION] = {"--version", 0, 0},
};

int option_given(const struct request *request, enum option option)
{
    return (request->given & 1u << option) != 0;
}

unsigned option_wait(const struct request *request)
{
    return option_given(request, OPTION_WAIT) ? (unsigned)request->numbers[OPTION_WAIT] : WAIT_SECONDS;
}

struct expect option_expect(const struct request *request)
{
    return (struct expect){option_given(request, OPTION_EXPECT), request->numbers[OPTION_EXPECT]};
}

/* The option that a word begins with, up to its end or to '='; OPTIONS where there is none. */
static unsigned option_named(const char *word)
{
    size_t length = strcspn(word, "=");
    unsigned o = 0;
    while (o < OPTIONS && (strlen(options[o].word) != length || strncmp(options[o].word, word, length) != 0))
        o++;
    return o;
}

static int no_option(const char *command, unsigned allowed, const char *word)
{
    struct nearest nearest = nearest_to(word);
    char hint[64];
    for (unsigned o = 0; o < OPTIONS; o++)
        if (allowed & 1u << o)
            nearest_try(&nearest, options[o].word);
    nearest_words(&nearest, hint, sizeof hint);
    return report(
        NULL, "%s: %s is no option of it%s; 'crz help %s' lists them", command, quoted(word).text, hint, command);
}

static int take_value(struct request *request, const char *command, unsigned o, const char *value)
{
    int64_t number = 0;
    const char *fault = digits_read(value, &number);
    if (fault != NULL)
        return report(NULL, "%s: %s: %s %s", command, options[o].word, quoted(value).text, fault);
    if (number < options[o].least || number > options[o].most)
        return report(NULL, "%s: %s: %s is not in %s to %s", command, options[o].word, grouped_signed(number).text,
            grouped_signed(options[o].least).text, grouped_signed(options[o].most).text);
    request->numbers[o] = (uint64_t)number;
    return 0;
}

/* Takes the option at *at, and its value from the same word or the next; `end` is behind the last word. */
static int take_option(struct request *request, const char *command, unsigned allowed, char ***at, char **end)
{
    const char *word = **at, *value = strchr(word, '=');
    unsigned o = option_named(word);
    if (o == OPTIONS || !(allowed & 1u << o))
        return no_option(command, allowed, word);
    if (request->given & 1u << o)
        return report(NULL, "%s: %s is there twice", command, options[o].word);
    request->given |= 1u << o;
    if (options[o].most == 0)
        return value == NULL ? 0 : report(NULL, "%s: %s takes no value", command, options[o].word);
    if (value != NULL)
        return take_value(request, command, o, value + 1);
    if (++*at == end)
        return report(NULL, "%s: %s has no value", command, options[o].word);
    return take_value(request, command, o, **at);
}

int options_read(struct request *request, const char *command, unsigned allowed, char **words, int count)
{
    char **end = words + count;
    int plain = 0; /* whether a word "--" has ended the options */
    *request = (struct request){.words = words};
    for (char **at = words; at < end; at++) {
        if (!plain && strcmp(*at, "--") == 0)
            plain = 1;
        else if (plain || strncmp(*at, "--", 2) != 0)
            request->words[request->count++] = *at;
        else if (take_option(request, command, allowed, &at, end) != 0)
            return -1;
    }
    return 0;
}
