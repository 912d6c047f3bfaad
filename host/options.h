/* The words of a command line: its command, options and other words. */
#ifndef OPTIONS_H
#define OPTIONS_H

#include "zone.h"

enum option {
    OPTION_JSON,
    OPTION_STOP,
    OPTION_TABLE,
    OPTION_HEAD,
    OPTION_WAIT,
    OPTION_EXPECT,
    OPTION_ACCOUNT,
    OPTION_LOT,
    OPTION_LAST,
    OPTION_HELP,
    OPTION_VERSION,
    OPTIONS
};

enum { WAIT_SECONDS = 10 }; /* where --wait is not given */

struct request {
    unsigned given;            /* a bit for each option */
    uint64_t numbers[OPTIONS]; /* the values of options that take one */
    char **words;              /* what is no option, without the command's own name */
    int count;
};

/* Takes the options out of the words. Returns 0, or -1 after a message; `allowed` has a bit for each option. */
int options_read(struct request *request, const char *command, unsigned allowed, char **words, int count);

int option_given(const struct request *request, enum option option);
unsigned option_wait(const struct request *request);
struct expect option_expect(const struct request *request);

#endif
