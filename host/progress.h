/* A line on standard error that shows how far a long piece of work is; nothing where that is no terminal. */
#ifndef PROGRESS_H
#define PROGRESS_H

#include <stdint.h>

struct progress {
    const char *what; /* NULL where nothing is shown */
    uint64_t total;
    double next; /* when to show the next line, in seconds */
};

struct progress progress_start(const char *what, uint64_t total);
void progress_show(struct progress *progress, uint64_t done);

/* Takes the line away, at the end or before a message. */
void progress_clear(void);

#endif
