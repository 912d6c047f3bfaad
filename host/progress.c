#define _POSIX_C_SOURCE 200809L

#include "progress.h"

#include <stdio.h>
#include <time.h>
#include <unistd.h>

#include "digits.h"

static int on_screen;

static double now(void)
{
    struct timespec t = {0};
    clock_gettime(CLOCK_MONOTONIC, &t);
    return (double)t.tv_sec + (double)t.tv_nsec / 1e9;
}

struct progress progress_start(const char *what, uint64_t total)
{
    return (struct progress){isatty(STDERR_FILENO) ? what : NULL, total, now() + 1};
}

void progress_show(struct progress *progress, uint64_t done)
{
    if (progress->what == NULL || now() < progress->next)
        return;
    progress->next = now() + 0.2;
    on_screen = 1;
    fprintf(stderr, "\r%s: %s of %s calls ", progress->what, grouped(done).text, grouped(progress->total).text);
}

void progress_clear(void)
{
    if (on_screen)
        fprintf(stderr, "\r%*s\r", 72, "");
    on_screen = 0;
}
