/* What the program says about itself. */
#ifndef HELP_H
#define HELP_H

#include <stdio.h>

void print_usage(FILE *to);
void print_version(void);

/* Of a command or a kind of call, NULL for the whole program. */
void print_help(const char *word);

#endif
