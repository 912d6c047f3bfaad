/* Scripts: a call in words on each line; # begins a remark. */
#ifndef SCRIPT_H
#define SCRIPT_H

#include "../include/crz.h"

struct script {
    uint8_t (*calls)[CRZ_CALL_LENGTH];
    size_t count;
    size_t room;
};

/*
 * Reads the whole script, "-" from standard input, and reports every line that is no call. Returns 0, the count of
 * bad lines, or -1 where it cannot be read.
 */
int script_read(struct script *script, const char *path);
void script_free(struct script *script);

#endif
