#include "report.h"

#include <stdarg.h>
#include <stdio.h>

#include "progress.h"

int report(const char *file, const char *format, ...)
{
    va_list values;
    fflush(stdout); /* answers shown so far come first where both go to one place */
    progress_clear();
    fputs("crz: ", stderr);
    if (file != NULL)
        fprintf(stderr, "%s: ", file[0] == '\0' ? "''" : file);
    va_start(values, format);
    vfprintf(stderr, format, values);
    va_end(values);
    fputc('\n', stderr);
    return -1;
}

struct quoted quoted(const char *word)
{
    enum { MOST = 48 };
    struct quoted q = {"'"};
    size_t length = 0;
    for (; length < MOST && word[length] != '\0'; length++) {
        unsigned char c = (unsigned char)word[length];
        q.text[1 + length] = (char)(c < 0x20 || c == 0x7f ? '?' : c);
    }
    snprintf(q.text + 1 + length, sizeof q.text - 1 - length, "%s'", word[length] == '\0' ? "" : "..");
    return q;
}
