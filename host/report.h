/* What the program ends with, and its messages on standard error. */
#ifndef REPORT_H
#define REPORT_H

enum status {
    STATUS_ACCEPTED = 0,
    STATUS_REFUSED = 1,
    STATUS_BAD_WORDS = 2,
    STATUS_NOTHING_DONE = 3, /* file, format, lock or disk */
    STATUS_NOT_SHOWN = 4     /* a call was made, or may have been, and its answer was not shown */
};

#ifdef __GNUC__
#define REPORT_FORMAT(text, first) __attribute__((format(printf, text, first)))
#else
#define REPORT_FORMAT(text, first)
#endif

/* Prints "crz: FILE: message", without the file where it is NULL. Returns -1, for a caller that ends with it. */
int report(const char *file, const char *format, ...) REPORT_FORMAT(2, 3);

struct quoted {
    char text[64];
};

/* A user's word for a message: in quotes, a long one cut, and nothing in it that a terminal would obey. */
struct quoted quoted(const char *word);

#endif
