#define _POSIX_C_SOURCE 200809L

#include "script.h"

#include <errno.h>
#include <limits.h>
#include <stdio.h>
#include <stdlib.h>
#include <string.h>

#include "report.h"
#include "words.h"

enum { LONGEST_LINE = 510, LONGEST_MESSAGE = 256 };

static int split(char *line, char **words)
{
    int count = 0;
    char *rest = NULL;
    for (char *word = strtok_r(line, " \t", &rest); word != NULL && count < MOST_WORDS;
         word = strtok_r(NULL, " \t", &rest))
        words[count++] = word;
    return count;
}

/* Room for one more call. */
static int grow(struct script *script)
{
    if (script->count < script->room)
        return 0;
    size_t room = script->room == 0 ? 64 : 2 * script->room;
    void *calls = realloc(script->calls, room * sizeof *script->calls);
    if (calls == NULL)
        return -1;
    script->calls = calls;
    script->room = room;
    return 0;
}

/* One line into the script. A remark or an empty line adds nothing. Returns -1 with a message where it is no call. */
static int add_line(struct script *script, char *line, char *message)
{
    char *words[MOST_WORDS];
    line[strcspn(line, "#")] = '\0';
    int count = split(line, words);
    if (count == 0)
        return 0;
    if (grow(script) != 0) {
        snprintf(message, LONGEST_MESSAGE, "no memory");
        return -1;
    }
    return call_from_words(script->calls[script->count++], words, count, message, LONGEST_MESSAGE);
}

/* Bytes of the next line without its end, of a longer line one past the longest; -1 where there is none. */
static int read_line(FILE *file, char line[LONGEST_LINE + 2])
{
    int length = 0, c = getc(file);
    if (c == EOF)
        return -1;
    for (; c != EOF && c != '\n'; c = getc(file))
        if (length <= LONGEST_LINE)
            line[length++] = (char)c;
    if (length > 0 && length <= LONGEST_LINE && line[length - 1] == '\r')
        length--;
    line[length] = '\0';
    return length;
}

/* Words end at a zero byte: what stands behind it would be lost. */
static int line_fits(const char *line, int length, char *message)
{
    if (length > LONGEST_LINE)
        snprintf(message, LONGEST_MESSAGE, "the line is longer than %d bytes", LONGEST_LINE);
    else if (strlen(line) != (size_t)length)
        snprintf(message, LONGEST_MESSAGE, "the line has a zero byte");
    else
        return 1;
    return 0;
}

/* Some editors put a byte order mark before UTF-8. A part of one, or one of UTF-16, tells that it is other text. */
static int skip_mark(FILE *file)
{
    int c = getc(file);
    if (c == 0xef)
        return getc(file) == 0xbb && getc(file) == 0xbf ? 0 : -1;
    if (c == 0xff || c == 0xfe)
        return -1;
    ungetc(c, file);
    return 0;
}

static int read_lines(struct script *script, FILE *file, const char *path)
{
    char line[LONGEST_LINE + 2], message[LONGEST_MESSAGE];
    int bad = 0, length = read_line(file, line);
    for (unsigned long number = 1; length >= 0; number++, length = read_line(file, line)) {
        if (line_fits(line, length, message) && add_line(script, line, message) == 0)
            continue;
        report(path, "line %lu: %s", number, message);
        if (bad < INT_MAX)
            bad++;
    }
    if (ferror(file))
        return report(path, "cannot be read: %s", strerror(errno));
    return bad;
}

static int read_file(struct script *script, FILE *file, const char *path)
{
    if (skip_mark(file) != 0)
        return report(path, "is not UTF-8 text; save it as UTF-8");
    return read_lines(script, file, path);
}

int script_read(struct script *script, const char *path)
{
    *script = (struct script){0};
    if (strcmp(path, "-") == 0)
        return read_file(script, stdin, "standard input");
    FILE *file = fopen(path, "r");
    if (file == NULL)
        return report(path, "cannot be opened: %s", strerror(errno));
    int bad = read_file(script, file, path);
    fclose(file);
    return bad;
}

void script_free(struct script *script)
{
    free(script->calls);
}
