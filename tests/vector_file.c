#include "vector_file.h"

#include <stdio.h>
#include <string.h>

#include "../include/crz_records.h"

enum { LINE_MOST = 1 << 18, NAME_MOST = 256 };

static const char letters[STEP_KINDS + 1] = "ZPLCTS";

/* a file while it is read */
struct reader {
    FILE *file;
    const char *path;
    unsigned long line_number;
    unsigned long counts[STEP_KINDS];
    int zone; /* whether there is an image yet */
    const char *fault;
    char line[LINE_MOST];
};

static struct reader reader;
static struct vector_step step;

/* ── Words of a line: each is taken from the front of the text; 0 where another one stands there ─── */

static int take(const char **text, const char *word)
{
    size_t n = strlen(word);
    if (strncmp(*text, word, n) != 0)
        return 0;
    *text += n;
    return 1;
}

static int take_end(const char **text)
{
    return take(text, "\n") && **text == '\0';
}

/* a decimal number up to VECTOR_MOST */
static int take_number(const char **text, size_t *number)
{
    size_t digits = 0;
    *number = 0;
    for (; **text >= '0' && **text <= '9' && *number <= VECTOR_MOST; ++*text, digits++)
        *number = *number * 10 + (size_t)(**text - '0');
    return digits > 0 && *number <= VECTOR_MOST;
}

/* a decimal number that 64 bits hold */
static int take_figure(const char **text, uint64_t *figure)
{
    size_t digits = 0;
    *figure = 0;
    for (; **text >= '0' && **text <= '9'; ++*text, digits++) {
        uint64_t digit = (uint64_t)(**text - '0');
        if (*figure > (UINT64_MAX - digit) / 10)
            return 0;
        *figure = *figure * 10 + digit;
    }
    return digits > 0;
}

static int hex_digit(char c)
{
    static const char digits[] = "0123456789abcdef";
    const char *found = c == '\0' ? NULL : strchr(digits, c);
    return found == NULL ? -1 : (int)(found - digits);
}

static int take_byte(const char **text, uint8_t *value)
{
    int high = hex_digit(**text), low = high < 0 ? -1 : hex_digit((*text)[1]);
    if (low < 0)
        return 0;
    *value = (uint8_t)(high * 16 + low);
    *text += 2;
    return 1;
}

/* at least one byte, and no more than fit */
static int take_bytes(const char **text, uint8_t *bytes, size_t most, size_t *count)
{
    *count = 0;
    while (*count < most && take_byte(text, &bytes[*count]))
        ++*count;
    return *count > 0;
}

/* a run o:hex inside the image */
static int take_run(const char **text, struct patch *patch, size_t image_len)
{
    size_t offset, first = patch->count;
    if (!take_number(text, &offset) || !take(text, ":"))
        return 0;
    for (; patch->count < VECTOR_MOST && offset < image_len && take_byte(text, &patch->bytes[patch->count].value);
         offset++)
        patch->bytes[patch->count++].offset = offset;
    return patch->count > first;
}

static int take_patch(const char **text, struct patch *patch, size_t image_len)
{
    int good = take_run(text, patch, image_len);
    while (good && take(text, " "))
        good = take_run(text, patch, image_len);
    return good;
}

/* ── Lines ─────────────────────────────────────────────────────────────────────────────────────── */

/* 0 at the end of the file; a line that is too long or cut off is a fault */
static int read_line(void)
{
    if (fgets(reader.line, sizeof reader.line, reader.file) == NULL)
        return 0;
    reader.line_number++;
    if (strchr(reader.line, '\n') == NULL)
        reader.fault = "the line does not end";
    return 1;
}

/* the text behind the letter of the line that must stand here */
static const char *read_behind(const char *letter)
{
    const char *text = reader.line;
    if (!read_line() || !take(&text, letter))
        return "";
    return text;
}

static int read_number(void)
{
    const char *text = read_behind("R ");
    size_t number;
    int good = take_number(&text, &number) && take_end(&text);
    step.number = (uint32_t)number;
    return good;
}

/* an answer that has this place in the buffer, counted from 0 */
static int take_answer(const char **text, size_t place)
{
    uint8_t *answer = step.answer + place * CRZ_ANSWER_LENGTH;
    size_t count;
    if (step.answer_len < (place + 1) * CRZ_ANSWER_LENGTH || (place > 0 && !take(text, " ")))
        return 0;
    memset(answer, 0, CRZ_ANSWER_LENGTH);
    return take_bytes(text, answer, CRZ_ANSWER_LENGTH, &count);
}

/* one answer, or one for each call of a table */
static int read_answers(void)
{
    const char *text = read_behind("A ");
    size_t count = step.kind == STEP_TABLE ? step.call_len / CRZ_CALL_LENGTH : 1, i = 0;
    memset(step.answer, VECTOR_FILL, step.answer_len);
    if (take(&text, "-"))
        return take_end(&text);
    while (i < count && take_answer(&text, i))
        i++;
    return i > 0 && i == count && take_end(&text);
}

static int read_change(void)
{
    const char *text = read_behind("I ");
    return (take(&text, "same") || take_patch(&text, &step.patch, step.image_len)) && take_end(&text);
}

/* the figure that has this place in the buffer, counted from 0 */
static int place_figure(const char **text, size_t place)
{
    uint64_t figure;
    if (step.answer_len < (place + 1) * CRZ_FIGURE_LENGTH || (place > 0 && !take(text, " "))
        || !take_figure(text, &figure))
        return 0;
    crz_put_u64(step.answer + place * CRZ_FIGURE_LENGTH, figure);
    return 1;
}

static int read_figures(void)
{
    const char *text = read_behind("F ");
    size_t i = 0;
    memset(step.answer, VECTOR_FILL, step.answer_len);
    if (take(&text, "-"))
        return take_end(&text);
    while (i < CRZ_ACCOUNT_COUNT && place_figure(&text, i))
        i++;
    return i == CRZ_ACCOUNT_COUNT && take_end(&text);
}

/* shortfalls have no record */
static int read_shortfalls(const char *text)
{
    step.kind = STEP_SHORTFALLS;
    step.call_len = 0;
    return take_number(&text, &step.answer_len) && take_end(&text) && read_number() && read_figures();
}

/* a call or a table */
static int read_call(const char *text)
{
    step.call_len = 0;
    if (!take(&text, "-") && !take_bytes(&text, step.call, VECTOR_MOST, &step.call_len))
        return 0;
    if (!take(&text, " ") || !take_number(&text, &step.answer_len) || !take_end(&text))
        return 0;
    return read_number() && read_answers() && read_change();
}

/* the step that the line begins, with the lines behind it */
static int read_step(void)
{
    const char *text = reader.line;
    step.patch.count = 0;
    if (take(&text, "Z")) {
        step.kind = STEP_FRESH;
        step.image_len = CRZ_IMAGE_LENGTH;
        reader.zone = 1;
        return take_end(&text);
    }
    if (take(&text, "P ")) {
        step.kind = STEP_PATCH;
        return take_patch(&text, &step.patch, step.image_len) && take_end(&text);
    }
    if (take(&text, "L ")) {
        step.kind = STEP_LENGTH;
        return take_number(&text, &step.image_len) && take_end(&text);
    }
    if (take(&text, "S "))
        return read_shortfalls(text);
    step.kind = reader.line[0] == 'T' ? STEP_TABLE : STEP_CALL;
    return take(&text, step.kind == STEP_TABLE ? "T " : "C ") && read_call(text);
}

/* 0 at the end of the file and at its first fault */
static int next_step(void)
{
    int more;
    do
        more = read_line();
    while (more && reader.line[0] == '#' && reader.fault == NULL);
    if (!more || reader.fault != NULL)
        return 0;
    if (!reader.zone && reader.line[0] != 'Z')
        reader.fault = "there is no image yet";
    else if (!read_step() && reader.fault == NULL)
        reader.fault = "the line is none that may stand here, or is malformed";
    if (reader.fault != NULL)
        return 0;
    reader.counts[step.kind]++;
    return 1;
}

void patch_image(const struct patch *patch, uint8_t *image)
{
    size_t i;
    for (i = 0; i < patch->count; i++)
        image[patch->bytes[i].offset] = patch->bytes[i].value;
}

/* ── Files ─────────────────────────────────────────────────────────────────────────────────────── */

static void make_step(step_test *test, struct tally *tally)
{
    int good = test(&step);
    if (good && (step.kind == STEP_CALL || step.kind == STEP_TABLE || step.kind == STEP_SHORTFALLS))
        tally->passed++;
    if (!good && tally->failed++ < 5)
        printf("%s:%lu: the step that ends here differs\n", reader.path, reader.line_number);
}

/* the file as a whole: without a fault, and with as many lines as the list says */
static void hold_file(const unsigned long *wanted, struct tally *tally)
{
    int kind;
    if (reader.fault != NULL) {
        printf("%s:%lu: %s\n", reader.path, reader.line_number, reader.fault);
        tally->failed++;
        return;
    }
    for (kind = 0; kind < STEP_KINDS; kind++)
        if (reader.counts[kind] != wanted[kind]) {
            printf(
                "%s: %lu lines %c, the list has %lu\n", reader.path, reader.counts[kind], letters[kind], wanted[kind]);
            tally->failed++;
        }
}

static void walk_file(const char *path, const unsigned long *wanted, step_test *test, struct tally *tally)
{
    struct tally own = {0, 0};
    memset(&reader, 0, sizeof reader);
    memset(&step, 0, sizeof step);
    reader.path = path;
    reader.file = fopen(path, "r");
    if (reader.file == NULL) {
        printf("%s: cannot be read\n", path);
        tally->failed++;
        return;
    }
    while (next_step())
        make_step(test, &own);
    if (ferror(reader.file))
        reader.fault = "the file cannot be read";
    fclose(reader.file);
    hold_file(wanted, &own);
    printf("%s: %lu calls, tables and shortfalls agree, %lu differ\n", path, own.passed, own.failed);
    tally->passed += own.passed;
    tally->failed += own.failed;
}

/* ── The list ──────────────────────────────────────────────────────────────────────────────────── */

/* a name and the count of each kind of line, in the order of `letters` */
static int read_entry(const char *line, char *name, unsigned long *counts)
{
    char more;
    int found = sscanf(line, "%255s %lu %lu %lu %lu %lu %lu %c", name, &counts[0], &counts[1], &counts[2], &counts[3],
        &counts[4], &counts[5], &more);
    return found == 1 + STEP_KINDS;
}

/* a name's path in the folder of the list */
static void path_beside(const char *list, const char *name, char *path, size_t size)
{
    const char *slash = strrchr(list, '/');
    int folder = slash == NULL ? 0 : (int)(slash - list) + 1;
    snprintf(path, size, "%.*s%s", folder, list, name);
}

void walk_vectors(const char *list, const char *beginning, step_test *test, struct tally *tally)
{
    char line[2 * NAME_MOST], name[NAME_MOST], path[8 * NAME_MOST];
    unsigned long counts[STEP_KINDS], files = 0;
    FILE *file = fopen(list, "r");
    while (file != NULL && fgets(line, sizeof line, file) != NULL) {
        if (line[0] == '#')
            continue;
        if (!read_entry(line, name, counts)) {
            printf("%s: not a name with the counts of %s: %s", list, letters, line);
            tally->failed++;
        } else if (strncmp(name, beginning, strlen(beginning)) == 0) {
            path_beside(list, name, path, sizeof path);
            walk_file(path, counts, test, tally);
            files++;
        }
    }
    if (files == 0) {
        printf("%s: names no file that begins with '%s'\n", list, beginning);
        tally->failed++;
    }
    if (file != NULL)
        fclose(file);
}

int show_tally(const struct tally *tally)
{
    printf("%lu passed, %lu failed\n", tally->passed, tally->failed);
    return tally->failed != 0;
}
