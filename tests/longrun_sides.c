/* One call, one table of calls or one question for shortfalls, on both sides: the library and plain C. */
#include "longrun.h"
#include "lent.h"

#include <stdio.h>
#include <stdlib.h>

struct side library, plain;
unsigned long calls, tables, shortfalls, differences;
int ends_at_first;

/* answers of tables */
static uint8_t library_answers[ANSWERS_MOST], plain_answers[ANSWERS_MOST];

static uint8_t library_figures[FIGURES_MOST], plain_figures[FIGURES_MOST];

/* ── Differences ───────────────────────────────────────────────────────────────────────────────── */

static size_t agree_up_to(const uint8_t *one, const uint8_t *other, size_t length)
{
    size_t i = 0;
    while (i < length && one[i] == other[i])
        i++;
    return i;
}

static void show_bytes(const uint8_t *bytes, size_t count)
{
    size_t i;
    for (i = 0; i < count; i++)
        printf(" %02x", bytes[i]);
}

/* a call, a table or the library's figures; the first five are printed, each with how far images and answers agree */
static void show_difference(
    const char *what, const uint8_t *record, size_t record_len, const uint32_t *numbers, size_t answers_agree)
{
    if (++differences > 5)
        return;
    printf("seed %llx, call %lu: library %u, plain %u; %s of %lu bytes:", (unsigned long long)plan.seed,
        calls + tables + shortfalls, (unsigned)numbers[0], (unsigned)numbers[1], what, (unsigned long)record_len);
    show_bytes(record, record_len);
    printf("; images agree up to %lu, answers up to %lu\n",
        (unsigned long)agree_up_to(library.image, plain.image, sizeof library.image), (unsigned long)answers_agree);
    if (ends_at_first) {
        printf("0 passed, 1 failed\n");
        exit(1);
    }
}

/* ── Buffers of the library ────────────────────────────────────────────────────────────────────── */

/* an empty buffer has an address of its own or none */
static uint8_t *address(const struct lent *lent)
{
    return lent->len == 0 && percent(50) ? NULL : lent->bytes;
}

static enum lent_place some_place(void)
{
    return (enum lent_place)below(LENT_PLACES);
}

/* what the library is lent, and what becomes of it */
struct loan {
    const uint8_t *record;
    uint8_t *answers;
    size_t image_len, record_len, answers_len;
};

/* crz_call and crz_table have one form */
typedef uint32_t entry(
    uint8_t *image, size_t image_len, const uint8_t *record, size_t record_len, uint8_t *answers, size_t answers_len);

/* on buffers of its own; *kept becomes 0 where a byte around them or of the record has changed */
static uint32_t make_by_library(entry *make, const struct loan *loan, int *kept)
{
    static struct lent image, record, answers;
    uint8_t *image_at, *record_at, *answers_at;
    uint32_t number;
    lend_bytes(&image, some_place(), library.image, loan->image_len);
    lend_bytes(&record, some_place(), loan->record, loan->record_len);
    lend_bytes(&answers, some_place(), loan->answers, loan->answers_len);
    image_at = address(&image);
    record_at = address(&record);
    answers_at = address(&answers);
    number = make(image_at, image.len, record_at, record.len, answers_at, answers.len);
    *kept = lent_kept(&image) && lent_kept(&record) && lent_kept(&answers)
            && memcmp(record.bytes, loan->record, record.len) == 0;
    memcpy(library.image, image.bytes, image.len);
    memcpy(loan->answers, answers.bytes, answers.len);
    return number;
}

/* ── A call ────────────────────────────────────────────────────────────────────────────────────── */

/* agreement on a changed image after a refusal, or on bytes past the answer, would be wrong on both sides */
static int same_on_both(const struct side *before, uint32_t number)
{
    if (number != CRZ_NUMBER_ACCEPTED && memcmp(library.image, before->image, sizeof before->image) != 0)
        return 0;
    return memcmp(library.image, plain.image, sizeof library.image) == 0
           && memcmp(library.answer, plain.answer, sizeof library.answer) == 0
           && memcmp(library.answer + CRZ_ANSWER_LENGTH, before->answer + CRZ_ANSWER_LENGTH, SPARE) == 0;
}

struct made compare(const struct request *q)
{
    static struct side before;
    const struct loan loan = {q->call, library.answer, q->image_len, q->call_len, q->answer_len};
    struct made made = {q, 0, before.image, library.image, library.answer, NULL};
    uint8_t fill = (uint8_t)random_word();
    uint32_t numbers[2];
    int kept;
    memset(library.answer, fill, sizeof library.answer);
    memset(plain.answer, fill, sizeof plain.answer);
    before = library;
    numbers[0] = made.number = make_by_library(crz_call, &loan, &kept);
    numbers[1] = plain_call(plain.image, q->image_len, q->call, q->call_len, plain.answer, q->answer_len);
    calls++;
    if (numbers[0] != numbers[1] || !kept || !same_on_both(&before, made.number)) {
        show_difference(
            "call", q->call, q->call_len, numbers, agree_up_to(library.answer, plain.answer, sizeof library.answer));
        plain = library;
    }
    count_call(&made);
    return made;
}

/* ── A table ───────────────────────────────────────────────────────────────────────────────────── */

/* bytes past the last answer of a table that is taken, and all bytes of any other, are as they were */
static int same_after_table(const struct table *t, const uint8_t *image_before, uint8_t fill, uint32_t number)
{
    size_t answered = number == CRZ_NUMBER_ACCEPTED ? crz_answer_offset(t->calls_len / CRZ_CALL_LENGTH) : 0, i;
    if (number != CRZ_NUMBER_ACCEPTED && memcmp(library.image, image_before, sizeof library.image) != 0)
        return 0;
    for (i = answered; i < sizeof library_answers; i++)
        if (library_answers[i] != fill)
            return 0;
    return memcmp(library.image, plain.image, sizeof library.image) == 0
           && memcmp(library_answers, plain_answers, sizeof library_answers) == 0;
}

/* a call without bytes is 3 on a valid image and 2 on any other, and changes neither */
static int is_valid(const uint8_t *image, size_t image_len)
{
    static uint8_t copy[CRZ_IMAGE_LENGTH + SPARE], answer[CRZ_ANSWER_LENGTH];
    memcpy(copy, image, sizeof copy);
    return plain_call(copy, image_len, NULL, 0, answer, sizeof answer) == CRZ_NUMBER_BAD_CALL;
}

void compare_table(const struct table *t)
{
    static uint8_t before[CRZ_IMAGE_LENGTH + SPARE];
    const struct loan loan = {t->calls, library_answers, t->image_len, t->calls_len, t->answers_len};
    struct made_table made = {t, 0, library_answers, is_valid(library.image, t->image_len)};
    uint8_t fill = (uint8_t)random_word();
    uint32_t numbers[2];
    int kept;
    memset(library_answers, fill, sizeof library_answers);
    memset(plain_answers, fill, sizeof plain_answers);
    memcpy(before, library.image, sizeof before);
    numbers[0] = made.number = make_by_library(crz_table, &loan, &kept);
    numbers[1] = plain_table(plain.image, t->image_len, t->calls, t->calls_len, plain_answers, t->answers_len);
    tables++;
    if (numbers[0] != numbers[1] || !kept || !same_after_table(t, before, fill, made.number)) {
        show_difference("table", t->calls, t->calls_len, numbers,
            agree_up_to(library_answers, plain_answers, sizeof library_answers));
        plain = library;
    }
    count_table(&made);
}

/* ── Shortfalls ────────────────────────────────────────────────────────────────────────────────── */

/* on buffers of its own, the image only read; *kept becomes 0 where a byte of it or around them has changed */
static uint32_t ask_library(const struct question *q, int *kept)
{
    static struct lent image, figures;
    uint8_t *image_at, *figures_at;
    uint32_t number;
    lend_bytes(&image, some_place(), library.image, q->image_len);
    lend_bytes(&figures, some_place(), library_figures, q->figures_len);
    lend_for_reading(&image);
    image_at = address(&image);
    figures_at = address(&figures);
    number = crz_shortfalls(image_at, image.len, figures_at, figures.len);
    *kept = lent_kept(&image) && lent_kept(&figures) && memcmp(image.bytes, library.image, image.len) == 0;
    memcpy(library_figures, figures.bytes, figures.len);
    return number;
}

/* figures of accounts that a count for that account alone does not make */
static unsigned other_figures(void)
{
    uint32_t account;
    unsigned other = 0;
    for (account = 1; account <= CRZ_ACCOUNT_COUNT; account++)
        other += crz_get_figure(library_figures, account) != plain_shortfall_of(library.image, account);
    return other;
}

/* bytes past the figures, and all bytes where there are none, are as they were; plain C has its image still */
static int same_figures(uint8_t fill, uint32_t number)
{
    size_t i;
    for (i = number == CRZ_NUMBER_ACCEPTED ? CRZ_FIGURES_LENGTH : 0; i < sizeof library_figures; i++)
        if (library_figures[i] != fill)
            return 0;
    return memcmp(library_figures, plain_figures, sizeof library_figures) == 0
           && memcmp(library.image, plain.image, sizeof library.image) == 0
           && (number != CRZ_NUMBER_ACCEPTED || other_figures() == 0);
}

void compare_shortfalls(const struct question *q)
{
    struct made_figures made = {q, library.image, library_figures, 0, is_valid(library.image, q->image_len)};
    uint8_t fill = (uint8_t)random_word();
    uint32_t numbers[2];
    int kept;
    memset(library_figures, fill, sizeof library_figures);
    memset(plain_figures, fill, sizeof plain_figures);
    numbers[0] = made.number = ask_library(q, &kept);
    numbers[1] = plain_shortfalls(plain.image, q->image_len, plain_figures, q->figures_len);
    shortfalls++;
    if (numbers[0] != numbers[1] || !kept || !same_figures(fill, made.number)) {
        show_difference("figures", library_figures, q->figures_len, numbers,
            agree_up_to(library_figures, plain_figures, sizeof library_figures));
        plain = library;
    }
    count_figures(&made);
}
