/*
 * What the parts of the long run share: random numbers, the plan of a run, calls, tables and images made at random, one
 * call, table or shortfalls on both sides, and the counts of what was reached.
 */
#ifndef LONGRUN_H
#define LONGRUN_H

#include "../include/crz_records.h"

/* ── Random numbers ────────────────────────────────────────────────────────────────────────────── */

/* C leaves the order of operands open: no expression draws twice without a fixed order, so a seed means one run under
 * every compiler */
void random_start(uint64_t seed);
uint64_t random_word(void);
uint64_t below(uint64_t n); /* 0 to n - 1 */
uint64_t between(uint64_t low, uint64_t high);
int percent(unsigned n);

/* ── Plans ─────────────────────────────────────────────────────────────────────────────────────── */

/* one run; closes are per thousand calls */
struct plan {
    uint64_t seed;
    unsigned calls, receipts, accounts, closes;
    uint16_t day;
    int full_book, full_treasury;
};

extern struct plan plan;

/* ── Calls (longrun_calls.c) ───────────────────────────────────────────────────────────────────── */

enum { SPARE = 64 };

struct request {
    uint8_t call[CRZ_CALL_LENGTH + SPARE];
    size_t image_len, call_len, answer_len;
};

/* a call with all buffers of their named lengths */
void ask_for(struct request *q, enum crz_kind kind, uint64_t account, uint64_t receipt, uint64_t amount);

/* a call that takes the lot one step on, or leaves it to the closes and moves its parties' money */
void step_lot(struct request *q, const uint8_t *image, uint64_t number);
void close_phase(struct request *q, const uint8_t *image);
void sensible_call(struct request *q, const uint8_t *image);

/* a sensible call with bytes, a field or a length out of place */
void wild_call(struct request *q, const uint8_t *image);

uint64_t some_account(void);

/* a value from the edges of all ranges */
uint64_t edge_value(void);

/* ── Tables of calls (longrun_tables.c) ────────────────────────────────────────────────────────── */

enum { MOST_CALLS = CRZ_TABLE_COUNT + 4, ANSWERS_MOST = (MOST_CALLS + 2) * CRZ_ANSWER_LENGTH };

struct table {
    uint8_t calls[(MOST_CALLS + 1) * CRZ_CALL_LENGTH];
    size_t image_len, calls_len, answers_len;
};

/* a table that is taken; each of its calls is drawn for the image that those before it leave */
void draw_table(struct table *t, const uint8_t *image);

/* a table that is not: too many calls, a part of a call, answers that are too short, or two of these */
void draw_bad_table(struct table *t, const uint8_t *image);

/* ── Images (longrun_images.c) ─────────────────────────────────────────────────────────────────── */

/* Each changes a valid image and returns the receipt that it concerns, 0 for none. */

/* puts a field or a bit out of place; what is paid of a trade may follow the field */
uint64_t damage_image(uint8_t *image);

/* a bid that stands at the ask or beside it, or a lot that is overdue: valid, though no run of calls leads there */
uint64_t stray_image(uint8_t *image);

/* gives an account so much that the total lies at its limit or one fen beside it */
uint64_t fill_to_limit(uint8_t *image);

/* makes lots of the states that a morning close works, due at any time, many of them near the deposit in price, and
 * gives their parties just the money for them or nearly; it is then mostly morning */
uint64_t due_image(uint8_t *image);

/* puts what a lot holds elsewhere, the total still agreeing; leaves the image where no lot holds anything */
uint64_t misplace_held(uint8_t *image);

/* from its buyer's frozen money to that of its seller or of the account before the buyer (96 before 1), or to the
 * buyer's free money */
enum held_to { TO_SELLER, TO_ACCOUNT_BEFORE, TO_FREE, HELD_PLACES };
void move_held(uint8_t *image, uint32_t lot, enum held_to to);

/* ── Both sides (longrun_sides.c) ──────────────────────────────────────────────────────────────── */

/* the buffers of one side; bytes past the lengths lent are compared too */
struct side {
    uint8_t image[CRZ_IMAGE_LENGTH + SPARE];
    uint8_t answer[CRZ_ANSWER_LENGTH + SPARE];
};

extern struct side library, plain;

/* calls, tables and shortfalls made on both sides, and how many of them went differently */
extern unsigned long calls, tables, shortfalls, differences;
extern int ends_at_first;

uint32_t plain_fresh(uint8_t *image, size_t image_len);
uint32_t plain_call(
    uint8_t *image, size_t image_len, const uint8_t *call, size_t call_len, uint8_t *answer, size_t answer_len);
uint32_t plain_table(
    uint8_t *image, size_t image_len, const uint8_t *calls, size_t calls_len, uint8_t *answers, size_t answers_len);
uint32_t plain_shortfalls(const uint8_t *image, size_t image_len, uint8_t *figures, size_t figures_len);
uint64_t plain_shortfall_of(const uint8_t *image, uint32_t account);

/* a call, what it returned, and images and answer around it; of a made-up image, also the one that it was made from */
struct made {
    const struct request *request;
    uint32_t number;
    const uint8_t *before, *after, *answer, *sound;
};

struct made compare(const struct request *q);
void compare_table(const struct table *t);

/* lengths of the buffers that shortfalls are asked for with */
enum { FIGURES_MOST = CRZ_FIGURES_LENGTH + 4 * SPARE };
struct question {
    size_t image_len, figures_len;
};

void compare_shortfalls(const struct question *q);

/* ── Counts (longrun_counts.c) ─────────────────────────────────────────────────────────────────── */

void count_call(const struct made *made);

/* a table, what it returned, its answers, and whether the image before it was valid */
struct made_table {
    const struct table *table;
    uint32_t number;
    const uint8_t *answers;
    int valid;
};

void count_table(const struct made_table *made);

/* what was said of the four kinds of images */
void count_damaged(const struct made *made);
void count_stray(const struct made *made);
void count_filled(const struct made *made);
void count_misplaced(const struct made *made);

/* a count for each mark, '+' for what can occur */
void show_row(const char *name, const unsigned long *counts, const char *marks);

/* ── Shortfalls (longrun_figures.c) ────────────────────────────────────────────────────────────── */

void draw_question(struct question *q);

/* an image, whether it is valid, and what was returned and written for it */
struct made_figures {
    const struct question *question;
    const uint8_t *image, *figures;
    uint32_t number;
    int valid;
};

void count_figures(const struct made_figures *made);
void show_figures(void);

/* ── All counts (longrun_counts.c) ─────────────────────────────────────────────────────────────── */

/* prints the counts; adds up what was reached, and what was not although it can be */
void show_counts(unsigned long *reached, unsigned long *unreached);

#endif
