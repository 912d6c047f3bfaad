/*
 * Long runs of calls: the library against the plain C ledger of bench/plain.c. Each side has its own image and answer
 * buffer; number, whole image and whole answer are compared after every call. Most calls are sensible ones that carry
 * lots through all states, the others are wild: random bytes, fields out of range, wrong lengths, short answers, and
 * copies of the image with a field out of place or with what a lot holds elsewhere. A part of the calls goes in tables,
 * after each of which number, image and all answers are compared; some tables have lengths that are refused, some meet
 * those copies. Between the calls, and on those copies and others with many lots due, shortfalls are asked for: number
 * and figures are compared, and each figure with a count for its account alone. The library's buffers stand between
 * painted bytes or at a wall.
 *
 * longrun         all runs, then what was reached. The last line is 'N passed, M failed': N counts the calls, tables
 * and shortfalls that agree and what was reached, M the differences and what was never reached longrun first   ends at
 * the first difference
 */
#include "longrun.h"

#include <stdio.h>

static const struct plan plans[] = {
    {UINT64_C(0x9e3779b97f4a7c15), 16000, 24, 8, 40, 1, 0, 0},
    {UINT64_C(0xd1b54a32d192ed03), 16000, 40, 12, 30, 1, 0, 0},
    {UINT64_C(0x8cb92ba72f3d8dd7), 16000, CRZ_RECEIPT_COUNT, CRZ_ACCOUNT_COUNT, 12, 1, 1, 0},
    {UINT64_C(0xaef17502108ef2d9), 16000, 24, 6, 40, 29800, 0, 1},
    {UINT64_C(0x2545f4914f6cdd1d), 24000, 8, 3, 60, 1, 0, 0},
    {UINT64_C(0x5851f42d4c957f2d), 16000, 64, 24, 20, 1, 1, 0},
};

struct plan plan;

/* ── Made-up images ────────────────────────────────────────────────────────────────────────────── */

/* a call on an image that was changed: often a close or a step of the receipt concerned, else any call that the image
 * before had sense for */
static void meet_change(struct request *q, const uint8_t *image_before, uint64_t receipt)
{
    if (percent(30))
        close_phase(q, library.image);
    else if (receipt != 0 && percent(70))
        step_lot(q, library.image, receipt);
    else
        sensible_call(q, image_before);
}

struct making {
    uint64_t (*make)(uint8_t *image);
    void (*count)(const struct made *made);
};

static const struct making filled = {fill_to_limit, count_filled};
static const struct making stray = {stray_image, count_stray};
static const struct making damaged = {damage_image, count_damaged};
static const struct making misplaced = {misplace_held, count_misplaced};

/* both judge a made-up image; the run goes on with the one before */
static void judge_made_up(const struct making *making)
{
    static struct side saved_library, saved_plain;
    struct request q;
    struct made made;
    uint64_t receipt;
    saved_library = library;
    saved_plain = plain;
    receipt = making->make(library.image);
    memcpy(plain.image, library.image, sizeof plain.image);
    meet_change(&q, saved_library.image, receipt);
    made = compare(&q);
    made.sound = saved_library.image;
    making->count(&made);
    library = saved_library;
    plain = saved_plain;
}

/* the same with a table, whose calls are drawn for the image before; 14 does not ask for the image */
static void judge_by_table(const struct making *making)
{
    static struct side saved_library, saved_plain;
    struct table t;
    saved_library = library;
    saved_plain = plain;
    making->make(library.image);
    memcpy(plain.image, library.image, sizeof plain.image);
    if (percent(20))
        draw_bad_table(&t, saved_library.image);
    else
        draw_table(&t, saved_library.image);
    compare_table(&t);
    library = saved_library;
    plain = saved_plain;
}

/* the same with shortfalls */
static void judge_by_shortfalls(uint64_t (*make)(uint8_t *image))
{
    static struct side saved_library, saved_plain;
    struct question q;
    saved_library = library;
    saved_plain = plain;
    make(library.image);
    memcpy(plain.image, library.image, sizeof plain.image);
    draw_question(&q);
    compare_shortfalls(&q);
    library = saved_library;
    plain = saved_plain;
}

/* ── Runs ──────────────────────────────────────────────────────────────────────────────────────── */

/* premiums go from one end of their range to the other in four steps, lot by lot */
static void make(enum crz_kind kind, uint64_t account, uint64_t receipt, uint64_t amount)
{
    struct request q;
    ask_for(&q, kind, account, receipt, amount);
    if (kind == CRZ_KIND_REGISTER) {
        crz_put_i32(q.call + CRZ_CALL_BASIS, CRZ_PREMIUM_LEAST + CRZ_PREMIUM_MOST / 2 * (int32_t)(receipt % 5));
        crz_put_u32(q.call + CRZ_CALL_WEIGHT, 40000 + (uint32_t)receipt);
    }
    if (kind == CRZ_KIND_LIST || kind == CRZ_KIND_QUOTE)
        q.call[CRZ_CALL_CONTRACT] = 1;
    compare(&q);
}

/* pay-ins up to 10^15 */
static void fill_treasury(void)
{
    unsigned i;
    for (i = 0; i < 1001; i++)
        make(CRZ_KIND_PAY_IN, 1 + i % plan.accounts, 0, CRZ_AMOUNT_MOST);
}

/* the same kind of call for every receipt */
static void list_all(void)
{
    unsigned n;
    for (n = 1; n <= CRZ_RECEIPT_COUNT; n++)
        make(CRZ_KIND_LIST, 2, n, 0);
}

static void bid_for_all(void)
{
    unsigned n;
    for (n = 1; n <= CRZ_RECEIPT_COUNT; n++)
        make(CRZ_KIND_LIMIT_BID, 3 + n % (plan.accounts - 2), n, 15000 + 5 * (n % 3));
}

/* three lots of four, the last one too, so that it is settled and holds money */
static void lodge_most(void)
{
    unsigned n;
    for (n = 1; n <= CRZ_RECEIPT_COUNT; n++)
        if (n % 4 != 1)
            make(CRZ_KIND_LODGE, 2, n, 0);
}

static void close_day(void)
{
    make(CRZ_KIND_MORNING_CLOSE, 0, 0, 0);
    make(CRZ_KIND_DAY_CLOSE, 0, 0, 0);
}

static void register_and_pay_in(void)
{
    unsigned n;
    for (n = 1; n <= CRZ_RECEIPT_COUNT; n++) {
        make(CRZ_KIND_REGISTER, 2, n, 0);
        if (n <= plan.accounts)
            make(CRZ_KIND_PAY_IN, n, 0, 2000000000 + n * UINT64_C(400000000));
    }
}

/* all 128 receipts through a day close, a quote and a morning close, so that answers are full */
static void fill_book(void)
{
    register_and_pay_in();
    list_all();
    bid_for_all();
    lodge_most();
    close_day();
    list_all();
    bid_for_all();
    make(CRZ_KIND_QUOTE, 0, 0, 15000);
    lodge_most();
    close_day();
}

/* both sides start on a fresh zone; a later day is written into it */
static void start(void)
{
    random_start(plan.seed);
    memset(&library, 0xc3, sizeof library);
    memset(&plain, 0xc3, sizeof plain);
    if (crz_fresh(library.image, CRZ_IMAGE_LENGTH) != 0 || plain_fresh(plain.image, CRZ_IMAGE_LENGTH) != 0
        || memcmp(library.image, plain.image, sizeof plain.image) != 0) {
        printf("seed %llx: fresh images differ\n", (unsigned long long)plan.seed);
        differences++;
    }
    crz_put_u16(library.image + CRZ_IMAGE_DAY, plan.day);
    crz_put_u16(plain.image + CRZ_IMAGE_DAY, plan.day);
    if (plan.full_treasury)
        fill_treasury();
    if (plan.full_book)
        fill_book();
}

static void make_table(void)
{
    static const struct making *const makings[] = {&filled, &stray, &damaged, &misplaced};
    struct table t;
    uint64_t draw = below(100);
    if (draw < 15) {
        judge_by_table(makings[below(sizeof makings / sizeof makings[0])]);
        return;
    }
    if (draw < 30)
        draw_bad_table(&t, library.image);
    else
        draw_table(&t, library.image);
    compare_table(&t);
}

static void ask_shortfalls(void)
{
    static uint64_t (*const makings[])(uint8_t * image) = {fill_to_limit, stray_image, damage_image, misplace_held};
    struct question q;
    uint64_t draw = below(100);
    if (draw < 40)
        judge_by_shortfalls(due_image);
    else if (draw < 60)
        judge_by_shortfalls(makings[below(sizeof makings / sizeof makings[0])]);
    if (draw < 60)
        return;
    draw_question(&q);
    compare_shortfalls(&q);
}

static void make_any(void)
{
    struct request q;
    uint64_t draw = below(1000);
    if (draw < 5)
        judge_made_up(&filled);
    else if (draw < 20)
        judge_made_up(&stray);
    else if (draw < 120)
        judge_made_up(&damaged);
    else if (draw < 150)
        judge_made_up(&misplaced);
    else if (draw < 180)
        make_table();
    if (draw < 180)
        return;
    if (draw < 300)
        wild_call(&q, library.image);
    else
        sensible_call(&q, library.image);
    compare(&q);
}

static void run(void)
{
    unsigned i;
    start();
    for (i = 0; i < plan.calls; i++) {
        make_any();
        if (percent(6))
            ask_shortfalls();
    }
    printf("seed %016llx: %lu calls, %lu tables and %lu shortfalls so far, day %u, %lu differences\n",
        (unsigned long long)plan.seed, calls, tables, shortfalls, crz_get_day(library.image), differences);
}

int main(int argc, char **argv)
{
    unsigned long reached, unreached;
    size_t i;
    ends_at_first = argc == 2 && strcmp(argv[1], "first") == 0;
    for (i = 0; i < sizeof plans / sizeof plans[0]; i++) {
        plan = plans[i];
        run();
    }
    show_counts(&reached, &unreached);
    printf("%lu calls, %lu tables and %lu shortfalls compared, %lu differences; %lu counts reached, %lu not\n", calls,
        tables, shortfalls, differences, reached, unreached);
    printf("%lu passed, %lu failed\n", calls + tables + shortfalls - differences + reached, differences + unreached);
    return differences + unreached != 0;
}
