/*
 * The history table beside the runs of the vectors: fed with call records and answers alone, and after every call, or
 * table of calls, held against the image. A table's calls are fed one by one, each with its own answer, which tells
 * whether it was accepted; one that was not made feeds nothing. Shortfalls feed nothing either, and the four sentences
 * hold after them as before. Usage: history LIST. The last line is 'N passed, M failed'; a call, a table or shortfalls
 * with the four sentences count once.
 */
#include "../host/history.h"
#include "../include/crz_records.h"
#include "vector_file.h"

#include <stdio.h>
#include <string.h>

static struct history history;
static uint8_t image[CRZ_IMAGE_LENGTH], answer[VECTOR_MOST];

static int start(void)
{
    history_start(&history);
    return crz_fresh(image, sizeof image) == CRZ_NUMBER_ACCEPTED;
}

/* the calls of a table, up to the first finding */
static struct finding feed_table(struct history *into, const uint8_t *calls, size_t count, const uint8_t *answers)
{
    struct finding finding = {SENTENCE_NONE, 0};
    size_t i;
    for (i = 0; i < count && finding.sentence == SENTENCE_NONE; i++)
        if (answers[crz_answer_offset(i) + CRZ_ANSWER_NUMBER] == CRZ_NUMBER_ACCEPTED)
            finding = history_feed(into, calls + crz_call_offset(i), answers + crz_answer_offset(i));
    return finding;
}

/* whether all four sentences hold after what was made */
static int holds(struct finding finding)
{
    if (finding.sentence == SENTENCE_NONE)
        finding = history_hold(&history, image);
    return finding.sentence == SENTENCE_NONE;
}

/* crz_call and crz_table have one form */
typedef uint32_t entry(
    uint8_t *image, size_t image_len, const uint8_t *calls, size_t calls_len, uint8_t *answers, size_t answers_len);

/* what was accepted: a call by the number that it returned, a table by that and by the number in each answer */
static struct finding feed(const struct vector_step *step)
{
    if (step->kind == STEP_CALL)
        return history_feed(&history, step->call, answer);
    return feed_table(&history, step->call, step->call_len / CRZ_CALL_LENGTH, answer);
}

/* whether the entry answers as the vectors say and leaves what the history says */
static int step_holds(const struct vector_step *step, entry *made)
{
    struct finding finding = {SENTENCE_NONE, 0};
    uint32_t number;
    memset(answer, VECTOR_FILL, step->answer_len);
    number = made(image, sizeof image, step->call, step->call_len, answer, step->answer_len);
    if (number == CRZ_NUMBER_ACCEPTED)
        finding = feed(step);
    return number == step->number && holds(finding);
}

/* whether shortfalls have the number that the vectors say, and leave an image that the history still fits */
static int shortfalls_hold(const struct vector_step *step)
{
    const struct finding none = {SENTENCE_NONE, 0};
    uint32_t number = crz_shortfalls(image, sizeof image, answer, step->answer_len);
    return number == step->number && holds(none);
}

/* the table knows an image only from its fresh start on */
static int make(const struct vector_step *step)
{
    switch (step->kind) {
    case STEP_FRESH: return start();
    case STEP_CALL: return step_holds(step, crz_call);
    case STEP_TABLE: return step_holds(step, crz_table);
    case STEP_SHORTFALLS: return shortfalls_hold(step);
    default: return 0;
    }
}

/* a table fed with something else than what was made must not hold */
static void count_wrong(struct tally *tally)
{
    static struct history wrong;
    static const size_t places[] = {CRZ_CALL_AMOUNT, CRZ_CALL_ACCOUNT};
    uint8_t call[CRZ_CALL_LENGTH] = {0};
    size_t i;
    start();
    call[CRZ_CALL_KIND] = CRZ_KIND_PAY_IN;
    call[CRZ_CALL_ACCOUNT] = 3;
    call[CRZ_CALL_AMOUNT] = 7;
    crz_call(image, sizeof image, call, sizeof call, answer, CRZ_ANSWER_LENGTH);
    for (i = 0; i < sizeof places / sizeof places[0]; i++) {
        history_start(&wrong);
        call[places[i]]++;
        history_feed(&wrong, call, answer);
        call[places[i]]--;
        ++*(history_hold(&wrong, image).sentence == SENTENCE_BOOKS ? &tally->passed : &tally->failed);
    }
}

/* whether a history that was fed with so many calls of a table holds */
static void count_fed(struct tally *tally, const uint8_t *calls, size_t count, enum sentence wanted)
{
    static struct history fed;
    history_start(&fed);
    feed_table(&fed, calls, count, answer);
    ++*(history_hold(&fed, image).sentence == wanted ? &tally->passed : &tally->failed);
}

/* the second call is refused and tells nothing */
static void count_tables(struct tally *tally)
{
    uint8_t calls[3 * CRZ_CALL_LENGTH];
    start();
    crz_put_pay_in(calls, 3, 7);
    crz_put_take_out(calls + crz_call_offset(1), 4, 1);
    crz_put_take_out(calls + crz_call_offset(2), 3, 2);
    crz_table(image, sizeof image, calls, sizeof calls, answer, crz_answer_offset(3));
    count_fed(tally, calls, 3, SENTENCE_NONE);
    count_fed(tally, calls, 2, SENTENCE_BOOKS);
    crz_put_pay_in(calls + crz_call_offset(2), 3, 2);
    count_fed(tally, calls, 3, SENTENCE_BOOKS);
}

int main(int argc, char **argv)
{
    struct tally tally = {0, 0};
    if (argc != 2) {
        fprintf(stderr, "usage: history LIST\n");
        return 2;
    }
    walk_vectors(argv[1], "run-", make, &tally);
    count_wrong(&tally);
    count_tables(&tally);
    return show_tally(&tally);
}
