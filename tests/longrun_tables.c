/* Tables of calls made at random: those that are taken, and those whose lengths are refused. */
#include "longrun.h"

/* a call for the image, which becomes the one that the call leaves; now and then a wild one */
static void draw_call(uint8_t *call, uint8_t *image)
{
    static uint8_t answer[CRZ_ANSWER_LENGTH];
    struct request q;
    if (percent(12))
        wild_call(&q, image);
    else
        sensible_call(&q, image);
    memcpy(call, q.call, CRZ_CALL_LENGTH);
    plain_call(image, CRZ_IMAGE_LENGTH, call, CRZ_CALL_LENGTH, answer, sizeof answer);
}

static void draw_calls(struct table *t, const uint8_t *image, size_t count)
{
    static uint8_t scratch[CRZ_IMAGE_LENGTH];
    size_t i;
    memset(t, 0, sizeof *t);
    memcpy(scratch, image, sizeof scratch);
    for (i = 0; i < count; i++)
        draw_call(t->calls + crz_call_offset(i), scratch);
    t->image_len = CRZ_IMAGE_LENGTH;
    t->calls_len = crz_call_offset(count);
    t->answers_len = crz_answer_offset(count);
}

/* the ends of the range more often than what lies between */
static size_t some_count(void)
{
    static const uint8_t ends[] = {0, 1, 2, CRZ_TABLE_COUNT - 1, CRZ_TABLE_COUNT};
    return percent(50) ? ends[below(sizeof ends)] : (size_t)between(3, CRZ_TABLE_COUNT - 2);
}

/* answers of more bytes than they need, in half of the tables, and now and then an image of another length */
void draw_table(struct table *t, const uint8_t *image)
{
    size_t more = percent(50) ? (size_t)below(SPARE) : CRZ_ANSWER_LENGTH;
    draw_calls(t, image, some_count());
    if (percent(50))
        t->answers_len += more;
    if (percent(4))
        t->image_len = percent(50) ? CRZ_IMAGE_LENGTH - 1 : CRZ_IMAGE_LENGTH + (size_t)between(1, SPARE);
}

/* a byte too few, an answer too few, eight bytes too few for each, or any; a table without calls needs none */
static void shorten_answers(struct table *t)
{
    size_t needed = t->answers_len, count = t->calls_len / CRZ_CALL_LENGTH;
    switch (needed == 0 ? 4 : below(4)) {
    case 0: t->answers_len = needed - 1; break;
    case 1: t->answers_len = needed - CRZ_ANSWER_LENGTH; break;
    case 2: t->answers_len = needed - CRZ_ENTRY_LENGTH * count; break;
    case 3: t->answers_len = (size_t)below(needed); break;
    default: break;
    }
}

void draw_bad_table(struct table *t, const uint8_t *image)
{
    enum { CALLS_TOO_MANY, PART_OF_A_CALL, ANSWERS_TOO_SHORT, FAULTS };
    uint64_t fault = below(FAULTS);
    size_t count = some_count();
    if (fault == CALLS_TOO_MANY)
        count = (size_t)between(CRZ_TABLE_COUNT + 1, MOST_CALLS);
    else if (fault == ANSWERS_TOO_SHORT && count == 0)
        count = 1;
    draw_calls(t, image, count);
    if (fault == PART_OF_A_CALL) {
        t->calls_len += (size_t)between(1, CRZ_CALL_LENGTH - 1);
        t->answers_len += CRZ_ANSWER_LENGTH;
    }
    if (fault == ANSWERS_TOO_SHORT || percent(15))
        shorten_answers(t);
}
