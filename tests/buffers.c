/*
 * Buffers of the named lengths and those beside them in every combination, between painted bytes, ending at a
 * wall and starting at one, and a length of 0 also at a null pointer: what is returned, what is written, and that no
 * byte outside a buffer is touched. The last line is 'N passed, M failed'.
 */
#include "../include/crz.h"
#include "lent.h"

#include <stdio.h>
#include <string.h>

enum { FILL = 0xa5, PAID_IN = 7 };

/* lengths of a call's three buffers; figures take the place of an answer */
struct lengths {
    size_t image, call, answer;
};

static struct lent image, call, answer;
static uint8_t image_before[LENT_MOST], call_before[LENT_MOST];
static unsigned long passed, failed;

static void expect(int good, const char *what, enum lent_place place, const struct lengths *of)
{
    if (good) {
        passed++;
        return;
    }
    failed++;
    printf("failed: %s (place %d, lengths %lu, %lu, %lu)\n", what, (int)place, (unsigned long)of->image,
        (unsigned long)of->call, (unsigned long)of->answer);
}

static int all(const uint8_t *bytes, size_t count, uint8_t value)
{
    while (count-- > 0)
        if (*bytes++ != value)
            return 0;
    return 1;
}

static uint32_t number_of(const struct lengths *of)
{
    if (of->answer < CRZ_ANSWER_LENGTH)
        return CRZ_NUMBER_SHORT_ANSWER;
    if (of->image != CRZ_IMAGE_LENGTH)
        return CRZ_NUMBER_BAD_IMAGE;
    return of->call == CRZ_CALL_LENGTH ? CRZ_NUMBER_ACCEPTED : CRZ_NUMBER_BAD_CALL;
}

/* a fresh image and a pay-in for account 1, cut, or lengthened with zeros */
static void lend_all(enum lent_place place, const struct lengths *of)
{
    memset(image_before, 0, sizeof image_before);
    memset(call_before, 0, sizeof call_before);
    crz_fresh(image_before, CRZ_IMAGE_LENGTH);
    call_before[CRZ_CALL_KIND] = CRZ_KIND_PAY_IN;
    call_before[CRZ_CALL_ACCOUNT] = 1;
    call_before[CRZ_CALL_AMOUNT] = PAID_IN;
    lend_bytes(&image, place, image_before, of->image);
    lend_bytes(&call, place, call_before, of->call);
    lend_filled(&answer, place, FILL, of->answer);
}

/* with `null`, a buffer without bytes is a null pointer */
static uint32_t make_call(int null)
{
    return crz_call(null && image.len == 0 ? NULL : image.bytes, image.len, null && call.len == 0 ? NULL : call.bytes,
        call.len, null && answer.len == 0 ? NULL : answer.bytes, answer.len);
}

/* the total in both, and no entry */
static int paid_in(void)
{
    return image.bytes[CRZ_IMAGE_TOTAL] == PAID_IN && answer.bytes[CRZ_ANSWER_TOTAL] == PAID_IN
           && all(answer.bytes + CRZ_ANSWER_ENTRIES, CRZ_ANSWER_LENGTH - CRZ_ANSWER_ENTRIES, 0);
}

/* what a call of this number leaves in the bytes that an answer has */
static int answered(uint32_t number)
{
    if (number == CRZ_NUMBER_SHORT_ANSWER)
        return all(answer.bytes, answer.len, FILL);
    if (number == CRZ_NUMBER_ACCEPTED)
        return paid_in();
    return answer.bytes[CRZ_ANSWER_NUMBER] == number && all(answer.bytes + 1, CRZ_ANSWER_LENGTH - 1, 0);
}

static void try_call(enum lent_place place, int null, const struct lengths *of)
{
    uint32_t wanted = number_of(of);
    lend_all(place, of);
    expect(make_call(null) == wanted, "the number", place, of);
    expect(lent_kept(&image) && lent_kept(&call) && lent_kept(&answer), "bytes around the buffers", place, of);
    expect(memcmp(call.bytes, call_before, call.len) == 0, "the call record stays", place, of);
    expect(answered(wanted), "the answer", place, of);
    if (wanted != CRZ_NUMBER_ACCEPTED)
        expect(memcmp(image.bytes, image_before, image.len) == 0, "the image of a refusal", place, of);
    if (wanted != CRZ_NUMBER_SHORT_ANSWER)
        expect(
            all(answer.bytes + CRZ_ANSWER_LENGTH, answer.len - CRZ_ANSWER_LENGTH, FILL), "bytes past the answer", place, of);
}

static void try_fresh(enum lent_place place, int null, size_t len)
{
    const struct lengths of = {len, 0, 0};
    uint32_t number;
    lend_filled(&image, place, FILL, len);
    number = crz_fresh(null && len == 0 ? NULL : image.bytes, len);
    expect(number == (len == CRZ_IMAGE_LENGTH ? CRZ_NUMBER_ACCEPTED : CRZ_NUMBER_BAD_IMAGE), "crz_fresh", place, &of);
    expect(lent_kept(&image), "bytes around a fresh image", place, &of);
    if (len != CRZ_IMAGE_LENGTH)
        expect(all(image.bytes, len, FILL), "crz_fresh writes nothing", place, &of);
}

/* the figures of a fresh zone are zeros, and the image may only be read */
static void try_shortfalls(enum lent_place place, int null, const struct lengths *of)
{
    size_t written = of->answer < CRZ_FIGURES_LENGTH || of->image != CRZ_IMAGE_LENGTH ? 0 : CRZ_FIGURES_LENGTH;
    uint32_t wanted = of->answer < CRZ_FIGURES_LENGTH ? CRZ_NUMBER_SHORT_ANSWER : CRZ_NUMBER_BAD_IMAGE, number;
    lend_all(place, of);
    lend_for_reading(&image);
    number = crz_shortfalls(null && image.len == 0 ? NULL : image.bytes, image.len,
        null && answer.len == 0 ? NULL : answer.bytes, answer.len);
    expect(number == (written == 0 ? wanted : CRZ_NUMBER_ACCEPTED), "the number of shortfalls", place, of);
    expect(lent_kept(&image) && lent_kept(&answer), "bytes around image and figures", place, of);
    expect(memcmp(image.bytes, image_before, image.len) == 0, "the image of shortfalls", place, of);
    expect(all(answer.bytes, written, 0), "the figures", place, of);
    expect(all(answer.bytes + written, answer.len - written, FILL), "bytes past the figures", place, of);
}

/* no byte, one byte, and each length that the interface names with the lengths beside it */
static const size_t edges[] = {0, 1, CRZ_CALL_LENGTH - 1, CRZ_CALL_LENGTH, CRZ_CALL_LENGTH + 1, CRZ_FIGURES_LENGTH - 1,
    CRZ_FIGURES_LENGTH, CRZ_FIGURES_LENGTH + 1, CRZ_ANSWER_LENGTH - 1, CRZ_ANSWER_LENGTH, CRZ_ANSWER_LENGTH + 1,
    CRZ_IMAGE_LENGTH - 1, CRZ_IMAGE_LENGTH, CRZ_IMAGE_LENGTH + 1};

enum { EDGES = sizeof edges / sizeof edges[0] };

static void try_all(enum lent_place place, int null)
{
    size_t i;
    for (i = 0; i < EDGES * EDGES * EDGES; i++) {
        const struct lengths of = {edges[i / (EDGES * EDGES)], edges[i / EDGES % EDGES], edges[i % EDGES]};
        try_call(place, null, &of);
        if (of.call == 0)
            try_shortfalls(place, null, &of);
        if (i < EDGES)
            try_fresh(place, null, edges[i]);
    }
}

int main(void)
{
    int place;
    for (place = 0; place < LENT_PLACES; place++)
        try_all((enum lent_place)place, 0);
    try_all(LENT_BETWEEN, 1);
    printf("%lu passed, %lu failed\n", passed, failed);
    return failed != 0;
}
