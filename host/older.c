#include "older.h"

#include <stdio.h>

#include "../include/crz_records.h"
#include "digits.h"

const struct layout *older_layout(size_t length)
{
    const struct layout *layout = older_layouts;
    while (layout->length != 0 && layout->length != length)
        layout++;
    return layout->length != 0 ? layout : NULL;
}

void older_lengths(char words[OLDER_WORDS])
{
    size_t used = 0;
    for (const struct layout *layout = older_layouts; layout->length != 0 && used < OLDER_WORDS; layout++)
        used += (size_t)snprintf(
            words + used, OLDER_WORDS - used, "%s%s", used == 0 ? "" : " or ", grouped(layout->length).text);
}

static const struct layout today = {
    .day = CRZ_IMAGE_DAY,
    .phase = CRZ_IMAGE_PHASE,
    .total = CRZ_IMAGE_TOTAL,
    .accounts = {CRZ_IMAGE_ACCOUNT_COUNT, CRZ_IMAGE_ACCOUNT_OFFSET, CRZ_IMAGE_ACCOUNTS, CRZ_ACCOUNT_COUNT,
        CRZ_ACCOUNT_LENGTH},
    .asks = {CRZ_IMAGE_CONTRACT_COUNT, CRZ_IMAGE_CONTRACT_OFFSET, CRZ_IMAGE_ASKS, CRZ_CONTRACT_COUNT, CRZ_ASK_LENGTH},
    .receipts = {CRZ_IMAGE_RECEIPT_COUNT, CRZ_IMAGE_RECEIPT_OFFSET, CRZ_IMAGE_RECEIPTS, CRZ_RECEIPT_COUNT,
        CRZ_RECEIPT_LENGTH},
};

static size_t smaller(size_t a, size_t b)
{
    return a < b ? a : b;
}

/*
 * The table and what the header says of it. A count or a start that was wrong is wrong by as much afterwards, so that
 * the library refuses the image. A record has kept its fields where they were and got new ones behind them.
 */
static void move_table(
    const uint8_t *older, const struct table_layout *from, uint8_t *image, const struct table_layout *to)
{
    uint64_t start = crz_get_u32(older + from->start_place) - from->start + to->start;
    uint64_t count = crz_get_u16(older + from->count_place) - from->count + to->count;
    crz_put_bytes(image + to->start_place, 4, start);
    crz_put_bytes(image + to->count_place, 2, count);
    for (size_t i = 0; i < smaller(from->count, to->count); i++)
        memcpy(image + to->start + i * to->record, older + from->start + i * from->record,
            smaller(from->record, to->record));
}

void older_to_today(const struct layout *layout, const uint8_t *older, uint8_t image[CRZ_IMAGE_LENGTH])
{
    crz_fresh(image, CRZ_IMAGE_LENGTH);
    memcpy(image + today.day, older + layout->day, 2);
    memcpy(image + today.phase, older + layout->phase, 4);
    memcpy(image + today.total, older + layout->total, 8);
    move_table(older, &layout->accounts, image, &today.accounts);
    move_table(older, &layout->asks, image, &today.asks);
    move_table(older, &layout->receipts, image, &today.receipts);
}
