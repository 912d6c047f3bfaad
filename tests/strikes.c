/*
 * Quotes that strike many lots: up to all 128 in one, at prices that rise by lot, that fall, at one price for all, and
 * mixed. The entries are held to request 1 of document 02 in its own words: each lot struck is listed once, with its
 * own buyer and price, and no entry has a lower price than the one behind it, or the same price and a higher lot.
 * Then a close of the same lots, whose numbers differ too, lists them by lot. The last line is 'N passed, M failed'.
 */
#include "../include/crz_records.h"

#include <stdio.h>

enum { SELLER = 1, FIRST_BUYER = 2, BUYERS = 95, CONTRACT = 3, LOWEST = 15000, STEP = 5 };

static uint8_t image[CRZ_IMAGE_LENGTH], call[CRZ_CALL_LENGTH], answer[CRZ_ANSWER_LENGTH];
static unsigned long passed, failed;

static void expect(int ok, const char *what, const char *prices, uint32_t ask)
{
    if (ok) {
        passed++;
        return;
    }
    failed++;
    printf("failed: %s (%s, ask %u)\n", what, prices, (unsigned)ask);
}

static uint32_t make(void)
{
    return crz_call(image, sizeof image, call, sizeof call, answer, sizeof answer);
}

/* ── Prices by lot ─────────────────────────────────────────────────────────────────────────────── */

static uint32_t rising(uint32_t lot)
{
    return LOWEST + STEP * lot;
}

static uint32_t falling(uint32_t lot)
{
    return LOWEST + STEP * (CRZ_RECEIPT_COUNT + 1 - lot);
}

static uint32_t equal(uint32_t lot)
{
    (void)lot;
    return LOWEST + STEP;
}

/* 32 prices in no order, four lots at each */
static uint32_t mixed(uint32_t lot)
{
    return LOWEST + STEP * (1 + lot * 13 % 32);
}

static const struct prices {
    const char *name;
    uint32_t (*of)(uint32_t lot);
} all_prices[] = {{"rising", rising}, {"falling", falling}, {"equal", equal}, {"mixed", mixed}};

/* ── A zone with a bid on each lot ─────────────────────────────────────────────────────────────── */

/* of both signs, and none: no premium moves a strike, for strikes stand by the price that was bid */
static int32_t premium_of(uint32_t lot)
{
    return CRZ_PREMIUM_LEAST + CRZ_PREMIUM_MOST / 2 * (int32_t)(lot * 3 % 5);
}

static uint32_t buyer_of(uint32_t lot)
{
    return FIRST_BUYER + lot % BUYERS;
}

/* how many of these calls were refused */
static unsigned bid_for_all(const struct prices *prices)
{
    unsigned refused = 0;
    uint32_t n;
    crz_fresh(image, sizeof image);
    for (n = 1; n <= CRZ_ACCOUNT_COUNT; n++) {
        crz_put_pay_in(call, n, UINT64_C(100000000000));
        refused += make() != CRZ_NUMBER_ACCEPTED;
    }
    for (n = 1; n <= CRZ_RECEIPT_COUNT; n++) {
        crz_put_register(call, SELLER, n, 41000 + n, premium_of(n));
        refused += make() != CRZ_NUMBER_ACCEPTED;
        crz_put_list(call, SELLER, n, CONTRACT, 0, 300);
        refused += make() != CRZ_NUMBER_ACCEPTED;
        crz_put_limit_bid(call, buyer_of(n), n, prices->of(n));
        refused += make() != CRZ_NUMBER_ACCEPTED;
    }
    return refused;
}

/* ── What is listed ────────────────────────────────────────────────────────────────────────────── */

static int is_strike(const struct crz_entry_fields *e, const struct prices *prices)
{
    return e->outcome == CRZ_OUTCOME_STRUCK && e->from == buyer_of(e->lot) && e->to == SELLER
        && e->number == prices->of(e->lot);
}

static int stands_above(const struct crz_entry_fields *a, const struct crz_entry_fields *b)
{
    return a->number > b->number || (a->number == b->number && a->lot < b->lot);
}

/* every lot at or above the ask once, no other, each below the one before it */
static void try_quote(const struct prices *prices, uint32_t ask)
{
    unsigned listed[CRZ_RECEIPT_COUNT + 1] = {0}, wrong = 0, disordered = 0;
    uint32_t i, lot, count;
    expect(bid_for_all(prices) == 0, "a bid on each lot", prices->name, ask);
    crz_put_quote(call, CONTRACT, ask);
    expect(make() == CRZ_NUMBER_ACCEPTED, "the quote is accepted", prices->name, ask);
    count = crz_get_answer(answer).count;
    for (i = 0; i < count; i++) {
        struct crz_entry_fields e = crz_get_entry(answer, i), before = crz_get_entry(answer, i == 0 ? 0 : i - 1);
        wrong += !is_strike(&e, prices);
        disordered += i > 0 && !stands_above(&before, &e);
        listed[e.lot <= CRZ_RECEIPT_COUNT ? e.lot : 0]++;
    }
    for (lot = 1; lot <= CRZ_RECEIPT_COUNT; lot++)
        wrong += listed[lot] != (prices->of(lot) >= ask);
    expect(wrong == 0, "each lot that the ask meets is listed once, with its buyer and price", prices->name, ask);
    expect(disordered == 0, "the entries stand by price, then by lot", prices->name, ask);
}

/* all lots settled at different sums: a close lists them by lot */
static void try_close(const struct prices *prices)
{
    unsigned disordered = 0;
    uint32_t n;
    for (n = 1; n <= CRZ_RECEIPT_COUNT; n++) {
        crz_put_lodge(call, SELLER, n);
        expect(make() == CRZ_NUMBER_ACCEPTED, "a struck lot is lodged", prices->name, LOWEST);
    }
    crz_put_morning_close(call);
    expect(make() == CRZ_NUMBER_ACCEPTED, "the close is accepted", prices->name, LOWEST);
    expect(crz_get_answer(answer).count == CRZ_RECEIPT_COUNT, "the close works all lots", prices->name, LOWEST);
    for (n = 1; n <= CRZ_RECEIPT_COUNT; n++)
        disordered += crz_get_entry(answer, n - 1).lot != n;
    expect(disordered == 0, "a close lists its lots by number", prices->name, LOWEST);
}

int main(void)
{
    size_t i;
    for (i = 0; i < sizeof all_prices / sizeof all_prices[0]; i++) {
        try_quote(&all_prices[i], LOWEST + STEP * 64);
        try_quote(&all_prices[i], LOWEST + STEP * 17);
        try_quote(&all_prices[i], LOWEST);
        expect(crz_get_answer(answer).count == CRZ_RECEIPT_COUNT, "all lots are struck", all_prices[i].name, LOWEST);
        try_close(&all_prices[i]);
    }
    printf("%lu passed, %lu failed\n", passed, failed);
    return failed != 0;
}
