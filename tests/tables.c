/*
 * Tables of calls (02 5/12): what crz_table returns for the lengths of its buffers, and that image and answers are
 * those of the same calls made singly. The buffers stand between painted bytes and at walls; where 14 is returned, also
 * inside a wall, so that no byte of them is read. Zones with lots in all states are built by tables too, and every
 * table is held to single calls on a copy of its image. The last line is 'N passed, M failed'.
 */
#include "../include/crz_records.h"
#include "draw.h"
#include "lent.h"

#include <stdio.h>

enum { FILL = 0xa5, NUMBERS = 14, OUTCOMES = 16, UNKNOWN = 0xff, ONE_TOO_MANY = CRZ_TABLE_COUNT + 1 };

/* the table that is tried next: its records, and the number that each call must have */
static struct table {
    uint8_t bytes[LENT_MOST], numbers[ONE_TOO_MANY];
    size_t count;
} table;

static uint8_t zone[LENT_MOST]; /* the image that it finds, and zeros */
static size_t zone_len = CRZ_IMAGE_LENGTH;

/* the same calls made singly: image and answers after them */
static uint8_t single_image[LENT_MOST], single_answers[LENT_MOST];

static struct lent image, calls, answers;
static unsigned long passed, failed, tables;
static unsigned long numbers[NUMBERS], outcomes[OUTCOMES];
static const char *part = "";

/* the first ten failures are printed */
static void expect(int ok, const char *what)
{
    passed += ok != 0;
    if (!ok && ++failed <= 10)
        printf("failed: %s (%s, table %lu, lengths %lu, %lu, %lu)\n", what, part, tables, (unsigned long)image.len,
            (unsigned long)calls.len, (unsigned long)answers.len);
}

/* ── One table ─────────────────────────────────────────────────────────────────────────────────── */

static void count_entries(const uint8_t *answer)
{
    uint32_t i, count = crz_get_answer(answer).count;
    for (i = 0; i < count && i < CRZ_ENTRY_COUNT; i++)
        outcomes[crz_get_entry(answer, i).outcome % OUTCOMES]++;
}

/* makes the calls singly, each with an answer buffer of its own, and counts what they bring */
static void make_singly(size_t count)
{
    size_t i;
    for (i = 0; i < count; i++) {
        uint8_t *answer = single_answers + crz_answer_offset(i);
        uint32_t number = crz_call(
            single_image, image.len, table.bytes + crz_call_offset(i), CRZ_CALL_LENGTH, answer, CRZ_ANSWER_LENGTH);
        numbers[number % NUMBERS]++;
        count_entries(answer);
    }
}

/* as the request has it: too many calls, a part of one, or too few bytes for their answers */
static int is_taken(size_t calls_len, size_t answers_len)
{
    size_t count = calls_len / CRZ_CALL_LENGTH;
    return count <= CRZ_TABLE_COUNT && count * CRZ_CALL_LENGTH == calls_len && answers_len >= count * CRZ_ANSWER_LENGTH;
}

static void lend_all(enum lent_place place, uint8_t fill, size_t calls_len, size_t answers_len)
{
    lend_bytes(&image, place, zone, zone_len);
    lend_bytes(&calls, place, table.bytes, calls_len);
    lend_filled(&answers, place, fill, answers_len);
    memcpy(single_image, zone, zone_len);
    memset(single_answers, fill, answers_len);
}

/* what a buffer holds, and that nothing around it has changed */
static int holds(const struct lent *lent, const uint8_t *bytes)
{
    return memcmp(lent->bytes, bytes, lent->len) == 0 && lent_kept(lent);
}

/* a buffer without bytes may be a null pointer */
static uint8_t *address(const struct lent *lent, int null)
{
    return null && lent->len == 0 ? NULL : lent->bytes;
}

/* the table's first bytes, with answers of so many bytes; where it is not taken, nobody touches a buffer */
static void try_lengths(enum lent_place place, uint8_t fill, size_t calls_len, size_t answers_len)
{
    uint32_t wanted = is_taken(calls_len, answers_len) ? CRZ_NUMBER_ACCEPTED : CRZ_NUMBER_BAD_TABLE, number;
    int null = place == LENT_BETWEEN && fill == 0;
    tables++;
    lend_all(place, fill, calls_len, answers_len);
    number = crz_table(
        address(&image, null), image.len, address(&calls, null), calls.len, address(&answers, null), answers.len);
    if (wanted == CRZ_NUMBER_ACCEPTED)
        make_singly(calls_len / CRZ_CALL_LENGTH);
    else
        expect(crz_table(lend_nothing(), image.len, lend_nothing(), calls_len, lend_nothing(), answers_len) == wanted,
            "14 without a look at the buffers");
    expect(number == wanted, "the number of the table");
    expect(holds(&image, single_image), "the image");
    expect(holds(&answers, single_answers), "the answers and the bytes behind them");
    expect(holds(&calls, table.bytes), "the calls stay");
}

/* whether each call has the number that the test knows */
static void expect_numbers(void)
{
    size_t i, other = 0;
    for (i = 0; i < table.count; i++)
        other += table.numbers[i] != UNKNOWN && answers.bytes[crz_answer_offset(i)] != table.numbers[i];
    expect(other == 0, "the numbers in the answers");
}

/* the whole table, at each place, with whatever in the answers before and with more bytes than they need; the zone then
 * goes on from the image after it */
static void try_table(void)
{
    size_t calls_len = crz_call_offset(table.count), answers_len = crz_answer_offset(table.count);
    try_lengths(LENT_END_AT_WALL, FILL, calls_len, answers_len);
    expect_numbers();
    try_lengths(LENT_START_AT_WALL, 0, calls_len, answers_len + 1);
    try_lengths(LENT_BETWEEN, 0xff, calls_len, answers_len + CRZ_ANSWER_LENGTH);
    expect_numbers();
    memcpy(zone, single_image, zone_len);
    table.count = 0;
}

/* where the next call goes, which must have this number; a table that is full is made before */
static uint8_t *next(uint32_t number)
{
    if (table.count == CRZ_TABLE_COUNT)
        try_table();
    table.numbers[table.count] = (uint8_t)number;
    return table.bytes + crz_call_offset(table.count++);
}

static void start_fresh(const char *name)
{
    part = name;
    memset(zone, 0, sizeof zone);
    zone_len = CRZ_IMAGE_LENGTH;
    expect(crz_fresh(zone, CRZ_IMAGE_LENGTH) == CRZ_NUMBER_ACCEPTED, "a fresh zone");
    table.count = 0;
}

/* ── Lengths ───────────────────────────────────────────────────────────────────────────────────── */

/* one call more than a table has, all of which would be accepted, and zeros */
static void put_pay_ins(void)
{
    uint32_t i;
    memset(table.bytes, 0, sizeof table.bytes);
    for (i = 0; i < ONE_TOO_MANY; i++)
        crz_put_pay_in(table.bytes + crz_call_offset(i), 1 + i % 5, 1 + i);
    table.count = 0;
}

static const size_t more[] = {0, 1, 2, CRZ_CALL_LENGTH, CRZ_ANSWER_LENGTH - 1, CRZ_ANSWER_LENGTH, 5000};

/* a length, and lengths above and below it that are none below 0 */
static size_t beside(size_t length, size_t i)
{
    size_t by = more[i / 2];
    if (i % 2 == 0)
        return length + by;
    return length > by ? length - by : 0;
}

/* answers for the calls and lengths beside that; those that would do if an answer were its entries and a head of 8 */
static void try_answers(enum lent_place place, size_t calls_len)
{
    size_t i, count = calls_len / CRZ_CALL_LENGTH;
    for (i = 0; i < 2 * sizeof more / sizeof more[0]; i++)
        try_lengths(place, i % 3 == 0 ? 0 : FILL, calls_len, beside(crz_answer_offset(count), i));
    try_lengths(place, FILL, calls_len, count * (CRZ_ANSWER_LENGTH - CRZ_ENTRY_LENGTH));
    try_lengths(place, FILL, calls_len, calls_len);
    try_lengths(place, FILL, calls_len, LENT_MOST);
}

/* none up to two calls and a byte, around the most, and whole calls between and above */
static void try_all_lengths(enum lent_place place)
{
    size_t few = crz_call_offset(2) + 1, least = crz_call_offset(CRZ_TABLE_COUNT - 1) - 2, length;
    size_t most = crz_call_offset(ONE_TOO_MANY) + 2;
    for (length = 0; length <= crz_call_offset(CRZ_TABLE_COUNT + 8); length++)
        if (length <= few || (length >= least && length <= most) || length % CRZ_CALL_LENGTH == 0)
            try_answers(place, length);
}

/* counted with 32 bits some of these are few calls or none; with 64 bits the lengths of their answers pass the end */
static void try_huge_lengths(void)
{
    static const uint64_t counts[] = {UINT64_C(1) << 32, (UINT64_C(1) << 32) + 1, (UINT64_C(1) << 32) + CRZ_TABLE_COUNT,
        UINT64_C(1) << 59, (UINT64_C(1) << 59) + 1, UINT64_MAX / CRZ_CALL_LENGTH, 1000, 1 << 16, 256, 257};
    static const size_t lengths[] = {0, CRZ_ANSWER_LENGTH, CRZ_TABLE_COUNT * CRZ_ANSWER_LENGTH, SIZE_MAX};
    size_t i;
    for (i = 0; i < 4 * sizeof counts / sizeof counts[0]; i++) {
        size_t calls_len = crz_call_offset((size_t)counts[i / 4]), answers_len = lengths[i % 4];
        uint8_t *nothing = lend_nothing();
        expect(crz_table(nothing, CRZ_IMAGE_LENGTH, nothing, calls_len, nothing, answers_len) == CRZ_NUMBER_BAD_TABLE,
            "far too many calls");
        expect(
            crz_table(nothing, CRZ_IMAGE_LENGTH, nothing, SIZE_MAX - i, nothing, answers_len) == CRZ_NUMBER_BAD_TABLE,
            "a table of nearly all bytes");
    }
}

/* answers whose length does not fit 32 bits, of which nothing behind the last answer is touched: a wall stands there */
static void try_huge_answers(size_t count)
{
    static const uint64_t lengths[] = {
        UINT64_C(1) << 32, (UINT64_C(1) << 32) + CRZ_ANSWER_LENGTH - 1, UINT64_C(1) << 62, SIZE_MAX};
    size_t i;
    for (i = 0; i < sizeof lengths / sizeof lengths[0]; i++) {
        lend_all(LENT_END_AT_WALL, FILL, crz_call_offset(count), crz_answer_offset(count));
        make_singly(count);
        expect(crz_table(image.bytes, image.len, calls.bytes, calls.len, answers.bytes, (size_t)lengths[i]) == 0,
            "more bytes for answers than 32 bits count");
        expect(holds(&image, single_image) && holds(&answers, single_answers), "image and answers then");
    }
}

static void try_each_length(void)
{
    int place;
    start_fresh("lengths");
    put_pay_ins();
    for (place = 0; place < LENT_PLACES; place++)
        try_all_lengths((enum lent_place)place);
    try_huge_lengths();
    try_huge_answers(1);
    try_huge_answers(CRZ_TABLE_COUNT);
}

/* ── Tables without calls, and images that are not valid ───────────────────────────────────────── */

/* whatever image and answers are */
static void try_empty(void)
{
    static const size_t lengths[] = {0, 1, CRZ_ANSWER_LENGTH - 1, CRZ_ANSWER_LENGTH, 5000};
    size_t i;
    for (i = 0; i < LENT_PLACES * sizeof lengths / sizeof lengths[0]; i++)
        try_lengths((enum lent_place)(i % LENT_PLACES), i % 2 == 0 ? 0 : FILL, 0, lengths[i / LENT_PLACES]);
    expect(crz_table(NULL, 0, NULL, 0, NULL, 0) == CRZ_NUMBER_ACCEPTED, "no buffer at all");
}

/* each answer is 2 and zeros, and the image stays */
static void try_refused_image(size_t count)
{
    static uint8_t refused[CRZ_TABLE_COUNT * CRZ_ANSWER_LENGTH];
    size_t i;
    for (i = 0; i < count; i++)
        refused[crz_answer_offset(i)] = CRZ_NUMBER_BAD_IMAGE;
    try_lengths(LENT_END_AT_WALL, FILL, crz_call_offset(count), crz_answer_offset(count));
    expect(memcmp(answers.bytes, refused, answers.len) == 0, "each answer is 2");
    expect(memcmp(image.bytes, zone, image.len) == 0, "a bad image stays");
    try_lengths(LENT_START_AT_WALL, 0xff, crz_call_offset(count), crz_answer_offset(count) + 1);
    try_lengths(LENT_BETWEEN, FILL, crz_call_offset(count), crz_answer_offset(count) + CRZ_ANSWER_LENGTH);
}

/* a part of a call, a call too many, an answer a byte short: 14 whatever the image is */
static void try_not_taken(void)
{
    try_lengths(LENT_BETWEEN, FILL, 1, CRZ_ANSWER_LENGTH);
    try_lengths(LENT_END_AT_WALL, FILL, CRZ_CALL_LENGTH + 1, crz_answer_offset(2));
    try_lengths(LENT_START_AT_WALL, FILL, crz_call_offset(ONE_TOO_MANY), crz_answer_offset(ONE_TOO_MANY));
    try_lengths(LENT_END_AT_WALL, FILL, crz_call_offset(2), crz_answer_offset(2) - 1);
    try_lengths(LENT_BETWEEN, FILL, CRZ_CALL_LENGTH, 0);
}

static void try_bad_image(const char *name)
{
    part = name;
    put_pay_ins();
    try_empty();
    try_not_taken();
    try_refused_image(1);
    try_refused_image(2);
    try_refused_image(CRZ_TABLE_COUNT);
    memset(table.bytes, 0, CRZ_CALL_LENGTH); /* a first call that is none is 2 as well */
    try_refused_image(3);
}

/* the zone with other bytes at one place, and then as it was */
static void try_damaged(const char *name, size_t offset, uint8_t change)
{
    zone[offset] = (uint8_t)(zone[offset] ^ change);
    try_bad_image(name);
    zone[offset] = (uint8_t)(zone[offset] ^ change);
}

static void try_length_of_image(size_t length)
{
    zone_len = length;
    try_bad_image("an image of another length");
    zone_len = CRZ_IMAGE_LENGTH;
}

/* of the zone that is there */
static void try_bad_images(void)
{
    try_damaged("a total that is another", CRZ_IMAGE_TOTAL, 1);
    try_damaged("a phase that is none", CRZ_IMAGE_PHASE, 2);
    try_damaged("a count that is another", CRZ_IMAGE_ACCOUNT_COUNT, 1);
    try_damaged("a spare byte", CRZ_IMAGE_ZEROS + 2, 0x80);
    try_damaged("an ask that is no price", crz_ask_offset(CRZ_CONTRACT_COUNT), 1);
    try_damaged("frozen money", crz_account_offset(CRZ_ACCOUNT_COUNT) + CRZ_ACCOUNT_FROZEN, 1);
    try_damaged("the last byte", CRZ_IMAGE_LENGTH - 1, 0x40);
    try_length_of_image(0);
    try_length_of_image(1);
    try_length_of_image(CRZ_IMAGE_LENGTH - 1);
    try_length_of_image(CRZ_IMAGE_LENGTH + 1);
    try_length_of_image(2 * CRZ_IMAGE_LENGTH);
}

/* ── Order, and refused calls ──────────────────────────────────────────────────────────────────── */

/* every second call takes out what the one before has paid in */
static void try_pairs(void)
{
    uint32_t i;
    start_fresh("each second call needs the one before");
    for (i = 0; i < CRZ_TABLE_COUNT; i += 2) {
        crz_put_pay_in(next(CRZ_NUMBER_ACCEPTED), 1 + i, 7 + i);
        crz_put_take_out(next(CRZ_NUMBER_ACCEPTED), 1 + i, 7 + i);
    }
    try_table();
}

/* each call but every fourth needs what the one before has done */
static void try_chains(void)
{
    uint32_t i;
    start_fresh("calls that need those before them");
    for (i = 0; i < CRZ_TABLE_COUNT / 4; i++) {
        crz_put_register(next(CRZ_NUMBER_ACCEPTED), 1, CRZ_RECEIPT_COUNT - i, CRZ_WEIGHT_LEAST, 0);
        crz_put_list(next(CRZ_NUMBER_ACCEPTED), 1, CRZ_RECEIPT_COUNT - i, 1, 0, 0);
        crz_put_withdraw_listing(next(CRZ_NUMBER_ACCEPTED), 1, CRZ_RECEIPT_COUNT - i);
        crz_put_list(next(CRZ_NUMBER_ACCEPTED), 1, CRZ_RECEIPT_COUNT - i, 8, 3, 5);
    }
    try_table();
}

/* a full table whose calls are all accepted but for the one at this place, or refused but for that one */
static void try_one_other(size_t place, int accepted)
{
    size_t i;
    for (i = 0; i < CRZ_TABLE_COUNT; i++)
        if ((i == place) == accepted)
            crz_put_pay_in(next(CRZ_NUMBER_ACCEPTED), 96, 5);
        else
            crz_put_take_out(next(CRZ_NUMBER_NO_MONEY), 95, 1);
    try_table();
}

/* at each place of a full table, and first or last of two calls */
static void try_refused_places(void)
{
    size_t place;
    start_fresh("a refused call among others, and an accepted one");
    for (place = 0; place < 2 * CRZ_TABLE_COUNT; place++)
        try_one_other(place / 2, place % 2 == 0);
    crz_put_take_out(next(CRZ_NUMBER_NO_MONEY), 95, 1);
    crz_put_pay_in(next(CRZ_NUMBER_ACCEPTED), 95, 1);
    try_table();
    crz_put_take_out(next(CRZ_NUMBER_ACCEPTED), 95, 1);
    crz_put_take_out(next(CRZ_NUMBER_NO_MONEY), 95, 1);
    try_table();
}

/* ── A trade from its registration to its last confirmation ────────────────────────────────────── */

enum { SELLER = 5, BUYER = 6, THIRD = 7, LOT = 128, CONTRACT = 8, PRICE = 15000, WEIGHT = 41237, TRADE_CALLS = 15 };

/* full payment 63,092,610, as in example 1; in the middle, and at the end, a call that comes too early */
static void put_trade(void)
{
    crz_put_pay_in(next(CRZ_NUMBER_ACCEPTED), BUYER, 63092610);
    crz_put_register(next(CRZ_NUMBER_ACCEPTED), SELLER, LOT, WEIGHT, 100);
    crz_put_list(next(CRZ_NUMBER_ACCEPTED), SELLER, LOT, CONTRACT, 0, 200);
    crz_put_limit_bid(next(CRZ_NUMBER_ACCEPTED), BUYER, LOT, PRICE);
    crz_put_lodge(next(CRZ_NUMBER_WRONG_STATE), SELLER, LOT);
    crz_put_quote(next(CRZ_NUMBER_ACCEPTED), CONTRACT, PRICE);
    crz_put_lodge(next(CRZ_NUMBER_ACCEPTED), SELLER, LOT);
    crz_put_morning_close(next(CRZ_NUMBER_ACCEPTED));
    crz_put_first_payment(next(CRZ_NUMBER_ACCEPTED), SELLER, LOT);
    crz_put_invoice(next(CRZ_NUMBER_ACCEPTED), SELLER, LOT, 20000000);
    crz_put_confirm(next(CRZ_NUMBER_ACCEPTED), BUYER, LOT);
    crz_put_invoice(next(CRZ_NUMBER_ACCEPTED), SELLER, LOT, 43092610);
    crz_put_confirm(next(CRZ_NUMBER_ACCEPTED), BUYER, LOT);
    crz_put_day_close(next(CRZ_NUMBER_ACCEPTED));
    crz_put_day_close(next(CRZ_NUMBER_WRONG_PHASE));
}

/* the first few calls of the table in one, the others in the next */
static void try_in_two(size_t first)
{
    static struct table whole;
    size_t left = table.count - first;
    whole = table;
    table.count = first;
    try_table();
    memcpy(table.bytes, whole.bytes + crz_call_offset(first), crz_call_offset(left));
    memcpy(table.numbers, whole.numbers + first, left);
    table.count = left;
    try_table();
}

static void try_trade(size_t first)
{
    start_fresh("a trade");
    put_trade();
    try_in_two(first);
}

static void try_trades(void)
{
    static uint8_t in_one[CRZ_IMAGE_LENGTH];
    size_t first;
    try_trade(TRADE_CALLS);
    memcpy(in_one, zone, sizeof in_one);
    expect(crz_get_receipt(zone, LOT).owner == BUYER && crz_get_receipt(zone, LOT).state == CRZ_STATE_IDLE, "sold");
    expect(crz_get_account(zone, SELLER).free == 63092610 && crz_get_account(zone, BUYER).free == 0, "and paid");
    expect(crz_get_day(zone) == 2 && crz_get_phase(zone) == CRZ_PHASE_MORNING, "a day later");
    for (first = 0; first < TRADE_CALLS; first++) {
        try_trade(first);
        expect(memcmp(zone, in_one, sizeof in_one) == 0, "the trade in two tables ends as in one");
    }
}

/* ── Every number in one table ─────────────────────────────────────────────────────────────────── */

static void put_bids_refused(void)
{
    crz_put_limit_bid(next(CRZ_NUMBER_NOT_ABOVE), THIRD, LOT, PRICE);
    crz_put_market_bid(next(CRZ_NUMBER_NO_ASK), BUYER, LOT);
    crz_put_limit_bid(next(CRZ_NUMBER_WRONG_PARTY), SELLER, LOT, PRICE + CRZ_PRICE_STEP);
    crz_put_limit_bid(next(CRZ_NUMBER_NO_MONEY), THIRD, LOT, PRICE + CRZ_PRICE_STEP);
    crz_put_limit_bid(next(CRZ_NUMBER_OUT_OF_RANGE), BUYER, LOT, PRICE + 3);
    crz_put_register(next(CRZ_NUMBER_ACCEPTED), SELLER, 1, WEIGHT, 0);
    crz_put_list(next(CRZ_NUMBER_ACCEPTED), SELLER, 1, 1, 3, CRZ_BASIS_LEAST);
    crz_put_limit_bid(next(CRZ_NUMBER_NOTHING_TO_PAY), BUYER, 1, CRZ_PRICE_LEAST);
}

static void put_trade_with_refusals(void)
{
    crz_put_day_close(next(CRZ_NUMBER_WRONG_PHASE));
    crz_put_lodge(next(CRZ_NUMBER_WRONG_STATE), SELLER, LOT);
    memset(next(CRZ_NUMBER_BAD_CALL), 0, CRZ_CALL_LENGTH);
    crz_put_quote(next(CRZ_NUMBER_ACCEPTED), CONTRACT, PRICE);
    crz_put_lodge(next(CRZ_NUMBER_ACCEPTED), SELLER, LOT);
    crz_put_morning_close(next(CRZ_NUMBER_ACCEPTED));
    crz_put_first_payment(next(CRZ_NUMBER_ACCEPTED), SELLER, LOT);
    crz_put_invoice(next(CRZ_NUMBER_OVER_INVOICE), SELLER, LOT, 63092611);
    crz_put_invoice(next(CRZ_NUMBER_ACCEPTED), SELLER, LOT, 63092610);
    crz_put_pay_in(next(CRZ_NUMBER_OVER_LIMIT), BUYER, CRZ_AMOUNT_MOST);
    crz_put_pay_in(next(CRZ_NUMBER_ACCEPTED), BUYER, 1);
}

/* 3 to 13, among accepted calls; the total is near its limit */
static void try_every_number(void)
{
    const uint64_t money = 1000000000;
    start_fresh("every number");
    crz_put_u64(zone + crz_account_offset(CRZ_ACCOUNT_COUNT) + CRZ_ACCOUNT_FREE, CRZ_TOTAL_MOST - 2 * money);
    crz_put_u64(zone + CRZ_IMAGE_TOTAL, CRZ_TOTAL_MOST - 2 * money);
    crz_put_pay_in(next(CRZ_NUMBER_ACCEPTED), BUYER, money);
    crz_put_register(next(CRZ_NUMBER_ACCEPTED), SELLER, LOT, WEIGHT, 300);
    crz_put_list(next(CRZ_NUMBER_ACCEPTED), SELLER, LOT, CONTRACT, 0, 0);
    crz_put_limit_bid(next(CRZ_NUMBER_ACCEPTED), BUYER, LOT, PRICE);
    put_bids_refused();
    put_trade_with_refusals();
    try_table();
}

/* ── Zones with lots in all states ─────────────────────────────────────────────────────────────── */

enum { STATES = 8, FIRST_BUYER = 49, HALF = 48, RICH = 2000000000, POOR = 5 * CRZ_DEPOSIT };

static uint32_t seller_of(uint32_t lot)
{
    return 1 + lot % HALF;
}

static uint32_t buyer_of(uint32_t lot)
{
    return FIRST_BUYER + (lot / STATES * 5 + lot) % HALF;
}

/* every third buyer cannot pay for a lot */
static int is_poor(uint32_t account)
{
    return account >= FIRST_BUYER && account % 3 == 0;
}

/* the state that the lot is brought to: all eight by turns; a lot that is settled has a buyer who can pay */
static uint32_t state_of(uint32_t lot)
{
    uint32_t state = lot % STATES;
    return state >= CRZ_STATE_SETTLED && is_poor(buyer_of(lot)) ? CRZ_STATE_IDLE : state;
}

static uint32_t contract_of(uint32_t lot)
{
    return 1 + lot / STATES % CRZ_CONTRACT_COUNT;
}

static void put_money_and_receipts(void)
{
    uint32_t n;
    for (n = 1; n <= CRZ_RECEIPT_COUNT; n++) {
        if (n <= CRZ_ACCOUNT_COUNT)
            crz_put_pay_in(next(CRZ_NUMBER_ACCEPTED), n, is_poor(n) ? POOR : RICH);
        crz_put_register(next(CRZ_NUMBER_ACCEPTED), seller_of(n), n, 40000 + n, 1000 * ((int32_t)(n % 11) - 5));
    }
}

/* listed and bid for: those that go on today have D 0 */
static void put_listing(uint32_t lot, int with_bid)
{
    uint32_t days = state_of(lot) >= CRZ_STATE_SETTLED ? 0 : 1 + lot % CRZ_DAYS_MOST;
    crz_put_list(next(CRZ_NUMBER_ACCEPTED), seller_of(lot), lot, contract_of(lot), days, (int32_t)lot - 64);
    if (with_bid)
        crz_put_limit_bid(next(CRZ_NUMBER_ACCEPTED), buyer_of(lot), lot, PRICE + CRZ_PRICE_STEP * (lot % 7));
}

static void put_bids_to_strike(void)
{
    uint32_t lot;
    for (lot = 1; lot <= CRZ_RECEIPT_COUNT; lot++)
        if (state_of(lot) >= CRZ_STATE_STRUCK)
            put_listing(lot, 1);
}

/* the asks of all contracts */
static void put_quotes(uint64_t price)
{
    uint32_t contract;
    for (contract = 1; contract <= CRZ_CONTRACT_COUNT; contract++)
        crz_put_quote(next(CRZ_NUMBER_ACCEPTED), contract, price);
}

static void put_lodgings(void)
{
    uint32_t lot;
    for (lot = 1; lot <= CRZ_RECEIPT_COUNT; lot++)
        if (state_of(lot) >= CRZ_STATE_LODGED && state_of(lot) <= CRZ_STATE_FIRST_PAID)
            crz_put_lodge(next(CRZ_NUMBER_ACCEPTED), seller_of(lot), lot);
}

/* first payments, and of every second such lot an invoice confirmed and one pending */
static void put_payments(void)
{
    uint32_t lot;
    for (lot = 1; lot <= CRZ_RECEIPT_COUNT; lot++) {
        if (state_of(lot) != CRZ_STATE_FIRST_PAID)
            continue;
        crz_put_first_payment(next(CRZ_NUMBER_ACCEPTED), seller_of(lot), lot);
        crz_put_invoice(next(CRZ_NUMBER_ACCEPTED), seller_of(lot), lot, 1000 + lot);
        crz_put_confirm(next(CRZ_NUMBER_ACCEPTED), buyer_of(lot), lot);
        crz_put_invoice(next(CRZ_NUMBER_ACCEPTED), seller_of(lot), lot, 2000 + lot);
    }
}

/* lots of states 1 and 2 */
static void put_open_lots(void)
{
    uint32_t lot;
    for (lot = 1; lot <= CRZ_RECEIPT_COUNT; lot++)
        if (state_of(lot) == CRZ_STATE_LISTED || state_of(lot) == CRZ_STATE_BID_STANDS)
            put_listing(lot, state_of(lot) == CRZ_STATE_BID_STANDS);
}

/* lots of each state, in the afternoon of day 1 or the morning of day 2 */
static void build_busy(const char *name, enum crz_phase phase)
{
    start_fresh(name);
    put_money_and_receipts();
    put_bids_to_strike();
    put_quotes(PRICE);
    put_lodgings();
    crz_put_morning_close(next(CRZ_NUMBER_ACCEPTED));
    put_payments();
    if (phase == CRZ_PHASE_MORNING)
        crz_put_day_close(next(CRZ_NUMBER_ACCEPTED));
    put_quotes(0);
    put_open_lots();
    try_table();
}

static void expect_all_states(void)
{
    uint32_t lot, other = 0;
    for (lot = 1; lot <= CRZ_RECEIPT_COUNT; lot++)
        other += crz_get_receipt(zone, lot).state != state_of(lot);
    expect(other == 0, "lots in all states");
}

/* calls of all lots by turns, most of which the lot's state refuses; closes in between and on the last place */
static void put_mixed_calls(uint32_t first)
{
    uint32_t i;
    for (i = 0; i < CRZ_TABLE_COUNT / 4 - 1; i++) {
        uint32_t lot = 1 + (first + 17 * i) % CRZ_RECEIPT_COUNT;
        crz_put_lodge(next(UNKNOWN), seller_of(lot), lot);
        crz_put_market_bid(next(UNKNOWN), buyer_of(lot + 1), lot);
        crz_put_confirm(next(UNKNOWN), buyer_of(lot), lot);
        crz_put_quote(next(UNKNOWN), contract_of(lot), PRICE + CRZ_PRICE_STEP * (first % 9));
    }
    crz_put_morning_close(next(UNKNOWN));
    crz_put_invoice(next(UNKNOWN), seller_of(first), first, 1 + first);
    crz_put_first_payment(next(UNKNOWN), seller_of(first), first);
    crz_put_day_close(next(UNKNOWN));
}

static void try_mixed_calls(enum crz_phase phase)
{
    uint32_t first;
    build_busy("mixed calls on a busy zone", phase);
    expect_all_states();
    for (first = 1; first <= CRZ_RECEIPT_COUNT; first += 9) {
        put_mixed_calls(first);
        try_table();
    }
}

/* as many closes as a table has: sixteen days */
static void try_closes(enum crz_phase phase)
{
    uint32_t i, day;
    build_busy("a table of closes", phase);
    day = crz_get_day(zone);
    for (i = 0; i < CRZ_TABLE_COUNT; i++)
        if ((i % 2 == 0) == (phase == CRZ_PHASE_MORNING))
            crz_put_morning_close(next(CRZ_NUMBER_ACCEPTED));
        else
            crz_put_day_close(next(CRZ_NUMBER_ACCEPTED));
    try_table();
    expect(crz_get_day(zone) == day + CRZ_TABLE_COUNT / 2 && crz_get_phase(zone) == phase, "sixteen days later");
}

/* ── Answers that are full ─────────────────────────────────────────────────────────────────────── */

/* a bid on each lot of one contract, at 32 prices in no order */
static void build_bids(void)
{
    uint32_t lot;
    start_fresh("answers with many entries");
    put_money_and_receipts();
    for (lot = 1; lot <= CRZ_RECEIPT_COUNT; lot++) {
        crz_put_list(next(CRZ_NUMBER_ACCEPTED), seller_of(lot), lot, CONTRACT, 0, 300);
        crz_put_limit_bid(
            next(CRZ_NUMBER_ACCEPTED), FIRST_BUYER + lot % HALF, lot, PRICE + CRZ_PRICE_STEP * (lot * 13 % 32));
    }
    try_table();
}

static uint32_t entries_at(size_t place)
{
    return crz_get_answer(answers.bytes + crz_answer_offset(place)).count;
}

/* side by side: strikes of half the lots and of the others, a close of all, one of none, and the penalties */
static void try_full_answers(uint64_t first_ask)
{
    build_bids();
    crz_put_quote(next(CRZ_NUMBER_ACCEPTED), CONTRACT, first_ask);
    crz_put_quote(next(CRZ_NUMBER_ACCEPTED), CONTRACT, PRICE);
    crz_put_quote(next(CRZ_NUMBER_ACCEPTED), CONTRACT, 0);
    crz_put_morning_close(next(CRZ_NUMBER_ACCEPTED));
    crz_put_day_close(next(CRZ_NUMBER_ACCEPTED));
    crz_put_morning_close(next(CRZ_NUMBER_ACCEPTED));
    crz_put_morning_close(next(CRZ_NUMBER_WRONG_PHASE));
    try_table();
    expect(entries_at(0) + entries_at(1) == CRZ_RECEIPT_COUNT, "all lots are struck, by two quotes");
    expect((entries_at(0) == CRZ_RECEIPT_COUNT) == (first_ask == PRICE), "or by the first");
    expect(entries_at(3) == CRZ_RECEIPT_COUNT, "a close of all lots");
    expect(entries_at(4) == 0 && entries_at(5) > HALF && entries_at(6) == 0, "a close of none, and the penalties");
}

/* ── Tables that are drawn ─────────────────────────────────────────────────────────────────────── */

/* a close every now and then, else a quote, which may take the ask away */
static void draw_for_all(uint8_t *call, const uint8_t *from)
{
    uint32_t contract = 1 + below(CRZ_CONTRACT_COUNT), draw = below(8);
    if (draw == 0 && crz_get_phase(from) == CRZ_PHASE_MORNING)
        crz_put_morning_close(call);
    else if (draw == 0)
        crz_put_day_close(call);
    else
        crz_put_quote(call, contract, draw < 3 ? 0 : PRICE + CRZ_PRICE_STEP * below(9));
}

/* a listing is bid for, and now and then it or its bid is withdrawn */
static void draw_for_listing(uint8_t *call, const struct crz_receipt_fields *receipt, uint32_t lot)
{
    uint32_t bidder = 1 + below(CRZ_ACCOUNT_COUNT), draw = below(8);
    if (draw < 4)
        crz_put_limit_bid(call, bidder, lot, PRICE + CRZ_PRICE_STEP * below(9));
    else if (draw < 6)
        crz_put_market_bid(call, bidder, lot);
    else if (draw == 6)
        crz_put_withdraw_bid(call, receipt->buyer, lot);
    else
        crz_put_withdraw_listing(call, receipt->seller, lot);
}

/* what takes the lot a step on */
static void draw_step(uint8_t *call, const struct crz_receipt_fields *receipt, uint32_t lot)
{
    uint64_t full = crz_full_payment(receipt), half = full / 2 + 1;
    uint32_t contract = 1 + below(CRZ_CONTRACT_COUNT), days = below(CRZ_DAYS_MOST + 1);
    switch (receipt->state) {
    case CRZ_STATE_IDLE: crz_put_list(call, receipt->owner, lot, contract, days, 0); return;
    case CRZ_STATE_LISTED:
    case CRZ_STATE_BID_STANDS: draw_for_listing(call, receipt, lot); return;
    case CRZ_STATE_STRUCK: crz_put_lodge(call, receipt->seller, lot); return;
    case CRZ_STATE_SETTLED: crz_put_first_payment(call, receipt->seller, lot); return;
    case CRZ_STATE_FIRST_PAID:
        if (receipt->pending == 0)
            crz_put_invoice(call, receipt->seller, lot, receipt->confirmed == 0 ? half : full - receipt->confirmed);
        else
            crz_put_confirm(call, receipt->buyer, lot);
        return;
    default: crz_put_take_out(call, receipt->seller, 1 + below(RICH));
    }
}

/* a step, a call for all lots, or one of any kind that the state or the form refuses */
static void draw_call(uint8_t *call, const uint8_t *from)
{
    uint32_t lot = 1 + below(CRZ_RECEIPT_COUNT), draw = below(10), kind = below(18);
    struct crz_receipt_fields receipt = crz_get_receipt(from, lot);
    if (draw < 7)
        draw_step(call, &receipt, lot);
    else if (draw < 8)
        draw_for_all(call, from);
    else
        crz_put_plain_call(call, (enum crz_kind)kind, receipt.owner, lot, draw == 8 ? 0 : PRICE);
}

/* each call is drawn for the image that those before it leave */
static void draw_table(size_t count)
{
    static uint8_t from[CRZ_IMAGE_LENGTH], answer[CRZ_ANSWER_LENGTH];
    size_t i;
    memcpy(from, zone, sizeof from);
    for (i = 0; i < count; i++) {
        uint8_t *call = next(UNKNOWN);
        draw_call(call, from);
        crz_call(from, sizeof from, call, CRZ_CALL_LENGTH, answer, sizeof answer);
    }
}

static void try_drawn(enum crz_phase phase)
{
    unsigned i;
    build_busy("tables that are drawn", phase);
    for (i = 0; i < 300; i++) {
        draw_table(i % 10 == 0 ? CRZ_TABLE_COUNT : below(CRZ_TABLE_COUNT + 1));
        try_table();
    }
}

/* ── All ───────────────────────────────────────────────────────────────────────────────────────── */

/* a table has neither 1 nor 14 in an answer */
static void expect_all_numbers(void)
{
    unsigned i;
    for (i = 0; i < NUMBERS; i++)
        expect((numbers[i] != 0) == (i != CRZ_NUMBER_SHORT_ANSWER), "every number but 1 stands in an answer");
}

static void expect_all_outcomes(void)
{
    unsigned i;
    for (i = CRZ_OUTCOME_REGISTERED; i <= CRZ_OUTCOME_PENALTY; i++)
        expect(outcomes[i] != 0, "every outcome stands in an answer");
}

static void try_phase(enum crz_phase phase)
{
    try_mixed_calls(phase);
    try_closes(phase);
    try_drawn(phase);
    try_bad_images();
}

int main(void)
{
    try_each_length();
    try_empty();
    try_bad_images();
    try_pairs();
    try_chains();
    try_refused_places();
    try_trades();
    try_every_number();
    try_full_answers(PRICE + 16 * CRZ_PRICE_STEP);
    try_full_answers(PRICE);
    try_phase(CRZ_PHASE_MORNING);
    try_phase(CRZ_PHASE_AFTERNOON);
    part = "all tables";
    expect_all_numbers();
    expect_all_outcomes();
    printf("%lu tables\n%lu passed, %lu failed\n", tables, passed, failed);
    return failed != 0;
}
