/*
 * Damaged images: the library's verdict beside that of the plain C ledger (02 4/12). Number, image and answer of a call
 * are compared on each, and number and figures of shortfalls, which have 2 where the call has it.
 *
 * The zones that are damaged have lots in all eight states, with premiums of both signs and invoices confirmed and
 * pending, several of them with one buyer: one with 128 registered receipts, one with unregistered records between, one
 * whose last records are blank. In each of them every field of every record is damaged by itself: a field of one byte
 * gets each other value, a wider one has each bit changed and gets the ends of its range, the numbers beside them and
 * the limits that other fields of the lot set. Where that changes what the lot holds, or from whom, the image is judged
 * once more with the money moved along, and what is paid of a trade with it, so that the record alone decides.
 *
 * Then money is damaged and the records are left: what one lot holds is moved, left out or put twice; a fen is moved
 * between free and frozen money of each account; and frozen money becomes what a walk over the lots that goes wrong
 * somewhere would make of it. Each of these must be refused, and but for the one in which the total is wrong too,
 * nothing but the frozen sums can decide.
 *
 * damage         all of it. The last line is 'N passed, M failed': N counts the fields and the sums that were damaged,
 *                the zones before that and what must be among all of it
 * damage first   ends at the first failure
 */
#include "../include/crz_records.h"

#include <stdio.h>
#include <stdlib.h>

uint32_t plain_call(
    uint8_t *image, size_t image_len, const uint8_t *call, size_t call_len, uint8_t *answer, size_t answer_len);
uint32_t plain_shortfalls(const uint8_t *image, size_t image_len, uint8_t *figures, size_t figures_len);

enum { DAY = 100, ASK = 15000, STATES = 8 };

/* what every account has beside its frozen money: more than its lots hold, so that any of it can be moved */
static const uint64_t free_money = UINT64_C(100000000000);

/* with unregistered receipts nowhere, between the others, at the end */
static enum zone_kind { ALL_REGISTERED, SOME_UNREGISTERED, BLANK_END, ZONES } zone_kind;

/* a valid zone, and the copy of it that is damaged */
static uint8_t zone[CRZ_IMAGE_LENGTH], image[CRZ_IMAGE_LENGTH];
static unsigned long passed, failed, valid, refused;
static int ends_at_first;

/* ── Judge ─────────────────────────────────────────────────────────────────────────────────────── */

/* the number is that of a lot, an account or a walk; the first ten failures are printed */
static void fail(const char *what, uint32_t number)
{
    if (++failed <= 10)
        printf("failed: %s, number %lu of zone %d\n", what, (unsigned long)number, (int)zone_kind + 1);
    if (ends_at_first) {
        printf("0 passed, 1 failed\n");
        exit(1);
    }
}

static void expect(int ok, const char *what, uint32_t number)
{
    if (ok)
        passed++;
    else
        fail(what, number);
}

/* a call that reads much of the image, another one each time */
static void put_some_call(uint8_t *call)
{
    static uint32_t turn;
    turn++;
    switch (turn % 4) {
    case 0: crz_put_pay_in(call, 1 + turn % CRZ_ACCOUNT_COUNT, turn); break;
    case 1: crz_put_quote(call, 1 + turn / 4 % CRZ_CONTRACT_COUNT, ASK); break;
    case 2: crz_put_morning_close(call); break;
    default: crz_put_market_bid(call, 1 + turn % CRZ_ACCOUNT_COUNT, 1 + turn % CRZ_RECEIPT_COUNT);
    }
}

/* shortfalls of the image on both sides, which is bad or not */
static int same_figures(int bad)
{
    static uint8_t figures[CRZ_FIGURES_LENGTH], other[CRZ_FIGURES_LENGTH];
    uint32_t number;
    memset(figures, 0xa5, sizeof figures);
    memset(other, 0xa5, sizeof other);
    number = crz_shortfalls(image, sizeof image, figures, sizeof figures);
    return number == (uint32_t)(bad ? CRZ_NUMBER_BAD_IMAGE : CRZ_NUMBER_ACCEPTED)
           && number == plain_shortfalls(image, sizeof image, other, sizeof other)
           && memcmp(figures, other, sizeof figures) == 0;
}

/* makes a call on the image on both sides; the number, or -1 where they differ */
static int judge(void)
{
    static uint8_t call[CRZ_CALL_LENGTH], ours[CRZ_IMAGE_LENGTH], theirs[CRZ_IMAGE_LENGTH];
    static uint8_t answer[CRZ_ANSWER_LENGTH], other[CRZ_ANSWER_LENGTH];
    uint32_t number;
    int same;
    put_some_call(call);
    memcpy(ours, image, sizeof ours);
    memcpy(theirs, image, sizeof theirs);
    memset(answer, 0xa5, sizeof answer);
    memset(other, 0xa5, sizeof other);
    number = crz_call(ours, sizeof ours, call, sizeof call, answer, sizeof answer);
    same = number == plain_call(theirs, sizeof theirs, call, sizeof call, other, sizeof other);
    same &= memcmp(ours, theirs, sizeof ours) == 0 && memcmp(answer, other, sizeof answer) == 0;
    same &= number == CRZ_NUMBER_ACCEPTED || memcmp(ours, image, sizeof ours) == 0;
    same &= same_figures(number == CRZ_NUMBER_BAD_IMAGE);
    return same ? (int)number : -1;
}

static int judge_damaged(void)
{
    int number = judge();
    refused += number == CRZ_NUMBER_BAD_IMAGE;
    valid += number >= 0 && number != CRZ_NUMBER_BAD_IMAGE;
    return number;
}

/* both refuse the image as it is; the next one is made from the zone again */
static void expect_refused(const char *what, uint32_t number)
{
    expect(judge_damaged() == CRZ_NUMBER_BAD_IMAGE, what, number);
    memcpy(image, zone, sizeof image);
}

/* ── Zones ─────────────────────────────────────────────────────────────────────────────────────── */

static int is_registered(uint32_t lot)
{
    if (zone_kind == SOME_UNREGISTERED)
        return lot % 9 != 4;
    return zone_kind == ALL_REGISTERED || lot <= 100;
}

/* each state in each run of eight lots; the first lot and the last hold money */
static uint32_t state_of(uint32_t lot)
{
    return (lot + lot / 8 + 5) % STATES;
}

/* few buyers, so that each has several lots; the first account and the last are among them */
static uint32_t buyer_of(uint32_t lot)
{
    static const uint8_t buyers[] = {1, 2, 3, 40, 41, 42, 77, 94, 95, 96, 60};
    return buyers[lot % sizeof buyers];
}

/* any other account */
static uint32_t seller_of(uint32_t lot)
{
    uint32_t seller = 1 + lot * 37 % CRZ_ACCOUNT_COUNT;
    return seller == buyer_of(lot) ? seller % CRZ_ACCOUNT_COUNT + 1 : seller;
}

/* the least and the most that a tonne and a lot can cost are among them */
static const struct terms {
    uint32_t price;
    int32_t basis, premium;
    uint32_t weight;
} all_terms[] = {{15000, 300, 0, 41237}, {5, -4, 0, 1000}, {15005, 0, 5000, 41237}, {200000, 50000, 5000, 60000},
    {5, 4996, -5000, 1000}, {15000, -400, -1234, 39999}, {55000, -50000, -4999, 1007}};

static const struct terms *terms_of(uint32_t lot)
{
    return &all_terms[(lot + lot / 8) % (sizeof all_terms / sizeof all_terms[0])];
}

/* nothing, a third or all but a fen is confirmed; nothing is pending, or all, half or the last fen of what is left */
static void put_invoices(struct crz_receipt_fields *receipt, uint32_t lot)
{
    uint32_t full = (uint32_t)crz_full_payment(receipt), confirmed[] = {0, full / 3, full - 1};
    receipt->confirmed = confirmed[lot % 3];
    if (lot % 2 == 0)
        receipt->pending = (full - receipt->confirmed + lot % 3) / (1 + lot % 3);
    receipt->paid = (uint32_t)crz_paid_of_rest(receipt, receipt->confirmed);
}

/* the receipt with what its state fills */
static struct crz_receipt_fields make_receipt(uint32_t lot, uint32_t state)
{
    const struct terms *terms = terms_of(lot);
    struct crz_receipt_fields receipt;
    int has_terms = state >= CRZ_STATE_LISTED && state <= CRZ_STATE_FIRST_PAID;
    int bought = state == CRZ_STATE_SETTLED || state == CRZ_STATE_FIRST_PAID;
    memset(&receipt, 0, sizeof receipt);
    receipt.state = state;
    receipt.owner = bought ? buyer_of(lot) : seller_of(lot);
    receipt.weight = terms->weight;
    receipt.premium = terms->premium;
    receipt.seller = state == CRZ_STATE_IDLE ? 0 : seller_of(lot);
    receipt.buyer = state < CRZ_STATE_BID_STANDS ? 0 : buyer_of(lot);
    receipt.contract = has_terms ? 1 + lot % CRZ_CONTRACT_COUNT : 0;
    receipt.days = has_terms ? lot / 8 % 4 : 0;
    receipt.basis = has_terms ? terms->basis : 0;
    receipt.price = has_terms && state != CRZ_STATE_LISTED ? terms->price : 0;
    receipt.due = state < CRZ_STATE_STRUCK ? 0 : DAY - 2 + lot % 5;
    if (state == CRZ_STATE_FIRST_PAID)
        put_invoices(&receipt, lot);
    return receipt;
}

static void put_receipt(uint32_t lot, const struct crz_receipt_fields *receipt)
{
    uint8_t *record = zone + crz_receipt_offset(lot);
    record[CRZ_RECEIPT_OWNER] = (uint8_t)receipt->owner;
    record[CRZ_RECEIPT_STATE] = (uint8_t)receipt->state;
    record[CRZ_RECEIPT_SELLER] = (uint8_t)receipt->seller;
    record[CRZ_RECEIPT_BUYER] = (uint8_t)receipt->buyer;
    record[CRZ_RECEIPT_CONTRACT] = (uint8_t)receipt->contract;
    record[CRZ_RECEIPT_DAYS] = (uint8_t)receipt->days;
    crz_put_u16(record + CRZ_RECEIPT_DUE, (uint16_t)receipt->due);
    crz_put_u32(record + CRZ_RECEIPT_WEIGHT, receipt->weight);
    crz_put_i32(record + CRZ_RECEIPT_BASIS, receipt->basis);
    crz_put_u32(record + CRZ_RECEIPT_PRICE, receipt->price);
    crz_put_u32(record + CRZ_RECEIPT_PENDING, receipt->pending);
    crz_put_u32(record + CRZ_RECEIPT_CONFIRMED, receipt->confirmed);
    crz_put_u32(record + CRZ_RECEIPT_PAID, receipt->paid);
    crz_put_i32(record + CRZ_RECEIPT_PREMIUM, receipt->premium);
}

static void add_to(uint8_t *sum, uint64_t fen)
{
    crz_put_u64(sum, crz_get_u64(sum) + fen);
}

static uint8_t *free_of(uint8_t *bytes, uint32_t account)
{
    return bytes + crz_account_offset(account) + CRZ_ACCOUNT_FREE;
}

static uint8_t *frozen_of(uint8_t *bytes, uint32_t account)
{
    return bytes + crz_account_offset(account) + CRZ_ACCOUNT_FROZEN;
}

static void put_accounts(void)
{
    uint32_t account;
    for (account = 1; account <= CRZ_ACCOUNT_COUNT; account++) {
        crz_put_u64(free_of(zone, account), free_money);
        add_to(zone + CRZ_IMAGE_TOTAL, free_money);
    }
}

static void put_lot(uint32_t lot)
{
    struct crz_receipt_fields receipt = make_receipt(lot, state_of(lot));
    put_receipt(lot, &receipt);
    if (receipt.buyer == 0)
        return;
    add_to(frozen_of(zone, receipt.buyer), crz_held_money(&receipt));
    add_to(zone + CRZ_IMAGE_TOTAL, crz_held_money(&receipt));
}

static void make_zone(void)
{
    uint32_t lot;
    int number;
    crz_fresh(zone, sizeof zone);
    crz_put_u16(zone + CRZ_IMAGE_DAY, DAY);
    crz_put_u32(zone + crz_ask_offset(2), ASK);
    crz_put_u32(zone + crz_ask_offset(CRZ_CONTRACT_COUNT), CRZ_PRICE_MOST);
    put_accounts();
    for (lot = 1; lot <= CRZ_RECEIPT_COUNT; lot++)
        if (is_registered(lot))
            put_lot(lot);
    memcpy(image, zone, sizeof image);
    number = judge();
    expect(number >= 0 && number != CRZ_NUMBER_BAD_IMAGE, "the undamaged zone is valid", 0);
}

/* ── Fields ────────────────────────────────────────────────────────────────────────────────────── */

enum { MOST_VALUES = 256 };

struct values {
    size_t count;
    uint64_t list[MOST_VALUES];
};

static void add_value(struct values *values, int64_t value)
{
    values->list[values->count++] = (uint64_t)value;
}

/* an end of a range and the numbers beside it */
static void add_about(struct values *values, int64_t value)
{
    add_value(values, value - 1);
    add_value(values, value);
    add_value(values, value + 1);
}

static void add_ends(struct values *values, int64_t least, int64_t most)
{
    add_about(values, least);
    add_about(values, most);
}

static void add_bytes(struct values *values)
{
    int64_t value;
    for (value = 0; value < 256; value++)
        add_value(values, value);
}

static void add_bits(struct values *values, uint64_t value, unsigned bits)
{
    while (bits-- > 0)
        add_value(values, (int64_t)(value ^ UINT64_C(1) << bits));
}

static const struct field {
    const char *name;
    unsigned offset, width;
} fields[] = {{"owner", CRZ_RECEIPT_OWNER, 1}, {"state", CRZ_RECEIPT_STATE, 1}, {"seller", CRZ_RECEIPT_SELLER, 1},
    {"buyer", CRZ_RECEIPT_BUYER, 1}, {"contract", CRZ_RECEIPT_CONTRACT, 1}, {"days", CRZ_RECEIPT_DAYS, 1},
    {"due", CRZ_RECEIPT_DUE, 2}, {"weight", CRZ_RECEIPT_WEIGHT, 4}, {"basis", CRZ_RECEIPT_BASIS, 4},
    {"price", CRZ_RECEIPT_PRICE, 4}, {"pending", CRZ_RECEIPT_PENDING, 4}, {"confirmed", CRZ_RECEIPT_CONFIRMED, 4},
    {"paid", CRZ_RECEIPT_PAID, 4}, {"premium", CRZ_RECEIPT_PREMIUM, 4}};

enum { FIELDS = sizeof fields / sizeof fields[0] };

/* the ends of a wide field's range, and the limits that the other fields set: nothing or one yuan to pay for a tonne,
 * an invoice up to the full payment, what is paid by the formula */
static void add_limits(struct values *values, unsigned offset, const struct crz_receipt_fields *receipt)
{
    int64_t price = receipt->price, basis = receipt->basis, premium = receipt->premium;
    int64_t full = (int64_t)crz_full_payment(receipt), confirmed = receipt->confirmed, pending = receipt->pending;
    switch (offset) {
    case CRZ_RECEIPT_DUE: add_ends(values, CRZ_DUE_LEAST, CRZ_DUE_MOST); break;
    case CRZ_RECEIPT_WEIGHT: add_ends(values, CRZ_WEIGHT_LEAST, CRZ_WEIGHT_MOST); break;
    case CRZ_RECEIPT_BASIS:
        add_ends(values, CRZ_BASIS_LEAST, CRZ_BASIS_MOST);
        add_about(values, -price - premium);
        break;
    case CRZ_RECEIPT_PREMIUM:
        add_ends(values, CRZ_PREMIUM_LEAST, CRZ_PREMIUM_MOST);
        add_about(values, -price - basis);
        break;
    case CRZ_RECEIPT_PRICE:
        add_ends(values, CRZ_PRICE_LEAST, CRZ_PRICE_MOST);
        add_value(values, CRZ_PRICE_MOST + CRZ_PRICE_STEP);
        add_about(values, -basis - premium);
        break;
    case CRZ_RECEIPT_PENDING: add_ends(values, full - confirmed, full); break;
    case CRZ_RECEIPT_CONFIRMED: add_ends(values, full - pending, full); break;
    default: add_ends(values, (int64_t)crz_paid_of_rest(receipt, receipt->confirmed), full / 5);
    }
}

/* where the lot is in state 6 before and after, paid becomes what the formula says */
static void fit_paid(uint32_t lot)
{
    struct crz_receipt_fields then = crz_get_receipt(zone, lot), now = crz_get_receipt(image, lot);
    uint8_t *record = image + crz_receipt_offset(lot);
    if (then.state == CRZ_STATE_FIRST_PAID && now.state == then.state && now.paid == then.paid)
        crz_put_u32(record + CRZ_RECEIPT_PAID, (uint32_t)crz_paid_of_rest(&now, now.confirmed));
}

/* frozen money of an account, and the total with it */
static void put_held(uint32_t account, uint64_t fen)
{
    add_to(frozen_of(image, account), fen);
    add_to(image + CRZ_IMAGE_TOTAL, fen);
}

/* frozen money and total follow a damaged record; whether they have moved. What would be held from nobody is gone. */
static int move_along(uint32_t lot)
{
    struct crz_receipt_fields then = crz_get_receipt(zone, lot), now;
    uint64_t held_then, held_now;
    fit_paid(lot);
    now = crz_get_receipt(image, lot);
    held_then = crz_held_money(&then);
    held_now = crz_held_money(&now);
    if (held_then == held_now && (then.buyer == now.buyer || held_now == 0))
        return 0;
    if (then.buyer != 0)
        put_held(then.buyer, 0 - held_then);
    if (crz_is_place(now.buyer, CRZ_ACCOUNT_COUNT))
        put_held(now.buyer, held_now);
    return 1;
}

/* one value of one field; whether both sides agree, with the money as it is and moved along */
static int agree_on_value(uint32_t lot, const struct field *field, uint64_t value)
{
    uint8_t *at = image + crz_receipt_offset(lot) + field->offset;
    uint64_t before = crz_get_bytes(at, field->width);
    int agreed = 1;
    crz_put_bytes(at, field->width, value);
    if (crz_get_bytes(at, field->width) == before)
        return 1;
    agreed &= judge_damaged() >= 0;
    if (move_along(lot))
        agreed &= judge_damaged() >= 0;
    memcpy(image, zone, sizeof image);
    return agreed;
}

static void damage_field(uint32_t lot, const struct field *field)
{
    static struct values values;
    struct crz_receipt_fields receipt = crz_get_receipt(zone, lot);
    const uint8_t *at = zone + crz_receipt_offset(lot) + field->offset;
    int agreed = 1;
    size_t i;
    values.count = 0;
    if (field->width == 1) {
        add_bytes(&values);
    } else {
        add_bits(&values, crz_get_bytes(at, field->width), 8 * field->width);
        add_limits(&values, field->offset, &receipt);
    }
    for (i = 0; i < values.count; i++)
        agreed &= agree_on_value(lot, field, values.list[i]);
    expect(agreed, field->name, lot);
}

static void damage_fields(void)
{
    uint32_t i;
    for (i = 0; i < CRZ_RECEIPT_COUNT * FIELDS; i++)
        damage_field(1 + i / FIELDS, &fields[i % FIELDS]);
}

/* ── What one lot holds ────────────────────────────────────────────────────────────────────────── */

/* lots that must be among those that hold money: of each state, the first and the last, of the first account and of the
 * last, and the first ones behind a receipt that is idle and behind one that is not registered */
enum place { FIRST_LOT, LAST_LOT, FIRST_ACCOUNT, LAST_ACCOUNT, BEHIND_IDLE, BEHIND_UNREGISTERED, PLACES };
static unsigned long in_state[STATES], at_place[PLACES];

/* whether a receipt before the lot is idle, registered or not, and no lot between holds money */
static int is_first_behind(uint32_t lot, int registered)
{
    struct crz_receipt_fields receipt;
    do
        receipt = crz_get_receipt(zone, --lot);
    while (lot > 0 && crz_held_money(&receipt) == 0 && receipt.state != CRZ_STATE_IDLE);
    return lot > 0 && receipt.state == CRZ_STATE_IDLE && (receipt.owner != 0) == registered;
}

static void count_place(uint32_t lot, const struct crz_receipt_fields *receipt)
{
    in_state[receipt->state]++;
    at_place[FIRST_LOT] += lot == 1;
    at_place[LAST_LOT] += lot == CRZ_RECEIPT_COUNT;
    at_place[FIRST_ACCOUNT] += receipt->buyer == 1;
    at_place[LAST_ACCOUNT] += receipt->buyer == CRZ_ACCOUNT_COUNT;
    at_place[BEHIND_IDLE] += (unsigned long)is_first_behind(lot, 1);
    at_place[BEHIND_UNREGISTERED] += (unsigned long)is_first_behind(lot, 0);
}

static void move(uint8_t *from, uint8_t *to, uint64_t fen)
{
    add_to(from, 0 - fen);
    add_to(to, fen);
}

static uint32_t account_before(uint32_t account)
{
    return account == 1 ? CRZ_ACCOUNT_COUNT : account - 1;
}

static uint32_t account_after(uint32_t account)
{
    return account == CRZ_ACCOUNT_COUNT ? 1 : account + 1;
}

/* to another account's frozen money: the total stays */
static void move_to_others(uint32_t lot, const struct crz_receipt_fields *receipt)
{
    uint8_t *frozen = frozen_of(image, receipt->buyer);
    uint64_t held = crz_held_money(receipt);
    move(frozen, frozen_of(image, receipt->seller), held);
    expect_refused("what a lot holds is frozen from its seller", lot);
    move(frozen, frozen_of(image, account_before(receipt->buyer)), held);
    expect_refused("what a lot holds is frozen from the account before", lot);
    move(frozen, frozen_of(image, account_after(receipt->buyer)), held);
    expect_refused("what a lot holds is frozen from the account behind", lot);
}

/* left out or put twice; free money or the total takes the difference, or neither does */
static void leave_out_or_double(uint32_t lot, const struct crz_receipt_fields *receipt)
{
    uint8_t *frozen = frozen_of(image, receipt->buyer), *free = free_of(image, receipt->buyer);
    uint8_t *total = image + CRZ_IMAGE_TOTAL;
    uint64_t held = crz_held_money(receipt);
    move(frozen, free, held);
    expect_refused("what a lot holds is free", lot);
    move(free, frozen, held);
    expect_refused("what a lot holds is frozen twice", lot);
    add_to(frozen, 0 - held);
    expect_refused("what a lot holds is gone, and the total has it", lot);
    add_to(frozen, 0 - held);
    add_to(total, 0 - held);
    expect_refused("what a lot holds is gone", lot);
    add_to(frozen, held);
    add_to(total, held);
    expect_refused("what a lot holds is there twice", lot);
}

/* one fen is enough */
static void move_a_fen(uint32_t lot, const struct crz_receipt_fields *receipt)
{
    uint8_t *frozen = frozen_of(image, receipt->buyer);
    move(frozen, free_of(image, receipt->buyer), 1);
    expect_refused("a fen of what a lot holds is free", lot);
    move(frozen, frozen_of(image, receipt->seller), 1);
    expect_refused("a fen of what a lot holds is frozen from its seller", lot);
}

static void damage_holds(void)
{
    uint32_t lot;
    for (lot = 1; lot <= CRZ_RECEIPT_COUNT; lot++) {
        struct crz_receipt_fields receipt = crz_get_receipt(zone, lot);
        if (crz_held_money(&receipt) == 0)
            continue;
        count_place(lot, &receipt);
        move_to_others(lot, &receipt);
        leave_out_or_double(lot, &receipt);
        move_a_fen(lot, &receipt);
    }
}

/* accounts that no lot names too */
static void damage_accounts(void)
{
    uint32_t account;
    for (account = 1; account <= CRZ_ACCOUNT_COUNT; account++) {
        uint8_t *frozen = frozen_of(image, account), *free = free_of(image, account);
        move(free, frozen, 1);
        expect_refused("a fen more is frozen from the account", account);
        move(free, frozen_of(image, account_after(account)), CRZ_DEPOSIT);
        expect_refused("a deposit is frozen that no lot holds", account);
        if (crz_get_u64(frozen) == 0)
            continue;
        move(frozen, free, 1);
        expect_refused("a fen less is frozen from the account", account);
        move(frozen, free, crz_get_u64(frozen));
        expect_refused("nothing is frozen from the account", account);
    }
}

/* ── Walks that go wrong ───────────────────────────────────────────────────────────────────────── */

enum walk {
    TO_SELLER,
    TO_OWNER,
    TO_ACCOUNT_BEFORE,
    TO_ACCOUNT_AFTER,
    LAST_LOT_OF_EACH,
    FIRST_LOT_OF_EACH,
    WITHOUT_FIRST_LOT,
    WITHOUT_LAST_LOT,
    WITHOUT_FIRST_ACCOUNT,
    WITHOUT_LAST_ACCOUNT,
    UP_TO_IDLE,
    UP_TO_UNREGISTERED,
    WITHOUT_STATE, /* the first of five, one for each state from 2 to 6 */
    WALKS = WITHOUT_STATE + 5
};

static unsigned long differing[WALKS];

/* what the walk adds to the sums at a lot; whether it goes on */
static int walk_past(enum walk walk, uint32_t lot, uint64_t *sums)
{
    struct crz_receipt_fields receipt = crz_get_receipt(zone, lot);
    uint64_t held = crz_held_money(&receipt);
    uint32_t buyer = receipt.buyer;
    if (walk == UP_TO_IDLE && receipt.owner != 0 && receipt.state == CRZ_STATE_IDLE)
        return 0;
    if (walk == UP_TO_UNREGISTERED && receipt.owner == 0)
        return 0;
    if (held == 0)
        return 1;
    switch (walk) {
    case TO_SELLER: sums[receipt.seller] += held; break;
    case TO_OWNER: sums[receipt.owner] += held; break;
    case TO_ACCOUNT_BEFORE: sums[account_before(buyer)] += held; break;
    case TO_ACCOUNT_AFTER: sums[account_after(buyer)] += held; break;
    case LAST_LOT_OF_EACH: sums[buyer] = held; break;
    case FIRST_LOT_OF_EACH: sums[buyer] += sums[buyer] == 0 ? held : 0; break;
    case WITHOUT_FIRST_LOT: sums[buyer] += lot == 1 ? 0 : held; break;
    case WITHOUT_LAST_LOT: sums[buyer] += lot == CRZ_RECEIPT_COUNT ? 0 : held; break;
    case WITHOUT_FIRST_ACCOUNT: sums[buyer] += buyer == 1 ? 0 : held; break;
    case WITHOUT_LAST_ACCOUNT: sums[buyer] += buyer == CRZ_ACCOUNT_COUNT ? 0 : held; break;
    case UP_TO_IDLE:
    case UP_TO_UNREGISTERED: sums[buyer] += held; break;
    default: sums[buyer] += receipt.state - CRZ_STATE_BID_STANDS == (uint32_t)(walk - WITHOUT_STATE) ? 0 : held;
    }
    return 1;
}

/* the account's frozen money becomes this sum, and its free money takes the difference; whether there is one */
static int put_frozen(uint32_t account, uint64_t sum)
{
    uint64_t more = sum - crz_get_u64(frozen_of(image, account));
    move(free_of(image, account), frozen_of(image, account), more);
    return more != 0;
}

static int put_all_frozen(const uint64_t *sums)
{
    uint32_t account;
    int differs = 0;
    for (account = 1; account <= CRZ_ACCOUNT_COUNT; account++)
        differs |= put_frozen(account, sums[account]);
    return differs;
}

/* an image that such a walk would find valid; where the walk comes to the right sums after all, it is, and nothing is
 * tried */
static void damage_by_walk(enum walk walk)
{
    uint64_t sums[CRZ_ACCOUNT_COUNT + 1] = {0};
    uint32_t lot = 1;
    while (lot <= CRZ_RECEIPT_COUNT && walk_past(walk, lot, sums))
        lot++;
    if (!put_all_frozen(sums))
        return;
    differing[walk]++;
    expect_refused("frozen money of a walk that goes wrong", walk);
}

static void damage_by_walks(void)
{
    int walk;
    for (walk = 0; walk < WALKS; walk++)
        damage_by_walk((enum walk)walk);
}

/* ── What was tried ────────────────────────────────────────────────────────────────────────────── */

static void expect_each(const unsigned long *counts, uint32_t first, uint32_t end, const char *what)
{
    uint32_t i;
    for (i = first; i < end; i++)
        expect(counts[i] != 0, what, i);
}

static void expect_all_tried(void)
{
    expect_each(in_state, CRZ_STATE_BID_STANDS, CRZ_STATE_FIRST_PAID + 1, "a lot of this state holds money");
    expect_each(at_place, 0, PLACES, "a lot at this place holds money");
    expect_each(differing, 0, WALKS, "the walk comes to other sums");
    expect(valid > 40000, "many damaged images are valid", 0);
    expect(refused > 600000, "many damaged images are not", 0);
    printf("%lu damaged images: %lu valid, %lu not\n", valid + refused, valid, refused);
}

int main(int argc, char **argv)
{
    int kind;
    ends_at_first = argc == 2 && strcmp(argv[1], "first") == 0;
    for (kind = 0; kind < ZONES; kind++) {
        zone_kind = (enum zone_kind)kind;
        make_zone();
        damage_by_walks();
        damage_holds();
        damage_accounts();
        damage_fields();
    }
    expect_all_tried();
    printf("%lu passed, %lu failed\n", passed, failed);
    return failed != 0;
}
