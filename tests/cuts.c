/*
 * Invoices cut in many ways (02 3/12). A trade whose first payment is made is invoiced, always from the same image, in
 * pieces of one fen, in halves, at random, at once, by itself, with other calls between, in tables of calls (02 5/12),
 * and by turns in tables and singly. What lot LOT's outcomes 11 have paid is held to the formula at every confirmed
 * sum, and to what the other ways have paid at the same sum; a later trade of the same receipt is counted by itself.
 * Images in which something else is paid are refused and stay as they were. The last line is 'N passed, M failed'.
 */
#include "../include/crz_records.h"

#include <stdio.h>

enum { SELLER = 1, BUYER = 2, THIRD = 3, LOT = 9, OTHER = 10, CONTRACT = 4, OTHER_PRICE = 15000, MOST_SUMS = 4096 };

static uint8_t image[CRZ_IMAGE_LENGTH], start[CRZ_IMAGE_LENGTH], call[CRZ_CALL_LENGTH], answer[CRZ_ANSWER_LENGTH];
static unsigned long passed, failed;

/* ── Trades ────────────────────────────────────────────────────────────────────────────────────── */

/* what a lot costs; the first is example 4's, with a full payment of 100 fen */
static const struct terms {
    uint32_t price;
    int32_t basis, premium;
    uint32_t weight;
} all_terms[] = {{5, -4, 0, 1000}, {5, 4996, -5000, 1000}, {5, -4, 0, 1007}, {5, -8, 5, 1037}, {5, 5000, -5000, 1003},
    {15000, 300, 0, 41237}, {15000, 300, -5000, 41237}, {15005, 300, 5000, 41237}, {200000, 50000, 5000, 60000}};

/* where a way of cutting begins: with nothing confirmed, with a third, with a third pending, with all but a fen */
enum beginning { NOTHING_CONFIRMED, THIRD_CONFIRMED, THIRD_PENDING, ALL_BUT_A_FEN, BEGINNINGS };

/* the trade under way: what its outcomes 11 have paid since the start, up to its end */
static struct trade {
    uint64_t full, rest, paid_at_start, confirmed, paid;
    unsigned long listed;
} trade;

/* outcomes 11 of the lot after the trade's end */
static uint64_t paid_later;

/* what this confirmed sum must have brought since the start */
static uint64_t formula(uint64_t confirmed)
{
    return trade.rest * confirmed / trade.full - trade.paid_at_start;
}

/* a step that leads to a test is counted where it fails; the first ten failures are printed */
static void need(int ok, const char *what)
{
    if (ok || ++failed > 10)
        return;
    printf("failed: %s (full %lu, confirmed %lu, paid %lu)\n", what, (unsigned long)trade.full,
        (unsigned long)trade.confirmed, (unsigned long)trade.paid);
}

static void expect(int ok, const char *what)
{
    passed += ok != 0;
    need(ok, what);
}

static void count_entry(const struct crz_entry_fields *entry)
{
    if (entry->lot != LOT || entry->outcome != CRZ_OUTCOME_PART_PAID)
        return;
    if (trade.confirmed == trade.full) {
        paid_later += entry->number;
        return;
    }
    trade.paid += entry->number;
    trade.listed++;
}

/* counts what the answer lists */
static void count_entries(void)
{
    uint32_t i, count = crz_get_answer(answer).count;
    for (i = 0; i < count; i++) {
        struct crz_entry_fields entry = crz_get_entry(answer, i);
        count_entry(&entry);
    }
}

/* makes the call, which must return this number */
static void make(uint32_t number, const char *what)
{
    need(crz_call(image, sizeof image, call, sizeof call, answer, sizeof answer) == number, what);
    count_entries();
}

static void accept(const char *what)
{
    make(CRZ_NUMBER_ACCEPTED, what);
}

/* ── A lot up to its first payment ─────────────────────────────────────────────────────────────── */

static void close_morning(void)
{
    if (crz_get_phase(image) == CRZ_PHASE_AFTERNOON) {
        crz_put_day_close(call);
        accept("a day close");
    }
    crz_put_morning_close(call);
    accept("a morning close");
}

/* an idle receipt is sold and settled, and its first payment made */
static void sell(uint32_t seller, uint32_t buyer, uint32_t lot, uint32_t price, int32_t basis)
{
    crz_put_list(call, seller, lot, CONTRACT, 0, basis);
    accept("listed");
    crz_put_limit_bid(call, buyer, lot, price);
    accept("bid");
    crz_put_quote(call, CONTRACT, price);
    accept("struck");
    crz_put_lodge(call, seller, lot);
    accept("lodged");
    close_morning();
    crz_put_first_payment(call, seller, lot);
    accept("first paid");
}

static void open_zone(const struct terms *terms)
{
    uint32_t account;
    crz_fresh(image, sizeof image);
    for (account = SELLER; account <= THIRD; account++) {
        crz_put_pay_in(call, account, UINT64_C(10000000000));
        accept("paid in");
    }
    crz_put_register(call, SELLER, OTHER, 41237, -300);
    accept("the other receipt registered");
    sell(SELLER, BUYER, OTHER, OTHER_PRICE, 300);
    crz_put_register(call, SELLER, LOT, terms->weight, terms->premium);
    accept("registered");
    sell(SELLER, BUYER, LOT, terms->price, terms->basis);
}

static void invoice(uint32_t seller, uint32_t lot, uint64_t amount)
{
    crz_put_invoice(call, seller, lot, amount);
    accept("invoiced");
}

static void confirm(uint32_t buyer, uint32_t lot)
{
    crz_put_confirm(call, buyer, lot);
    accept("confirmed");
}

/* whether the trade is in state 6 then */
static int begin(const struct terms *terms, enum beginning beginning)
{
    struct crz_receipt_fields lot;
    uint64_t full;
    memset(&trade, 0, sizeof trade);
    open_zone(terms);
    lot = crz_get_receipt(image, LOT);
    full = crz_full_payment(&lot);
    if (beginning != NOTHING_CONFIRMED)
        invoice(SELLER, LOT, beginning == ALL_BUT_A_FEN ? full - 1 : full / 3);
    if (beginning == THIRD_CONFIRMED || beginning == ALL_BUT_A_FEN)
        confirm(BUYER, LOT);
    memcpy(start, image, sizeof start);
    need(crz_get_receipt(start, LOT).state == CRZ_STATE_FIRST_PAID, "a trade with its first payment made");
    return crz_get_receipt(start, LOT).state == CRZ_STATE_FIRST_PAID;
}

/* ── Ways to cut ───────────────────────────────────────────────────────────────────────────────── */

static uint64_t random_state = UINT64_C(0x9e3779b97f4a7c15);

static uint64_t below(uint64_t n)
{
    random_state ^= random_state << 13;
    random_state ^= random_state >> 7;
    random_state ^= random_state << 17;
    return (random_state >> 11) % n;
}

/* the invoice with this number, from 0 on, where so much is left; more than is left means all of it */
typedef uint64_t cut(uint64_t left, unsigned number);

static uint64_t at_once(uint64_t left, unsigned number)
{
    (void)number;
    return left;
}

static uint64_t by_fen(uint64_t left, unsigned number)
{
    (void)left;
    (void)number;
    return 1;
}

static uint64_t by_halves(uint64_t left, unsigned number)
{
    (void)number;
    return (left + 1) / 2;
}

/* 33, 33 and 34 of a hundred */
static uint64_t by_thirds(uint64_t left, unsigned number)
{
    return number < 2 ? trade.full * 33 / 100 : left;
}

static uint64_t by_doubling(uint64_t left, unsigned number)
{
    return number < 31 ? UINT64_C(1) << number : left;
}

static uint64_t all_but_a_fen(uint64_t left, unsigned number)
{
    (void)number;
    return left > 1 ? left - 1 : 1;
}

static uint64_t by_tenths(uint64_t left, unsigned number)
{
    (void)left;
    (void)number;
    return trade.full / 10;
}

/* no further than to the next eighth of the full payment, so that these meet at the eighths */
static uint64_t at_random(uint64_t left, unsigned number)
{
    uint64_t eighth = trade.full / 8, to_next = eighth - trade.confirmed % eighth;
    (void)left;
    (void)number;
    return below(3) == 0 ? to_next : 1 + below(to_next);
}

static const struct {
    cut *size;
    uint64_t most_full; /* for full payments up to this */
} cuts[] = {{at_once, UINT64_MAX}, {by_fen, 1000}, {by_halves, UINT64_MAX}, {by_thirds, UINT64_MAX},
    {by_doubling, UINT64_MAX}, {all_but_a_fen, UINT64_MAX}, {by_tenths, UINT64_MAX}, {at_random, UINT64_MAX},
    {at_random, UINT64_MAX}, {at_random, UINT64_MAX}, {at_random, UINT64_MAX}};

enum { CUTS = sizeof cuts / sizeof cuts[0] };

/* ── Other calls between ───────────────────────────────────────────────────────────────────────── */

/* with nothing pending of the trade, which is not over */
static void call_between(unsigned number)
{
    static const uint32_t numbers[] = {CRZ_NUMBER_ACCEPTED, CRZ_NUMBER_OVER_INVOICE, CRZ_NUMBER_WRONG_STATE,
        CRZ_NUMBER_ACCEPTED, CRZ_NUMBER_WRONG_PARTY, CRZ_NUMBER_WRONG_STATE, CRZ_NUMBER_ACCEPTED};
    switch (number % 8) {
    case 0: crz_put_pay_in(call, THIRD, 1 + number); break;
    case 1: crz_put_invoice(call, SELLER, LOT, trade.full - trade.confirmed + 1); break;
    case 2: crz_put_confirm(call, BUYER, LOT); break;
    case 3: crz_put_quote(call, CONTRACT, number % 16 == 3 ? 0 : OTHER_PRICE); break;
    case 4: crz_put_invoice(call, BUYER, LOT, 1); break;
    case 5: crz_put_limit_bid(call, THIRD, LOT, OTHER_PRICE); break;
    case 6:
        invoice(SELLER, OTHER, 1 + number);
        crz_put_confirm(call, BUYER, OTHER);
        break;
    default: close_morning(); return;
    }
    make(numbers[number % 8], "a call between");
}

/* with an invoice of the trade pending */
static void call_before_confirmation(unsigned number)
{
    static const uint32_t numbers[] = {
        CRZ_NUMBER_WRONG_PARTY, CRZ_NUMBER_WRONG_STATE, CRZ_NUMBER_ACCEPTED, CRZ_NUMBER_WRONG_STATE};
    switch (number % 4) {
    case 0: crz_put_confirm(call, SELLER, LOT); break;
    case 1: crz_put_invoice(call, SELLER, LOT, 1); break;
    case 2: crz_put_take_out(call, BUYER, 1 + number); break;
    default: crz_put_list(call, BUYER, LOT, CONTRACT, 0, 0); break;
    }
    make(numbers[number % 4], "a call before the confirmation");
}

/* ── One way of cutting ────────────────────────────────────────────────────────────────────────── */

/* sums that were confirmed, from the same image on, and what was paid by then */
static struct {
    uint64_t confirmed, paid;
} sums[MOST_SUMS];
static size_t sum_count;

/* how often a way came to a sum of another one; the full payment, where all of them meet, is not counted */
static unsigned long common_sums;

static void compare_with_others(void)
{
    size_t i = 0;
    while (i < sum_count && sums[i].confirmed != trade.confirmed)
        i++;
    if (i < sum_count) {
        expect(sums[i].paid == trade.paid, "another way of cutting has paid the same");
        common_sums += trade.confirmed < trade.full;
        return;
    }
    if (sum_count < MOST_SUMS) {
        sums[sum_count].confirmed = trade.confirmed;
        sums[sum_count++].paid = trade.paid;
    }
}

/* the answer confirms an invoice, before which so many parts were listed; a part of nothing is listed too */
static void expect_part(uint64_t invoice, unsigned long listed)
{
    struct crz_entry_fields entry = crz_get_entry(answer, 0);
    trade.confirmed += invoice;
    expect(trade.listed == listed + 1 && crz_get_answer(answer).count == 1 && entry.from == BUYER && entry.to == SELLER,
        "a part is listed once, from the buyer to the seller");
    expect(trade.paid == formula(trade.confirmed), "what is paid is the formula's");
    compare_with_others();
}

static void confirm_pending(uint64_t pending)
{
    unsigned long listed = trade.listed;
    confirm(BUYER, LOT);
    expect_part(pending, listed);
}

/* what is invoiced next; nothing where all is */
static uint64_t next_invoice(cut *size, unsigned number)
{
    uint64_t left = trade.full - trade.confirmed, wanted = left == 0 ? 0 : size(left, number);
    return wanted < left ? wanted : left;
}

/* `between` is 0 for no other calls, else where in their order they begin */
static void cut_once(cut *size, unsigned number, unsigned between)
{
    uint64_t amount = next_invoice(size, number);
    if (between)
        call_between(between + number);
    invoice(SELLER, LOT, amount);
    if (between)
        call_before_confirmation(between + number);
    confirm_pending(amount);
}

/* ── In tables ─────────────────────────────────────────────────────────────────────────────────── */

/* of each invoice: a fen more than is left, itself, a confirmation by the wrong party, and the right one */
enum { CALLS_EACH = 4, MOST_INVOICES = CRZ_TABLE_COUNT / CALLS_EACH };
static const uint8_t numbers_each[CALLS_EACH] = {
    CRZ_NUMBER_OVER_INVOICE, CRZ_NUMBER_ACCEPTED, CRZ_NUMBER_WRONG_PARTY, CRZ_NUMBER_ACCEPTED};

static uint8_t table[CRZ_TABLE_COUNT * CRZ_CALL_LENGTH], answers[CRZ_TABLE_COUNT * CRZ_ANSWER_LENGTH];

static void put_cut(size_t place, uint64_t amount)
{
    uint8_t *calls = table + crz_call_offset(CALLS_EACH * place);
    crz_put_invoice(calls, SELLER, LOT, trade.full - trade.confirmed + 1);
    crz_put_invoice(calls + crz_call_offset(1), SELLER, LOT, amount);
    crz_put_confirm(calls + crz_call_offset(2), SELLER, LOT);
    crz_put_confirm(calls + crz_call_offset(3), BUYER, LOT);
}

/* the next invoices of this way of cutting, as many as one table has; how many they are */
static size_t put_cuts(cut *size, unsigned number, uint64_t *amounts)
{
    uint64_t confirmed = trade.confirmed;
    size_t count = 0;
    while (count < MOST_INVOICES && trade.confirmed < trade.full) {
        amounts[count] = next_invoice(size, number + (unsigned)count);
        put_cut(count, amounts[count]);
        trade.confirmed += amounts[count++];
    }
    trade.confirmed = confirmed;
    return count;
}

/* call `place` of the table has its number, and its answer is counted like that of a single call */
static void read_answer(size_t place, uint64_t amount)
{
    unsigned long listed = trade.listed;
    memcpy(answer, answers + crz_answer_offset(place), sizeof answer);
    need(answer[CRZ_ANSWER_NUMBER] == numbers_each[place % CALLS_EACH], "a number in a table");
    count_entries();
    if (place % CALLS_EACH == CALLS_EACH - 1)
        expect_part(amount, listed);
}

/* how many invoices the table has cut */
static unsigned cut_in_table(cut *size, unsigned number)
{
    uint64_t amounts[MOST_INVOICES];
    size_t count = put_cuts(size, number, amounts), made = CALLS_EACH * count, i;
    memset(answers, 0xa5, sizeof answers);
    need(crz_table(image, sizeof image, table, crz_call_offset(made), answers, sizeof answers) == 0, "a table");
    for (i = 0; i < made; i++)
        read_answer(i, amounts[i / CALLS_EACH]);
    return (unsigned)count;
}

/* ── All invoices of a trade ───────────────────────────────────────────────────────────────────── */

/* the buyer sells the receipt on: none of that is the first trade's */
static void sell_again(const struct terms *terms)
{
    uint64_t paid = trade.paid, full = trade.full;
    paid_later = 0;
    sell(BUYER, THIRD, LOT, terms->price, terms->basis);
    invoice(BUYER, LOT, full / 2);
    confirm(THIRD, LOT);
    invoice(BUYER, LOT, full - full / 2);
    confirm(THIRD, LOT);
    expect(paid_later == trade.rest, "the later trade has paid its own rest");
    expect(trade.paid == paid, "and nothing more of the first one");
}

/* reads the trade as the start has it */
static void read_trade(void)
{
    struct crz_receipt_fields lot = crz_get_receipt(start, LOT);
    memset(&trade, 0, sizeof trade);
    trade.full = crz_full_payment(&lot);
    trade.rest = crz_rest_payment(&lot);
    trade.confirmed = lot.confirmed;
    trade.paid_at_start = lot.paid;
}

/* by itself, with other calls between, in tables, by turns singly and in tables */
enum manner { ALONE, WITH_OTHERS, IN_TABLES, BY_TURNS, MANNERS };

/* from this number on, one invoice or as many as a table has; the number of the next one */
static unsigned cut_next(cut *size, unsigned number, enum manner manner, unsigned between)
{
    if (manner == IN_TABLES || (manner == BY_TURNS && number % 2 == 1))
        return number + cut_in_table(size, number);
    cut_once(size, number, manner == WITH_OTHERS ? between : 0);
    return number + 1;
}

/* `between` is where in their order other calls begin */
static void cut_all(cut *size, const struct terms *terms, enum manner manner, unsigned between)
{
    uint64_t pending = crz_get_receipt(start, LOT).pending;
    unsigned number = 0;
    memcpy(image, start, sizeof image);
    read_trade();
    expect(formula(trade.confirmed) == 0, "the start has paid what the formula says");
    if (pending != 0)
        confirm_pending(pending);
    while (trade.confirmed < trade.full)
        number = cut_next(size, number, manner, between);
    expect(trade.paid == trade.rest - trade.paid_at_start, "the whole rest is paid");
    expect(crz_get_receipt(image, LOT).state == CRZ_STATE_IDLE, "the lot has ended");
    sell_again(terms);
}

/* every way from one start, each in every manner */
static void try_cuts(const struct terms *terms, enum beginning beginning)
{
    unsigned i;
    sum_count = 0;
    common_sums = 0;
    read_trade();
    for (i = 0; i < MANNERS * CUTS; i++)
        if (trade.full <= cuts[i / MANNERS].most_full)
            cut_all(cuts[i / MANNERS].size, terms, (enum manner)(i % MANNERS), i / MANNERS + 1);
    if (beginning == ALL_BUT_A_FEN)
        expect(common_sums == 0, "a last fen cannot be cut");
    else /* an invoice that is pending at the start brings all ways to one sum, which is not enough */
        expect(common_sums > MANNERS * CUTS, "ways of cutting meet at common sums");
}

/* 33, 33 and 34 pay 6, 7 and 7 */
static void try_example(void)
{
    static const uint64_t wanted[] = {6, 13, 20};
    unsigned i;
    int begun = begin(&all_terms[0], NOTHING_CONFIRMED);
    read_trade();
    for (i = 0; begun && i < 3; i++) {
        cut_once(by_thirds, i, 0);
        expect(trade.paid == wanted[i], "example 4 with its new parts");
    }
}

/* ── Images ────────────────────────────────────────────────────────────────────────────────────── */

static void take_off(uint8_t *sum, uint64_t fen)
{
    crz_put_u64(sum, crz_get_u64(sum) - fen);
}

/* the start with other invoices of the trade; frozen money and total fit what is paid */
static void put_invoices(uint64_t pending, uint64_t confirmed, uint64_t paid)
{
    uint64_t more = paid - crz_get_receipt(start, LOT).paid;
    uint8_t *lot = image + crz_receipt_offset(LOT);
    memcpy(image, start, sizeof image);
    crz_put_u32(lot + CRZ_RECEIPT_PENDING, (uint32_t)pending);
    crz_put_u32(lot + CRZ_RECEIPT_CONFIRMED, (uint32_t)confirmed);
    crz_put_u32(lot + CRZ_RECEIPT_PAID, (uint32_t)paid);
    take_off(image + crz_account_offset(BUYER) + CRZ_ACCOUNT_FROZEN, more);
    take_off(image + CRZ_IMAGE_TOTAL, more);
}

static uint32_t judged(void)
{
    crz_put_pay_in(call, THIRD, 1);
    return crz_call(image, sizeof image, call, sizeof call, answer, sizeof answer);
}

static void expect_valid(uint64_t pending, uint64_t confirmed, uint64_t paid, const char *what)
{
    put_invoices(pending, confirmed, paid);
    expect(judged() == CRZ_NUMBER_ACCEPTED, what);
}

/* refused by 2, the image as it was and the answer with nothing but the number */
static void expect_refused(uint64_t pending, uint64_t confirmed, uint64_t paid, const char *what)
{
    static uint8_t before[CRZ_IMAGE_LENGTH], said[CRZ_ANSWER_LENGTH];
    put_invoices(pending, confirmed, paid);
    memcpy(before, image, sizeof before);
    memset(answer, 0xa5, sizeof answer);
    said[CRZ_ANSWER_NUMBER] = CRZ_NUMBER_BAD_IMAGE;
    expect(judged() == CRZ_NUMBER_BAD_IMAGE, what);
    expect(memcmp(image, before, sizeof image) == 0 && memcmp(answer, said, sizeof answer) == 0, "nothing is done");
}

/* the least sum above this one that brings more, if it is below the full payment */
static uint64_t next_to_pay(uint64_t confirmed)
{
    uint64_t paid = trade.rest * confirmed / trade.full;
    do
        confirmed++;
    while (trade.rest * confirmed / trade.full == paid);
    return confirmed;
}

static void try_sums(uint64_t confirmed)
{
    uint64_t paid = trade.rest * confirmed / trade.full, next = next_to_pay(confirmed);
    if (next >= trade.full)
        return;
    expect_valid(0, next - 1, paid, "the last sum that brings no more");
    expect_refused(0, next, paid, "a sum that brings more, of which nothing is paid");
    expect_valid(0, next, paid + 1, "the same with a fen more paid");
    expect_refused(0, next - 1, paid + 1, "a fen paid one fen too early");
}

static void try_images(void)
{
    struct crz_receipt_fields lot = crz_get_receipt(start, LOT);
    uint64_t left = trade.full - lot.confirmed;
    expect_valid(lot.pending, lot.confirmed, lot.paid, "the start");
    expect_refused(lot.pending, lot.confirmed, lot.paid + 1, "a fen too much paid");
    expect_refused(lot.pending, lot.confirmed, trade.rest, "the whole rest paid");
    if (lot.paid > 0) {
        expect_refused(lot.pending, lot.confirmed, lot.paid - 1, "a fen too little paid");
        expect_refused(lot.pending, lot.confirmed, 0, "nothing paid");
        expect_refused(lot.pending, 0, lot.paid, "nothing confirmed and something paid");
        expect_valid(lot.pending, 0, 0, "nothing confirmed and nothing paid");
    }
    expect_valid(left, lot.confirmed, lot.paid, "all that is left pending");
    expect_refused(left + 1, lot.confirmed, lot.paid, "a fen more than is left pending");
    expect_refused(0, trade.full, trade.rest, "all confirmed and paid");
    try_sums(lot.confirmed);
}

int main(void)
{
    size_t i;
    try_example();
    for (i = 0; i < BEGINNINGS * (sizeof all_terms / sizeof all_terms[0]); i++) {
        const struct terms *terms = &all_terms[i / BEGINNINGS];
        enum beginning beginning = (enum beginning)(i % BEGINNINGS);
        if (!begin(terms, beginning))
            continue;
        try_cuts(terms, beginning);
        read_trade();
        try_images();
    }
    printf("%lu passed, %lu failed\n", passed, failed);
    return failed != 0;
}
