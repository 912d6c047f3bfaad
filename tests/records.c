/*
 * crz_records.h and the constants of crz.h against the library: each call record by its bytes, every range at its ends
 * and one beyond them, payments, tables of calls, figures of shortfalls, and what is read back from answers and images.
 * C and C++. The last line is 'N passed, M failed'.
 */
#include "../include/crz_records.h"

#include <stdio.h>

static unsigned long passed, failed;
static uint8_t image[CRZ_IMAGE_LENGTH], call[CRZ_CALL_LENGTH], answer[CRZ_ANSWER_LENGTH];

static void expect(int ok, const char *what)
{
    if (ok) {
        passed++;
    } else {
        failed++;
        printf("failed: %s\n", what);
    }
}

static uint32_t make(void)
{
    return crz_call(image, sizeof image, call, sizeof call, answer, sizeof answer);
}

/* the number that the call in `call` is given, the image as it was */
static uint32_t tried(void)
{
    static uint8_t copy[CRZ_IMAGE_LENGTH];
    uint32_t number;
    memcpy(copy, image, sizeof copy);
    number = make();
    memcpy(image, copy, sizeof copy);
    return number;
}

static void expect_bytes(const char *hex, const char *what)
{
    char got[2 * CRZ_CALL_LENGTH + 1];
    size_t i;
    for (i = 0; i < CRZ_CALL_LENGTH; i++)
        snprintf(got + 2 * i, 3, "%02x", call[i]);
    expect(strcmp(got, hex) == 0, what);
}

static void registrations(void)
{
    crz_put_register(call, 3, 128, 60000, 0);
    expect_bytes("0303800000000000"
                 "0000000000000000"
                 "0000000060ea0000",
        "register");
    crz_put_register(call, 3, 128, 60000, 5000);
    expect_bytes("0303800000000000"
                 "0000000000000000"
                 "8813000060ea0000",
        "register with a premium");
    crz_put_register(call, 3, 128, 60000, -5000);
    expect_bytes("0303800000000000"
                 "0000000000000000"
                 "78ecffff60ea0000",
        "register with a premium below 0");
}

static void records(void)
{
    crz_put_pay_in(call, 1, UINT64_C(0x8807060504030201));
    expect_bytes("010100000000000001020304050607880000000000000000", "pay in");
    crz_put_take_out(call, 96, 2);
    expect_bytes("026000000000000002000000000000000000000000000000", "take out");
    crz_put_list(call, 3, 4, 8, 3, -50000);
    expect_bytes("0403040803000000"
                 "0000000000000000"
                 "b03cffff00000000",
        "list");
    crz_put_withdraw_listing(call, 3, 4);
    expect_bytes("050304000000000000000000000000000000000000000000", "withdraw listing");
    crz_put_limit_bid(call, 7, 4, 15000);
    expect_bytes("0607040000000000983a0000000000000000000000000000", "limit bid");
    crz_put_market_bid(call, 7, 4);
    expect_bytes("070704000000000000000000000000000000000000000000", "market bid");
    crz_put_withdraw_bid(call, 7, 4);
    expect_bytes("080704000000000000000000000000000000000000000000", "withdraw bid");
    crz_put_quote(call, 8, 5);
    expect_bytes("090000080000000005000000000000000000000000000000", "quote");
    crz_put_lodge(call, 3, 4);
    expect_bytes("0a0304000000000000000000000000000000000000000000", "lodge");
    crz_put_morning_close(call);
    expect_bytes("0b0000000000000000000000000000000000000000000000", "morning close");
    crz_put_first_payment(call, 3, 4);
    expect_bytes("0c0304000000000000000000000000000000000000000000", "first payment");
    crz_put_invoice(call, 3, 4, 33);
    expect_bytes("0d0304000000000021000000000000000000000000000000", "invoice");
    crz_put_confirm(call, 7, 4);
    expect_bytes("0e0704000000000000000000000000000000000000000000", "confirm");
    crz_put_day_close(call);
    expect_bytes("0f0000000000000000000000000000000000000000000000", "day close");
}

static void fields(void)
{
    struct crz_call_fields in = {4, 3, 4, 8, 3, 9, -50000, 60000}, out;
    crz_put_call(call, &in);
    out = crz_get_call(call);
    expect(out.kind == 4 && out.account == 3 && out.receipt == 4 && out.contract == 8 && out.days == 3, "call fields");
    expect(out.amount == 9 && out.basis == -50000 && out.weight == 60000, "call fields of more bytes");
    in.account = 300;
    in.receipt = 256;
    crz_put_call(call, &in);
    out = crz_get_call(call);
    expect(out.account == 255 && out.receipt == 255, "a number that does not fit is none of the zone's");
    crz_put_pay_in(call, 1 + 256, 5);
    crz_fresh(image, sizeof image);
    expect(tried() == CRZ_NUMBER_OUT_OF_RANGE, "an account past a byte is refused");
    expect(crz_get_account(image, 0).free == 0 && crz_get_account(image, 97).free == 0, "accounts that are none");
    expect(crz_get_receipt(image, 0).owner == 0 && crz_get_receipt(image, 129).owner == 0, "receipts that are none");
    expect(crz_get_ask(image, 0) == 0 && crz_get_ask(image, 9) == 0, "contracts that are none");
    memset(answer, 7, sizeof answer);
    expect(crz_get_entry(answer, 127).lot == 7 && crz_get_entry(answer, 128).lot == 0, "entries that are none");
}

/* whether the library takes the ends of a range and refuses what lies beyond them */
static void range(void (*put)(int64_t value), int64_t least, int64_t most, int64_t step, const char *what)
{
    put(least);
    expect(tried() != CRZ_NUMBER_OUT_OF_RANGE, what);
    put(most);
    expect(tried() != CRZ_NUMBER_OUT_OF_RANGE, what);
    put(least - 1);
    expect(tried() == CRZ_NUMBER_OUT_OF_RANGE, what);
    put(most + 1);
    expect(tried() == CRZ_NUMBER_OUT_OF_RANGE, what);
    put(most + step);
    expect(tried() == CRZ_NUMBER_OUT_OF_RANGE, what);
    put(least + step);
    expect(tried() != CRZ_NUMBER_OUT_OF_RANGE, what);
    put(least + step - 1);
    expect((tried() == CRZ_NUMBER_OUT_OF_RANGE) == (step > 1), what);
}

static void put_price(int64_t value)
{
    crz_put_limit_bid(call, 2, 1, (uint64_t)value);
}

static void put_basis(int64_t value)
{
    crz_put_list(call, 1, 1, 1, 0, (int32_t)value);
}

static void put_weight(int64_t value)
{
    crz_put_register(call, 1, 1, (uint32_t)value, 0);
}

static void put_premium(int64_t value)
{
    crz_put_register(call, 1, 1, CRZ_WEIGHT_LEAST, (int32_t)value);
}

static void put_amount(int64_t value)
{
    crz_put_pay_in(call, 1, (uint64_t)value);
}

static void put_account(int64_t value)
{
    crz_put_pay_in(call, (uint32_t)value, 1);
}

static void put_receipt(int64_t value)
{
    crz_put_lodge(call, 1, (uint32_t)value);
}

static void put_contract(int64_t value)
{
    crz_put_quote(call, (uint32_t)value, 5);
}

static void put_days(int64_t value)
{
    crz_put_list(call, 1, 1, 1, (uint32_t)value, 0);
}

static void ranges(void)
{
    crz_fresh(image, sizeof image);
    range(put_price, CRZ_PRICE_LEAST, CRZ_PRICE_MOST, CRZ_PRICE_STEP, "price");
    range(put_basis, CRZ_BASIS_LEAST, CRZ_BASIS_MOST, 1, "basis");
    range(put_weight, CRZ_WEIGHT_LEAST, CRZ_WEIGHT_MOST, 1, "weight");
    range(put_premium, CRZ_PREMIUM_LEAST, CRZ_PREMIUM_MOST, 1, "premium");
    range(put_amount, CRZ_AMOUNT_LEAST, (int64_t)CRZ_AMOUNT_MOST, 1, "amount");
    range(put_account, 1, CRZ_ACCOUNT_COUNT, 1, "account");
    range(put_receipt, 1, CRZ_RECEIPT_COUNT, 1, "receipt");
    range(put_contract, 1, CRZ_CONTRACT_COUNT, 1, "contract");
    put_days(CRZ_DAYS_MOST);
    expect(tried() != CRZ_NUMBER_OUT_OF_RANGE, "days");
    put_days(CRZ_DAYS_MOST + 1);
    expect(tried() == CRZ_NUMBER_OUT_OF_RANGE, "days");
}

/* the image is judged: a call of no bytes is refused as a call only where it is valid */
static int valid(void)
{
    return crz_call(image, sizeof image, NULL, 0, answer, sizeof answer) == CRZ_NUMBER_BAD_CALL;
}

static void days_and_total(void)
{
    crz_fresh(image, sizeof image);
    expect(crz_get_day(image) == CRZ_DAY_LEAST && crz_get_phase(image) == CRZ_PHASE_MORNING, "the first day");
    crz_put_u16(image + CRZ_IMAGE_DAY, CRZ_DAY_MOST);
    expect(valid(), "the last day");
    crz_put_u16(image + CRZ_IMAGE_DAY, CRZ_DAY_MOST + 1);
    expect(!valid(), "a day past the last");
    crz_fresh(image, sizeof image);
    crz_put_u64(image + crz_account_offset(96) + CRZ_ACCOUNT_FREE, CRZ_TOTAL_MOST);
    crz_put_u64(image + CRZ_IMAGE_TOTAL, CRZ_TOTAL_MOST);
    expect(valid() && crz_get_total(image) == CRZ_TOTAL_MOST, "the largest total");
    crz_put_pay_in(call, 1, 1);
    expect(tried() == CRZ_NUMBER_OVER_LIMIT, "a fen past the largest total");
    crz_put_u64(image + crz_account_offset(96) + CRZ_ACCOUNT_FREE, CRZ_TOTAL_MOST + 1);
    crz_put_u64(image + CRZ_IMAGE_TOTAL, CRZ_TOTAL_MOST + 1);
    expect(!valid(), "a total past the largest");
}

/* full, first and rest for a price, basis, premium and weight */
static void payments(uint32_t price, int32_t basis, int32_t premium, uint32_t weight, uint64_t full, uint64_t first)
{
    struct crz_receipt_fields r;
    memset(&r, 0, sizeof r);
    r.price = price;
    r.basis = basis;
    r.premium = premium;
    r.weight = weight;
    expect(crz_full_payment(&r) == full && crz_first_payment(&r) == first && crz_rest_payment(&r) == full - first,
        "payments");
}

static int held_is_frozen(uint32_t receipt, uint32_t account)
{
    struct crz_receipt_fields r = crz_get_receipt(image, receipt);
    return r.buyer == account && crz_held_money(&r) == crz_get_account(image, account).frozen;
}

/* a lot from its registration to its first payment */
static void life(void)
{
    struct crz_entry_fields entry;
    crz_fresh(image, sizeof image);
    crz_put_register(call, 1, 9, 41237, 0);
    expect(make() == CRZ_NUMBER_ACCEPTED && crz_get_receipt(image, 9).weight == 41237, "registered");
    crz_put_list(call, 1, 9, 2, 0, 300);
    expect(make() == CRZ_NUMBER_ACCEPTED && crz_get_receipt(image, 9).basis == 300, "listed");
    crz_put_pay_in(call, 2, CRZ_DEPOSIT - 1);
    expect(make() == CRZ_NUMBER_ACCEPTED && crz_get_answer(answer).total == CRZ_DEPOSIT - 1, "paid in");
    crz_put_limit_bid(call, 2, 9, 15000);
    expect(make() == CRZ_NUMBER_NO_MONEY && crz_get_answer(answer).number == CRZ_NUMBER_NO_MONEY, "a fen too little");
    crz_put_pay_in(call, 2, 63092610 - CRZ_DEPOSIT + 1);
    expect(make() == CRZ_NUMBER_ACCEPTED, "paid in");
    crz_put_limit_bid(call, 2, 9, 15000);
    expect(make() == CRZ_NUMBER_ACCEPTED && held_is_frozen(9, 2), "bid");
    crz_put_quote(call, 2, 15000);
    expect(make() == CRZ_NUMBER_ACCEPTED && crz_get_ask(image, 2) == 15000 && held_is_frozen(9, 2), "struck");
    entry = crz_get_entry(answer, 0);
    expect(entry.lot == 9 && entry.outcome == CRZ_OUTCOME_STRUCK && entry.from == 2 && entry.to == 1, "the strike");
    expect(entry.number == 15000 && crz_get_answer(answer).count == 1, "its price");
    crz_put_lodge(call, 1, 9);
    expect(make() == CRZ_NUMBER_ACCEPTED && held_is_frozen(9, 2), "lodged");
    crz_put_morning_close(call);
    expect(make() == CRZ_NUMBER_ACCEPTED && held_is_frozen(9, 2), "settled");
    expect(crz_get_answer(answer).phase == CRZ_PHASE_AFTERNOON && crz_get_receipt(image, 9).owner == 2, "the buyer's");
    crz_put_first_payment(call, 1, 9);
    expect(make() == CRZ_NUMBER_ACCEPTED && held_is_frozen(9, 2), "first paid");
}

/* an invoice and its confirmation: the header says beforehand what is paid and what is left to invoice */
static void confirm_part(uint32_t invoice, uint64_t part, uint64_t left)
{
    struct crz_receipt_fields r;
    crz_put_invoice(call, 1, 9, invoice);
    expect(make() == CRZ_NUMBER_ACCEPTED, "invoiced");
    r = crz_get_receipt(image, 9);
    expect(crz_next_part(&r) == part && crz_left_to_invoice(&r) == left, "the next part, and what is left");
    expect(crz_paid_of_rest(&r, r.confirmed) == r.paid, "paid is the formula");
    crz_put_confirm(call, 2, 9);
    expect(make() == CRZ_NUMBER_ACCEPTED && crz_get_entry(answer, 0).number == part, "the part that was paid");
    r = crz_get_receipt(image, 9);
    expect(crz_next_part(&r) == 0, "nothing to confirm");
}

/* the lot of `life`: a fen of another paid, moved between buyer and seller, and the image is not valid */
static void other_paid(void)
{
    struct crz_receipt_fields r = crz_get_receipt(image, 9);
    uint8_t *paid = image + crz_receipt_offset(9) + CRZ_RECEIPT_PAID;
    uint8_t *frozen = image + crz_account_offset(2) + CRZ_ACCOUNT_FROZEN;
    uint8_t *free_money = image + crz_account_offset(1) + CRZ_ACCOUNT_FREE;
    static const int64_t changes[] = {-1, 1, 0};
    size_t i;
    for (i = 0; i < 3; i++) {
        uint64_t now = r.paid + (uint64_t)changes[i];
        crz_put_u32(paid, (uint32_t)now);
        crz_put_u64(frozen, crz_rest_payment(&r) - now);
        crz_put_u64(free_money, crz_first_payment(&r) + now);
        expect(valid() == (changes[i] == 0), "paid a fen less, a fen more, and by the formula");
    }
}

/* full 63,092,610, rest 12,618,522: a fen, which pays nothing, then a third, then all that is left */
static void parts(void)
{
    struct crz_receipt_fields r = crz_get_receipt(image, 9);
    expect(crz_left_to_invoice(&r) == 63092610 && crz_next_part(&r) == 0, "all is left to invoice");
    expect(crz_paid_of_rest(&r, 0) == 0 && crz_paid_of_rest(&r, 63092609) == 12618521, "the ends of the formula");
    expect(crz_paid_of_rest(&r, 63092610) == 12618522, "at full the whole rest");
    other_paid();
    confirm_part(1, 0, 63092609);
    confirm_part(21030870, 4206174, 42061739);
    other_paid();
    confirm_part(42061739, 8412348, 0);
    expect(crz_get_receipt(image, 9).state == CRZ_STATE_IDLE && crz_get_account(image, 1).free == 63092610, "all paid");
}

static int premium_is(int32_t premium)
{
    return crz_get_receipt(image, 9).premium == premium;
}

/* a call that is accepted and leaves the premium as it was */
static void expect_kept(int32_t premium, const char *what)
{
    expect(make() == CRZ_NUMBER_ACCEPTED && premium_is(premium), what);
}

/* account 1 has receipt 9 registered with this premium and listed with this basis, account 2 has money */
static void offer(int32_t premium, int32_t basis)
{
    crz_fresh(image, sizeof image);
    crz_put_pay_in(call, 2, 1000000000);
    make();
    crz_put_register(call, 1, 9, 41237, premium);
    expect_kept(premium, "registered with a premium");
    crz_put_list(call, 1, 9, 2, 0, basis);
    expect_kept(premium, "listed");
}

/* the lot is struck and lodged; the close settles it, with this full payment, and the receipt is the buyer's */
static void settle(int32_t premium, uint32_t full)
{
    crz_put_limit_bid(call, 2, 9, 15000);
    expect_kept(premium, "bid");
    crz_put_quote(call, 2, 15000);
    expect_kept(premium, "struck");
    crz_put_lodge(call, 1, 9);
    expect_kept(premium, "lodged");
    crz_put_morning_close(call);
    expect_kept(premium, "settled");
    expect(crz_get_entry(answer, 0).outcome == CRZ_OUTCOME_SETTLED && crz_get_entry(answer, 0).number == full, "full");
    expect(crz_get_receipt(image, 9).owner == 2 && held_is_frozen(9, 2), "the buyer's, with its premium");
}

/* the first payment and two invoices; the receipt is then idle, and its next sale has the premium too */
static void pay(int32_t premium, uint32_t full, uint32_t first)
{
    crz_put_first_payment(call, 1, 9);
    expect_kept(premium, "first paid");
    expect(crz_get_entry(answer, 0).number == first, "the first payment");
    crz_put_invoice(call, 1, 9, 1000);
    expect_kept(premium, "invoiced");
    crz_put_confirm(call, 2, 9);
    expect_kept(premium, "part paid");
    crz_put_invoice(call, 1, 9, full - 1000);
    expect_kept(premium, "invoiced up to full");
    crz_put_confirm(call, 2, 9);
    expect_kept(premium, "paid, the lot ended");
    expect(crz_get_account(image, 1).free == full && crz_get_account(image, 2).free == 1000000000 - full, "the books");
    crz_put_list(call, 2, 9, 1, 3, -300);
    expect_kept(premium, "listed by the buyer");
    crz_put_withdraw_listing(call, 2, 9);
    expect_kept(premium, "withdrawn");
}

/* a seller who does not lodge: the premium stays while the penalty is due, and after it */
static void default_of_seller(int32_t premium)
{
    crz_put_limit_bid(call, 2, 9, 15000);
    make();
    crz_put_quote(call, 2, 15000);
    make();
    crz_put_morning_close(call);
    expect_kept(premium, "seller default");
    expect(crz_get_receipt(image, 9).state == CRZ_STATE_PENALTY_DUE, "penalty due");
    crz_put_day_close(call);
    expect_kept(premium, "the next day");
    crz_put_morning_close(call);
    expect_kept(premium, "the penalty over");
    expect(crz_get_receipt(image, 9).state == CRZ_STATE_IDLE, "idle");
}

/* the least price that leaves something to pay, and the one that leaves nothing: basis and premium together */
static void least_price(int32_t premium, int32_t basis)
{
    offer(premium, basis);
    crz_put_limit_bid(call, 2, 9, 5);
    expect(tried() == CRZ_NUMBER_ACCEPTED, "one yuan for a tonne");
    offer(premium, basis - 1);
    crz_put_limit_bid(call, 2, 9, 5);
    expect(tried() == CRZ_NUMBER_NOTHING_TO_PAY, "nothing for a tonne");
    crz_put_quote(call, 2, 5);
    make();
    crz_put_market_bid(call, 2, 9);
    expect(tried() == CRZ_NUMBER_NOTHING_TO_PAY, "nothing for a tonne at the ask");
}

/* an image with another premium for receipt 9 */
static int valid_with(int32_t premium)
{
    crz_put_i32(image + crz_receipt_offset(9) + CRZ_RECEIPT_PREMIUM, premium);
    return valid();
}

static void images(void)
{
    crz_fresh(image, sizeof image);
    expect(!valid_with(1) && !valid_with(-1) && valid_with(0), "a receipt that is not registered has no premium");
    offer(0, 300);
    expect(valid_with(CRZ_PREMIUM_LEAST) && valid_with(CRZ_PREMIUM_MOST), "the ends of the range in an image");
    expect(!valid_with(CRZ_PREMIUM_LEAST - 1) && !valid_with(CRZ_PREMIUM_MOST + 1), "beyond them");
    offer(0, -300);
    crz_put_limit_bid(call, 2, 9, 4000);
    make();
    expect(
        valid_with(-3699) && !valid_with(-3700), "a premium that leaves something of the bid, and one that does not");
}

static void premiums(void)
{
    offer(-5000, 300);
    settle(-5000, 42474110);
    pay(-5000, 42474110, 33979288);
    offer(5000, -300);
    settle(5000, 81236890);
    pay(5000, 81236890, 64989512);
    offer(0, 300);
    settle(0, 63092610);
    pay(0, 63092610, 50474088);
    offer(-1234, 0);
    default_of_seller(-1234);
    least_price(CRZ_PREMIUM_LEAST, CRZ_PREMIUM_MOST - 4);
    least_price(CRZ_PREMIUM_MOST, CRZ_PREMIUM_LEAST - 4);
    images();
}

/* one call more than a table has, and room for its answer */
enum { CALLS = CRZ_TABLE_COUNT + 1 };
static uint8_t calls[CALLS * CRZ_CALL_LENGTH], answers[CALLS * CRZ_ANSWER_LENGTH];

/* a table of the first so many calls, with just enough bytes for their answers */
static uint32_t make_table(size_t count)
{
    return crz_table(image, sizeof image, calls, crz_call_offset(count), answers, crz_answer_offset(count));
}

/* the number of calls that a table may have, by the total that they leave */
static void most_calls(void)
{
    uint32_t i;
    crz_fresh(image, sizeof image);
    for (i = 0; i < CALLS; i++)
        crz_put_pay_in(calls + crz_call_offset(i), 1 + i, 1);
    expect(make_table(CALLS) == CRZ_NUMBER_BAD_TABLE && crz_get_total(image) == 0, "a call too many");
    expect(make_table(CRZ_TABLE_COUNT) == CRZ_NUMBER_ACCEPTED && crz_get_total(image) == CRZ_TABLE_COUNT, "the most");
    expect(crz_get_answer(answers + crz_answer_offset(CRZ_TABLE_COUNT - 1)).total == CRZ_TABLE_COUNT, "the last one's");
    expect(crz_get_account(image, CRZ_TABLE_COUNT).free == 1, "each for its own account");
    expect(make_table(0) == CRZ_NUMBER_ACCEPTED && crz_get_total(image) == CRZ_TABLE_COUNT, "none");
}

/* calls and answers by their places */
static void tables(void)
{
    struct crz_entry_fields entry;
    expect(crz_call_offset(0) == 0 && crz_call_offset(1) == CRZ_CALL_LENGTH, "where calls begin");
    expect(crz_answer_offset(0) == 0 && crz_answer_offset(1) == CRZ_ANSWER_LENGTH, "where answers begin");
    expect(crz_call_offset(CALLS) == sizeof calls && crz_answer_offset(CALLS) == sizeof answers, "where they end");
    expect(CRZ_TABLE_COUNT == 32 && CRZ_NUMBER_BAD_TABLE == 14, "the table's own numbers");
    most_calls();
    crz_put_register(calls, 96, 128, 41237, -5);
    crz_put_list(calls + crz_call_offset(1), 95, 128, 1, 0, 0);
    crz_put_list(calls + crz_call_offset(2), 96, 128, 1, 0, 0);
    expect(make_table(3) == CRZ_NUMBER_ACCEPTED, "three calls");
    expect(crz_get_receipt(image, 128).state == CRZ_STATE_LISTED, "that leave a listing");
    expect(crz_get_answer(answers).count == 1, "the first is accepted");
    expect(crz_get_answer(answers + crz_answer_offset(1)).number == CRZ_NUMBER_WRONG_PARTY, "the second refused");
    entry = crz_get_entry(answers + crz_answer_offset(2), 0);
    expect(entry.lot == 128 && entry.outcome == CRZ_OUTCOME_LISTED && entry.from == 96, "the third accepted");
}

static uint8_t shortfalls[CRZ_FIGURES_LENGTH];

static uint32_t ask(void)
{
    return crz_shortfalls(image, sizeof image, shortfalls, sizeof shortfalls);
}

/* each figure by its place, and none of a number that is no account */
static void figure_places(void)
{
    uint32_t account, other = 0;
    for (account = 1; account <= CRZ_ACCOUNT_COUNT; account++) {
        memset(shortfalls, 0, sizeof shortfalls);
        crz_put_u64(shortfalls + CRZ_FIGURE_LENGTH * (account - 1), UINT64_C(0x0102030405060708) + account);
        other += crz_get_figure(shortfalls, account) != UINT64_C(0x0102030405060708) + account;
        other += crz_get_figure(shortfalls, account % CRZ_ACCOUNT_COUNT + 1) != 0;
    }
    expect(other == 0, "figures by account");
    memset(shortfalls, 0xff, sizeof shortfalls);
    expect(crz_get_figure(shortfalls, 0) == 0 && crz_get_figure(shortfalls, CRZ_ACCOUNT_COUNT + 1) == 0, "no account");
    expect(crz_get_figure(shortfalls, UINT32_MAX) == 0, "no account at all");
    expect(CRZ_FIGURES_LENGTH == CRZ_ACCOUNT_COUNT * CRZ_FIGURE_LENGTH, "the figures' length");
}

/* a lot that is struck for today; its buyer has the money for it, and then has less */
static void figures(void)
{
    figure_places();
    offer(0, 300);
    crz_put_limit_bid(call, 2, 9, 15000);
    expect_kept(0, "bid");
    crz_put_quote(call, 2, 15000);
    expect_kept(0, "struck");
    expect(ask() == CRZ_NUMBER_ACCEPTED && crz_get_figure(shortfalls, 2) == 0, "enough money");
    crz_put_take_out(call, 2, crz_get_account(image, 2).free);
    expect(make() == CRZ_NUMBER_ACCEPTED && ask() == CRZ_NUMBER_ACCEPTED, "taken out");
    expect(crz_get_figure(shortfalls, 2) == 63092610 - CRZ_DEPOSIT && crz_get_figure(shortfalls, 1) == 0, "short");
    crz_put_pay_in(call, 2, crz_get_figure(shortfalls, 2));
    expect(make() == CRZ_NUMBER_ACCEPTED && ask() == CRZ_NUMBER_ACCEPTED, "paid in");
    expect(crz_get_figure(shortfalls, 2) == 0, "no longer short");
    expect(crz_shortfalls(image, sizeof image, shortfalls, CRZ_FIGURES_LENGTH - 1) == CRZ_NUMBER_SHORT_ANSWER, "1");
    expect(crz_shortfalls(image, sizeof image - 1, shortfalls, sizeof shortfalls) == CRZ_NUMBER_BAD_IMAGE, "2");
}

int main(void)
{
    char version[32];
    snprintf(version, sizeof version, "%d.%d.%d", CRZ_VERSION_MAJOR, CRZ_VERSION_MINOR, CRZ_VERSION_PATCH);
    expect(strcmp(version, CRZ_VERSION) == 0, "the version");
    expect(CRZ_IMAGE_RECEIPTS + CRZ_RECEIPT_COUNT * CRZ_RECEIPT_LENGTH == CRZ_IMAGE_LENGTH, "the image's length");
    expect(CRZ_ANSWER_ENTRIES + CRZ_ENTRY_COUNT * CRZ_ENTRY_LENGTH == CRZ_ANSWER_LENGTH, "the answer's length");
    registrations();
    records();
    fields();
    ranges();
    days_and_total();
    payments(15000, 300, 0, 41237, 63092610, 50474088);
    payments(15005, 300, 0, 41237, 63113229, 50490583);
    payments(5, -4, 0, 1000, 100, 80);
    payments(5, -5, 0, 1000, 0, 0);
    payments(200000, 50000, 0, 60000, 1500000000, 1200000000);
    payments(15000, 300, -5000, 41237, 42474110, 33979288);
    payments(15000, 300, 5000, 41237, 83711110, 66968888);
    payments(5, -5000, 4996, 1000, 100, 80);
    payments(5, 4996, -5000, 1000, 100, 80);
    payments(5, 0, -5, 1000, 0, 0);
    payments(200000, 50000, 5000, 60000, 1530000000, 1224000000);
    life();
    parts();
    premiums();
    tables();
    figures();
    printf("%lu passed, %lu failed\n", passed, failed);
    return failed != 0;
}
