/*
 * crz_records.h - records of the cotton receipt zone by their fields
 *
 * Reads and writes the bytes that crz.h lays out: call records from their fields, the fields of an answer and of its
 * entries, the parts of an image. Header only, for C99 and C++11. Nothing here judges: whether a call is in range or
 * an image valid is for the library to say.
 */
#ifndef CRZ_RECORDS_H
#define CRZ_RECORDS_H

#include <string.h>

#include "crz.h"

/* ── Little-endian numbers ─────────────────────────────────────────────────────────────────────── */

static inline uint64_t crz_get_bytes(const uint8_t *at, unsigned width)
{
    uint64_t number = 0;
    while (width-- > 0)
        number = number << 8 | at[width];
    return number;
}

static inline void crz_put_bytes(uint8_t *at, unsigned width, uint64_t number)
{
    for (; width > 0; width--, number >>= 8)
        *at++ = (uint8_t)(number & 0xff);
}

static inline uint16_t crz_get_u16(const uint8_t *at)
{
    return (uint16_t)crz_get_bytes(at, 2);
}

static inline uint32_t crz_get_u32(const uint8_t *at)
{
    return (uint32_t)crz_get_bytes(at, 4);
}

static inline uint64_t crz_get_u64(const uint8_t *at)
{
    return crz_get_bytes(at, 8);
}

static inline int32_t crz_get_i32(const uint8_t *at)
{
    int64_t number = (int64_t)crz_get_bytes(at, 4);
    return (int32_t)(number > INT32_MAX ? number - INT64_C(0x100000000) : number);
}

static inline void crz_put_u16(uint8_t *at, uint16_t number)
{
    crz_put_bytes(at, 2, number);
}

static inline void crz_put_u32(uint8_t *at, uint32_t number)
{
    crz_put_bytes(at, 4, number);
}

static inline void crz_put_u64(uint8_t *at, uint64_t number)
{
    crz_put_bytes(at, 8, number);
}

static inline void crz_put_i32(uint8_t *at, int32_t number)
{
    crz_put_bytes(at, 4, (uint32_t)number);
}

/* ── Calls ─────────────────────────────────────────────────────────────────────────────────────── */

struct crz_call_fields {
    uint32_t kind, account, receipt, contract, days;
    uint64_t amount; /* fen, or a price in yuan per tonne */
    int32_t basis; /* of a listing, or the premium of a receipt that is registered */
    uint32_t weight;
};

/* No field of one byte may hold 255, so a number that does not fit is refused and never taken for a smaller one. */
static inline uint8_t crz_one_byte(uint32_t number)
{
    return (uint8_t)(number < 255 ? number : 255);
}

static inline void crz_put_call(uint8_t call[CRZ_CALL_LENGTH], const struct crz_call_fields *fields)
{
    memset(call, 0, CRZ_CALL_LENGTH);
    call[CRZ_CALL_KIND] = crz_one_byte(fields->kind);
    call[CRZ_CALL_ACCOUNT] = crz_one_byte(fields->account);
    call[CRZ_CALL_RECEIPT] = crz_one_byte(fields->receipt);
    call[CRZ_CALL_CONTRACT] = crz_one_byte(fields->contract);
    call[CRZ_CALL_DAYS] = crz_one_byte(fields->days);
    crz_put_u64(call + CRZ_CALL_AMOUNT, fields->amount);
    crz_put_i32(call + CRZ_CALL_BASIS, fields->basis);
    crz_put_u32(call + CRZ_CALL_WEIGHT, fields->weight);
}

static inline struct crz_call_fields crz_get_call(const uint8_t call[CRZ_CALL_LENGTH])
{
    struct crz_call_fields fields;
    fields.kind = call[CRZ_CALL_KIND];
    fields.account = call[CRZ_CALL_ACCOUNT];
    fields.receipt = call[CRZ_CALL_RECEIPT];
    fields.contract = call[CRZ_CALL_CONTRACT];
    fields.days = call[CRZ_CALL_DAYS];
    fields.amount = crz_get_u64(call + CRZ_CALL_AMOUNT);
    fields.basis = crz_get_i32(call + CRZ_CALL_BASIS);
    fields.weight = crz_get_u32(call + CRZ_CALL_WEIGHT);
    return fields;
}

/* A call of the kinds that name an account, a receipt, both or neither, and an amount or a price or none. */
static inline void crz_put_plain_call(
    uint8_t call[CRZ_CALL_LENGTH], enum crz_kind kind, uint32_t account, uint32_t receipt, uint64_t amount)
{
    memset(call, 0, CRZ_CALL_LENGTH);
    call[CRZ_CALL_KIND] = (uint8_t)kind;
    call[CRZ_CALL_ACCOUNT] = crz_one_byte(account);
    call[CRZ_CALL_RECEIPT] = crz_one_byte(receipt);
    crz_put_u64(call + CRZ_CALL_AMOUNT, amount);
}

static inline void crz_put_pay_in(uint8_t call[CRZ_CALL_LENGTH], uint32_t account, uint64_t fen)
{
    crz_put_plain_call(call, CRZ_KIND_PAY_IN, account, 0, fen);
}

static inline void crz_put_take_out(uint8_t call[CRZ_CALL_LENGTH], uint32_t account, uint64_t fen)
{
    crz_put_plain_call(call, CRZ_KIND_TAKE_OUT, account, 0, fen);
}

static inline void crz_put_register(
    uint8_t call[CRZ_CALL_LENGTH], uint32_t account, uint32_t receipt, uint32_t kilograms, int32_t premium)
{
    crz_put_plain_call(call, CRZ_KIND_REGISTER, account, receipt, 0);
    crz_put_i32(call + CRZ_CALL_BASIS, premium);
    crz_put_u32(call + CRZ_CALL_WEIGHT, kilograms);
}

static inline void crz_put_list(
    uint8_t call[CRZ_CALL_LENGTH], uint32_t account, uint32_t receipt, uint32_t contract, uint32_t days, int32_t basis)
{
    crz_put_plain_call(call, CRZ_KIND_LIST, account, receipt, 0);
    call[CRZ_CALL_CONTRACT] = crz_one_byte(contract);
    call[CRZ_CALL_DAYS] = crz_one_byte(days);
    crz_put_i32(call + CRZ_CALL_BASIS, basis);
}

static inline void crz_put_withdraw_listing(uint8_t call[CRZ_CALL_LENGTH], uint32_t account, uint32_t receipt)
{
    crz_put_plain_call(call, CRZ_KIND_WITHDRAW_LISTING, account, receipt, 0);
}

static inline void crz_put_limit_bid(uint8_t call[CRZ_CALL_LENGTH], uint32_t account, uint32_t receipt, uint64_t price)
{
    crz_put_plain_call(call, CRZ_KIND_LIMIT_BID, account, receipt, price);
}

static inline void crz_put_market_bid(uint8_t call[CRZ_CALL_LENGTH], uint32_t account, uint32_t receipt)
{
    crz_put_plain_call(call, CRZ_KIND_MARKET_BID, account, receipt, 0);
}

static inline void crz_put_withdraw_bid(uint8_t call[CRZ_CALL_LENGTH], uint32_t account, uint32_t receipt)
{
    crz_put_plain_call(call, CRZ_KIND_WITHDRAW_BID, account, receipt, 0);
}

/* A price of 0 takes the ask away. */
static inline void crz_put_quote(uint8_t call[CRZ_CALL_LENGTH], uint32_t contract, uint64_t price)
{
    crz_put_plain_call(call, CRZ_KIND_QUOTE, 0, 0, price);
    call[CRZ_CALL_CONTRACT] = crz_one_byte(contract);
}

static inline void crz_put_lodge(uint8_t call[CRZ_CALL_LENGTH], uint32_t account, uint32_t receipt)
{
    crz_put_plain_call(call, CRZ_KIND_LODGE, account, receipt, 0);
}

static inline void crz_put_morning_close(uint8_t call[CRZ_CALL_LENGTH])
{
    crz_put_plain_call(call, CRZ_KIND_MORNING_CLOSE, 0, 0, 0);
}

static inline void crz_put_first_payment(uint8_t call[CRZ_CALL_LENGTH], uint32_t account, uint32_t receipt)
{
    crz_put_plain_call(call, CRZ_KIND_FIRST_PAYMENT, account, receipt, 0);
}

static inline void crz_put_invoice(uint8_t call[CRZ_CALL_LENGTH], uint32_t account, uint32_t receipt, uint64_t fen)
{
    crz_put_plain_call(call, CRZ_KIND_INVOICE, account, receipt, fen);
}

static inline void crz_put_confirm(uint8_t call[CRZ_CALL_LENGTH], uint32_t account, uint32_t receipt)
{
    crz_put_plain_call(call, CRZ_KIND_CONFIRM, account, receipt, 0);
}

static inline void crz_put_day_close(uint8_t call[CRZ_CALL_LENGTH])
{
    crz_put_plain_call(call, CRZ_KIND_DAY_CLOSE, 0, 0, 0);
}

/* ── Answers ───────────────────────────────────────────────────────────────────────────────────── */

struct crz_answer_fields {
    uint32_t number, phase, count;
    uint64_t total; /* fen */
};

struct crz_entry_fields {
    uint32_t lot, outcome, from, to, number;
};

static inline struct crz_answer_fields crz_get_answer(const uint8_t answer[CRZ_ANSWER_LENGTH])
{
    struct crz_answer_fields fields;
    fields.number = answer[CRZ_ANSWER_NUMBER];
    fields.phase = answer[CRZ_ANSWER_PHASE];
    fields.count = crz_get_u16(answer + CRZ_ANSWER_COUNT);
    fields.total = crz_get_u64(answer + CRZ_ANSWER_TOTAL);
    return fields;
}

/* Entry `place`, from 0, below the answer's count; zeros past the last place that an answer has. */
static inline struct crz_entry_fields crz_get_entry(const uint8_t answer[CRZ_ANSWER_LENGTH], uint32_t place)
{
    struct crz_entry_fields fields;
    memset(&fields, 0, sizeof fields);
    if (place >= CRZ_ENTRY_COUNT)
        return fields;
    const uint8_t *entry = answer + CRZ_ANSWER_ENTRIES + (size_t)CRZ_ENTRY_LENGTH * place;
    fields.lot = entry[CRZ_ENTRY_LOT];
    fields.outcome = entry[CRZ_ENTRY_OUTCOME];
    fields.from = entry[CRZ_ENTRY_FROM];
    fields.to = entry[CRZ_ENTRY_TO];
    fields.number = crz_get_u32(entry + CRZ_ENTRY_NUMBER);
    return fields;
}

/* ── Tables of calls ───────────────────────────────────────────────────────────────────────────── */

/* Where a call begins in a table, and its own answer in the answers. Places count from 0. */

static inline size_t crz_call_offset(size_t place)
{
    return place * CRZ_CALL_LENGTH;
}

static inline size_t crz_answer_offset(size_t place)
{
    return place * CRZ_ANSWER_LENGTH;
}

/* ── Images ────────────────────────────────────────────────────────────────────────────────────── */

/* Where a record begins in an image. Accounts, contracts and receipts count from 1. */

static inline size_t crz_account_offset(uint32_t account)
{
    return CRZ_IMAGE_ACCOUNTS + (size_t)CRZ_ACCOUNT_LENGTH * (account - 1);
}

static inline size_t crz_ask_offset(uint32_t contract)
{
    return CRZ_IMAGE_ASKS + (size_t)CRZ_ASK_LENGTH * (contract - 1);
}

static inline size_t crz_receipt_offset(uint32_t receipt)
{
    return CRZ_IMAGE_RECEIPTS + (size_t)CRZ_RECEIPT_LENGTH * (receipt - 1);
}

static inline uint32_t crz_get_day(const uint8_t image[CRZ_IMAGE_LENGTH])
{
    return crz_get_u16(image + CRZ_IMAGE_DAY);
}

static inline uint32_t crz_get_phase(const uint8_t image[CRZ_IMAGE_LENGTH])
{
    return image[CRZ_IMAGE_PHASE];
}

static inline uint64_t crz_get_total(const uint8_t image[CRZ_IMAGE_LENGTH])
{
    return crz_get_u64(image + CRZ_IMAGE_TOTAL);
}

/* Reads of a record that an image does not have, number 0 or one past the count, give zeros. */

static inline int crz_is_place(uint32_t number, uint32_t count)
{
    return number >= 1 && number <= count;
}

/* The ask of a contract, 0 for none. */
static inline uint32_t crz_get_ask(const uint8_t image[CRZ_IMAGE_LENGTH], uint32_t contract)
{
    return crz_is_place(contract, CRZ_CONTRACT_COUNT) ? crz_get_u32(image + crz_ask_offset(contract)) : 0;
}

struct crz_account_fields {
    uint64_t free, frozen; /* fen */
};

static inline struct crz_account_fields crz_get_account(const uint8_t image[CRZ_IMAGE_LENGTH], uint32_t account)
{
    struct crz_account_fields fields;
    memset(&fields, 0, sizeof fields);
    if (!crz_is_place(account, CRZ_ACCOUNT_COUNT))
        return fields;
    const uint8_t *record = image + crz_account_offset(account);
    fields.free = crz_get_u64(record + CRZ_ACCOUNT_FREE);
    fields.frozen = crz_get_u64(record + CRZ_ACCOUNT_FROZEN);
    return fields;
}

struct crz_receipt_fields {
    uint32_t owner, state, seller, buyer, contract, days, due;
    uint32_t weight; /* kilograms */
    int32_t basis;
    uint32_t price;
    uint32_t pending, confirmed, paid; /* fen */
    int32_t premium;
};

static inline struct crz_receipt_fields crz_get_receipt(const uint8_t image[CRZ_IMAGE_LENGTH], uint32_t receipt)
{
    struct crz_receipt_fields fields;
    memset(&fields, 0, sizeof fields);
    if (!crz_is_place(receipt, CRZ_RECEIPT_COUNT))
        return fields;
    const uint8_t *record = image + crz_receipt_offset(receipt);
    fields.owner = record[CRZ_RECEIPT_OWNER];
    fields.state = record[CRZ_RECEIPT_STATE];
    fields.seller = record[CRZ_RECEIPT_SELLER];
    fields.buyer = record[CRZ_RECEIPT_BUYER];
    fields.contract = record[CRZ_RECEIPT_CONTRACT];
    fields.days = record[CRZ_RECEIPT_DAYS];
    fields.due = crz_get_u16(record + CRZ_RECEIPT_DUE);
    fields.weight = crz_get_u32(record + CRZ_RECEIPT_WEIGHT);
    fields.basis = crz_get_i32(record + CRZ_RECEIPT_BASIS);
    fields.price = crz_get_u32(record + CRZ_RECEIPT_PRICE);
    fields.pending = crz_get_u32(record + CRZ_RECEIPT_PENDING);
    fields.confirmed = crz_get_u32(record + CRZ_RECEIPT_CONFIRMED);
    fields.paid = crz_get_u32(record + CRZ_RECEIPT_PAID);
    fields.premium = crz_get_i32(record + CRZ_RECEIPT_PREMIUM);
    return fields;
}

/* ── Money of a trade, in fen ──────────────────────────────────────────────────────────────────── */

/*
 * (price + basis + premium) x weight in yuan per tonne and kilograms are tenths of a fen; 0 where the sum of the three
 * is below 1.
 */
static inline uint64_t crz_full_payment(const struct crz_receipt_fields *receipt)
{
    int64_t yuan_per_tonne = (int64_t)receipt->price + receipt->basis + receipt->premium;
    return yuan_per_tonne < 1 ? 0 : ((uint64_t)yuan_per_tonne * receipt->weight + 5) / 10;
}

static inline uint64_t crz_first_payment(const struct crz_receipt_fields *receipt)
{
    return crz_full_payment(receipt) * CRZ_FIRST_PAYMENT_PERCENT / 100;
}

static inline uint64_t crz_rest_payment(const struct crz_receipt_fields *receipt)
{
    return crz_full_payment(receipt) - crz_first_payment(receipt);
}

/* What the lot of a valid image holds from its buyer's money. */
static inline uint64_t crz_held_money(const struct crz_receipt_fields *receipt)
{
    switch (receipt->state) {
    case CRZ_STATE_BID_STANDS:
    case CRZ_STATE_STRUCK:
    case CRZ_STATE_LODGED: return CRZ_DEPOSIT;
    case CRZ_STATE_SETTLED: return crz_full_payment(receipt);
    case CRZ_STATE_FIRST_PAID: return crz_rest_payment(receipt) - receipt->paid;
    default: return 0;
    }
}

/*
 * The rest is paid by what has been confirmed, however it was cut into invoices. The next three are exact for a receipt
 * of a valid image in state CRZ_STATE_FIRST_PAID: its full payment is below 2^31, so that no product passes 64 bits.
 * None of their differences goes below 0, whatever the receipt holds.
 */

/*
 * What is paid of the rest once invoices of `confirmed` fen in all are confirmed: rest x confirmed / full, the fraction
 * dropped, and all of the rest from the full payment on. In a valid image paid is this sum at the receipt's confirmed.
 */
static inline uint64_t crz_paid_of_rest(const struct crz_receipt_fields *receipt, uint64_t confirmed)
{
    uint64_t full = crz_full_payment(receipt), rest = crz_rest_payment(receipt);
    return confirmed < full ? rest * confirmed / full : rest;
}

/* What may still be invoiced: the full payment less what is confirmed and what is pending. */
static inline uint64_t crz_left_to_invoice(const struct crz_receipt_fields *receipt)
{
    uint64_t full = crz_full_payment(receipt), invoiced = (uint64_t)receipt->confirmed + receipt->pending;
    return invoiced < full ? full - invoiced : 0;
}

/*
 * What the next confirmation pays: the part of the rest that the pending invoice brings, 0 fen perhaps. Without a
 * pending invoice there is nothing to confirm, and it is 0 too: `pending` tells the two apart.
 */
static inline uint64_t crz_next_part(const struct crz_receipt_fields *receipt)
{
    uint64_t paid = crz_paid_of_rest(receipt, (uint64_t)receipt->confirmed + receipt->pending);
    return receipt->pending != 0 && paid > receipt->paid ? paid - receipt->paid : 0;
}

/* ── Shortfalls ────────────────────────────────────────────────────────────────────────────────── */

/* What an account has to pay in, fen; 0 for a number that is no account. */
static inline uint64_t crz_get_figure(const uint8_t figures[CRZ_FIGURES_LENGTH], uint32_t account)
{
    if (!crz_is_place(account, CRZ_ACCOUNT_COUNT))
        return 0;
    return crz_get_u64(figures + (size_t)CRZ_FIGURE_LENGTH * (account - 1));
}

#endif
