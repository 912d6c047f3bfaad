/*
 * Time per call of the library and of the plain C ledger (plain.c, once from each compiler), through one interface in
 * one run: for each row the least time of many rounds, a round being one call on each of a few images in the same
 * state. All rows are swept several times, so that a slow moment of the machine does not meet one row alone. Two rows
 * make the same calls, in one table and singly: theirs is the time of all of these calls together.
 *
 * bench              the times; the ratio is the library's to the faster of the plain ones
 * bench rows         the names of the rows
 * bench LEDGER ROW   one round of one row, to count its instructions: LEDGER is library, gcc or clang
 *
 * A row is a call, the image that it finds, what it returns and how it is made; shortfalls need no call. A new one is a
 * line of `rows`, and a function that fills its image if none of the six here will do. An entry of another form is a
 * field more of `ledgers`, and is called in make_row.
 */
#define _POSIX_C_SOURCE 200809L

#include <stdio.h>
#include <stdlib.h>
#include <string.h>
#include <time.h>

#include "../include/crz_records.h"

/* crz_call and crz_table have one form */
typedef uint32_t ledger_entry(
    uint8_t *image, size_t image_len, const uint8_t *calls, size_t calls_len, uint8_t *answers, size_t answers_len);
ledger_entry plain_gcc_call, plain_gcc_table, plain_clang_call, plain_clang_table;
typedef uint32_t figures_entry(const uint8_t *image, size_t image_len, uint8_t *figures, size_t figures_len);
figures_entry plain_gcc_shortfalls, plain_clang_shortfalls;

enum { IMAGES = 16, ROUNDS = 1000, SWEEPS = 10, DAY = 5, PRICE = 15000, WEIGHT = 41237 };
enum { CONFIRMED = 20000000, PENDING = 10000000 };
enum { LOT = 3, BIDDER = 90, TRADE = 7, PAYER = 55, LAST = CRZ_RECEIPT_COUNT };

/* the library comes first */
static const struct ledger {
    const char *name;
    ledger_entry *call, *table;
    figures_entry *shortfalls;
} ledgers[] = {
    {"library", crz_call, crz_table, crz_shortfalls},
    {"gcc", plain_gcc_call, plain_gcc_table, plain_gcc_shortfalls},
#ifndef WITHOUT_CLANG
    {"clang", plain_clang_call, plain_clang_table, plain_clang_shortfalls},
#endif
};

enum { LEDGERS = sizeof ledgers / sizeof ledgers[0] };

/* ── Images ────────────────────────────────────────────────────────────────────────────────────── */

static void add_to(uint8_t *at, uint64_t amount)
{
    crz_put_u64(at, crz_get_u64(at) + amount);
}

static void put_money(uint8_t *image, unsigned account, uint64_t fen)
{
    add_to(image + crz_account_offset(account) + CRZ_ACCOUNT_FREE, fen);
    add_to(image + CRZ_IMAGE_TOTAL, fen);
}

static void put_trade(uint8_t *receipt, unsigned state, unsigned buyer)
{
    if (state >= CRZ_STATE_BID_STANDS) {
        receipt[CRZ_RECEIPT_BUYER] = (uint8_t)buyer;
        crz_put_u32(receipt + CRZ_RECEIPT_PRICE, state == CRZ_STATE_PENALTY_DUE ? 0 : PRICE);
    }
    if (state >= CRZ_STATE_STRUCK)
        crz_put_u16(receipt + CRZ_RECEIPT_DUE, DAY);
}

/* about a third confirmed, with what is paid for it (02 3/12), and half as much pending */
static void put_invoices(uint8_t *image, unsigned number)
{
    uint8_t *receipt = image + crz_receipt_offset(number);
    struct crz_receipt_fields fields = crz_get_receipt(image, number);
    crz_put_u32(receipt + CRZ_RECEIPT_PENDING, PENDING);
    crz_put_u32(receipt + CRZ_RECEIPT_CONFIRMED, CONFIRMED);
    crz_put_u32(receipt + CRZ_RECEIPT_PAID, (uint32_t)crz_paid_of_rest(&fields, CONFIRMED));
}

/* below 0, none and above 0 by turns, so that lots of every state have all three */
static int32_t premium_of(unsigned number)
{
    return 300 * ((int32_t)(number % 3) - 1);
}

/* contracts change every eight lots */
static void put_terms(uint8_t *receipt, unsigned number)
{
    receipt[CRZ_RECEIPT_CONTRACT] = (uint8_t)(1 + (number - 1) / 8 % 8);
    receipt[CRZ_RECEIPT_DAYS] = (uint8_t)((number - 1) % 4);
}

static void put_receipt(uint8_t *image, unsigned number, unsigned state)
{
    uint8_t *receipt = image + crz_receipt_offset(number);
    unsigned seller = 1 + (number - 1) % 48, buyer = 49 + (number - 1) % 48;
    int bought = state == CRZ_STATE_SETTLED || state == CRZ_STATE_FIRST_PAID;
    struct crz_receipt_fields fields;
    receipt[CRZ_RECEIPT_OWNER] = (uint8_t)(bought ? buyer : seller);
    receipt[CRZ_RECEIPT_STATE] = (uint8_t)state;
    crz_put_u32(receipt + CRZ_RECEIPT_WEIGHT, WEIGHT);
    crz_put_i32(receipt + CRZ_RECEIPT_PREMIUM, premium_of(number));
    if (state != CRZ_STATE_IDLE)
        receipt[CRZ_RECEIPT_SELLER] = (uint8_t)seller;
    if (state != CRZ_STATE_IDLE && state != CRZ_STATE_PENALTY_DUE)
        put_terms(receipt, number);
    put_trade(receipt, state, buyer);
    if (state == CRZ_STATE_FIRST_PAID)
        put_invoices(image, number);
    fields = crz_get_receipt(image, number);
    add_to(image + crz_account_offset(buyer) + CRZ_ACCOUNT_FROZEN, crz_held_money(&fields));
    add_to(image + CRZ_IMAGE_TOTAL, crz_held_money(&fields));
}

static void fill_accounts(uint8_t *image)
{
    unsigned account;
    for (account = 1; account <= CRZ_ACCOUNT_COUNT; account++)
        put_money(image, account, 1000000000 + account);
}

/* lots in all eight states by turns, with premiums of both signs and none, and money in every account */
static void fill_lots(uint8_t *image, unsigned count)
{
    unsigned number;
    fill_accounts(image);
    for (number = 1; number <= count; number++)
        put_receipt(image, number, (number - 1) % 8);
}

/* 128 of them */
static void busy(uint8_t *image)
{
    fill_lots(image, CRZ_RECEIPT_COUNT);
}

/* LAST is not registered */
static void busy_but_last(uint8_t *image)
{
    fill_lots(image, LAST - 1);
}

/* the receipts with odd numbers, so that every second record is empty */
static void half(uint8_t *image)
{
    unsigned number;
    fill_accounts(image);
    for (number = 1; number <= CRZ_RECEIPT_COUNT; number += 2)
        put_receipt(image, number, number / 2 % 8);
}

/* one receipt listed and the money for one bid on it in one account; all else is empty */
static void idle(uint8_t *image)
{
    put_receipt(image, LOT, CRZ_STATE_LISTED);
    put_money(image, BIDDER, CRZ_DEPOSIT);
}

/* one trade with an invoice pending; all else is empty */
static void idle_but_trade(uint8_t *image)
{
    put_receipt(image, TRADE, CRZ_STATE_FIRST_PAID);
}

/* a bid on each of 128 lots of one contract, at 64 prices in no order, two bids at each; money in every account */
static void bid_for(uint8_t *image)
{
    unsigned number;
    fill_accounts(image);
    for (number = 1; number <= CRZ_RECEIPT_COUNT; number++) {
        uint8_t *receipt = image + crz_receipt_offset(number);
        put_receipt(image, number, CRZ_STATE_BID_STANDS);
        receipt[CRZ_RECEIPT_CONTRACT] = 1;
        crz_put_u32(receipt + CRZ_RECEIPT_PRICE, PRICE + 5 * (number * 37 % 64));
    }
}

/* ── Rows ──────────────────────────────────────────────────────────────────────────────────────── */

/* one call; shortfalls; as many calls as a table can have, singly and in one table */
enum way { ONE_CALL, FIGURES, SINGLY, IN_TABLE };

struct row {
    const char *name;
    void (*fill)(uint8_t *image);
    enum crz_kind kind;
    uint8_t account, receipt, contract;
    uint64_t amount;
    uint32_t number; /* what is returned */
    enum way way;
};

/* on the busy image LOT has a standing bid at PRICE, of contract 1; on the idle one it is listed. TRADE waits for PAYER
 * to confirm an invoice. On the busy image 48 lots are due, which the morning close works and shortfalls ask for */
static const struct row rows[] = {
    {"quote, busy", busy, CRZ_KIND_QUOTE, 0, 0, 1, PRICE, CRZ_NUMBER_ACCEPTED, ONE_CALL},
    {"quote, idle", idle, CRZ_KIND_QUOTE, 0, 0, 1, PRICE, CRZ_NUMBER_ACCEPTED, ONE_CALL},
    {"quote, 128 strikes", bid_for, CRZ_KIND_QUOTE, 0, 0, 1, PRICE, CRZ_NUMBER_ACCEPTED, ONE_CALL},
    {"pay in, busy", busy, CRZ_KIND_PAY_IN, 1, 0, 0, 100, CRZ_NUMBER_ACCEPTED, ONE_CALL},
    {"pay in, idle", idle, CRZ_KIND_PAY_IN, 1, 0, 0, 100, CRZ_NUMBER_ACCEPTED, ONE_CALL},
    {"register, busy", busy_but_last, CRZ_KIND_REGISTER, 1, LAST, 0, 0, CRZ_NUMBER_ACCEPTED, ONE_CALL},
    {"register, idle", idle, CRZ_KIND_REGISTER, 1, LAST, 0, 0, CRZ_NUMBER_ACCEPTED, ONE_CALL},
    {"limit bid, busy", busy, CRZ_KIND_LIMIT_BID, BIDDER, LOT, 0, PRICE + 5, CRZ_NUMBER_ACCEPTED, ONE_CALL},
    {"limit bid, idle", idle, CRZ_KIND_LIMIT_BID, BIDDER, LOT, 0, PRICE + 5, CRZ_NUMBER_ACCEPTED, ONE_CALL},
    {"morning close, busy", busy, CRZ_KIND_MORNING_CLOSE, 0, 0, 0, 0, CRZ_NUMBER_ACCEPTED, ONE_CALL},
    {"morning close, idle", idle, CRZ_KIND_MORNING_CLOSE, 0, 0, 0, 0, CRZ_NUMBER_ACCEPTED, ONE_CALL},
    {"confirmation, busy", busy, CRZ_KIND_CONFIRM, PAYER, TRADE, 0, 0, CRZ_NUMBER_ACCEPTED, ONE_CALL},
    {"confirmation, idle", idle_but_trade, CRZ_KIND_CONFIRM, PAYER, TRADE, 0, 0, CRZ_NUMBER_ACCEPTED, ONE_CALL},
    {"refusal, busy", busy, CRZ_KIND_LODGE, 1, 1, 0, 0, CRZ_NUMBER_WRONG_STATE, ONE_CALL},
    {"refusal, idle", idle, CRZ_KIND_LODGE, 1, 1, 0, 0, CRZ_NUMBER_WRONG_STATE, ONE_CALL},
    {"refusal, half", half, CRZ_KIND_LODGE, 1, 1, 0, 0, CRZ_NUMBER_WRONG_STATE, ONE_CALL},
    {"shortfalls, busy", busy, CRZ_KIND_MORNING_CLOSE, 0, 0, 0, 0, CRZ_NUMBER_ACCEPTED, FIGURES},
    {"shortfalls, idle", idle, CRZ_KIND_MORNING_CLOSE, 0, 0, 0, 0, CRZ_NUMBER_ACCEPTED, FIGURES},
    {"32 quotes singly, busy", busy, CRZ_KIND_QUOTE, 0, 0, 0, 0, CRZ_NUMBER_ACCEPTED, SINGLY},
    {"table of 32 quotes, busy", busy, CRZ_KIND_QUOTE, 0, 0, 0, 0, CRZ_NUMBER_ACCEPTED, IN_TABLE},
};

enum { ROWS = sizeof rows / sizeof rows[0] };

/* ── Rounds ────────────────────────────────────────────────────────────────────────────────────── */

static double now(void)
{
    struct timespec t;
    clock_gettime(CLOCK_MONOTONIC, &t);
    return (double)t.tv_sec * 1e9 + (double)t.tv_nsec;
}

static uint8_t calls[CRZ_TABLE_COUNT * CRZ_CALL_LENGTH], answers[CRZ_TABLE_COUNT * CRZ_ANSWER_LENGTH];

/* An ask for each contract by turns, which comes down to the bids of the busy image: in the third turn a quote strikes
 * two lots, as the quote by itself does, in the others none. */
static void put_quotes(void)
{
    uint32_t i;
    for (i = 0; i < CRZ_TABLE_COUNT; i++) {
        uint32_t contract = 1 + i % CRZ_CONTRACT_COUNT, turn = i / CRZ_CONTRACT_COUNT;
        crz_put_quote(calls + crz_call_offset(i), contract, PRICE + 2 * CRZ_PRICE_STEP - CRZ_PRICE_STEP * turn);
    }
}

static int is_of_quotes(const struct row *row)
{
    return row->way == SINGLY || row->way == IN_TABLE;
}

static void prepare(const struct row *row, uint8_t *image)
{
    crz_fresh(image, CRZ_IMAGE_LENGTH);
    crz_put_u16(image + CRZ_IMAGE_DAY, DAY);
    row->fill(image);
    crz_put_plain_call(calls, row->kind, row->account, row->receipt, row->amount);
    calls[CRZ_CALL_CONTRACT] = row->contract;
    if (row->kind == CRZ_KIND_REGISTER)
        crz_put_register(calls, row->account, row->receipt, WEIGHT, CRZ_PREMIUM_LEAST);
    if (is_of_quotes(row))
        put_quotes();
}

static uint8_t images[IMAGES][CRZ_IMAGE_LENGTH];

static void copy_images(const uint8_t *image)
{
    int i;
    for (i = 0; i < IMAGES; i++)
        memcpy(images[i], image, CRZ_IMAGE_LENGTH);
}

/* each call with an answer of its own, as in a table; the numbers together */
static uint32_t make_singly(const struct ledger *ledger, uint8_t *image)
{
    uint32_t numbers = 0;
    size_t i;
    for (i = 0; i < CRZ_TABLE_COUNT; i++)
        numbers |= ledger->call(image, CRZ_IMAGE_LENGTH, calls + crz_call_offset(i), CRZ_CALL_LENGTH,
            answers + crz_answer_offset(i), CRZ_ANSWER_LENGTH);
    return numbers;
}

static uint32_t make_row(const struct ledger *ledger, const struct row *row, uint8_t *image)
{
    switch (row->way) {
    case FIGURES: return ledger->shortfalls(image, CRZ_IMAGE_LENGTH, answers, CRZ_FIGURES_LENGTH);
    case SINGLY: return make_singly(ledger, image);
    case IN_TABLE: return ledger->table(image, CRZ_IMAGE_LENGTH, calls, sizeof calls, answers, sizeof answers);
    default: return ledger->call(image, CRZ_IMAGE_LENGTH, calls, CRZ_CALL_LENGTH, answers, CRZ_ANSWER_LENGTH);
    }
}

/* the numbers in the answers together: a table returns 0 whatever they are */
static uint32_t answered(void)
{
    uint32_t numbers = 0;
    size_t i;
    for (i = 0; i < CRZ_TABLE_COUNT; i++)
        numbers |= answers[crz_answer_offset(i) + CRZ_ANSWER_NUMBER];
    return numbers;
}

/* nanoseconds of one round, per call or per table */
static double one_round(const struct ledger *ledger, const struct row *row, const uint8_t *image)
{
    uint32_t other = 0;
    double start, took;
    int i;
    copy_images(image);
    start = now();
    for (i = 0; i < IMAGES; i++)
        other |= row->number ^ make_row(ledger, row, images[i]);
    took = now() - start;
    if (row->way == IN_TABLE)
        other |= row->number ^ answered();
    if (other != 0) {
        fprintf(stderr, "%s, %s: returned another number than %u\n", row->name, ledger->name, (unsigned)row->number);
        exit(1);
    }
    return took / IMAGES;
}

/* least time of each row and ledger so far, 0 before the first */
static double least[ROWS][LEDGERS];

/* the ledgers take turns, so that all meet the same moods of the machine; many calls in a round mean fewer rounds */
static void measure(int row)
{
    uint8_t image[CRZ_IMAGE_LENGTH];
    int i, rounds = is_of_quotes(&rows[row]) ? ROUNDS / 8 : ROUNDS;
    prepare(&rows[row], image);
    for (i = 0; i < rounds * LEDGERS; i++) {
        double took = one_round(&ledgers[i % LEDGERS], &rows[row], image), *best = &least[row][i % LEDGERS];
        if (*best == 0 || took < *best)
            *best = took;
    }
}

static void sweep(void)
{
    int row;
    for (row = 0; row < ROWS; row++)
        measure(row);
}

static void print_row(int row)
{
    double faster = least[row][1];
    int i;
    printf("%-24s", rows[row].name);
    for (i = 0; i < LEDGERS; i++) {
        printf(" %8.0f", least[row][i]);
        if (i > 0 && least[row][i] < faster)
            faster = least[row][i];
    }
    printf(" %8.1f\n", least[row][0] / faster);
}

static void print_heads(void)
{
    int i;
    printf("%-24s", "ns per call, least");
    for (i = 0; i < LEDGERS; i++)
        printf(" %8s", ledgers[i].name);
    printf(" %8s\n", "ratio");
}

/* ── Ways to be called ─────────────────────────────────────────────────────────────────────────── */

static const struct ledger *ledger_named(const char *name)
{
    int i = 0;
    while (i < LEDGERS && strcmp(ledgers[i].name, name) != 0)
        i++;
    return i < LEDGERS ? &ledgers[i] : NULL;
}

static const struct row *row_named(const char *name)
{
    int i = 0;
    while (i < ROWS && strcmp(rows[i].name, name) != 0)
        i++;
    return i < ROWS ? &rows[i] : NULL;
}

static int one_round_of(const char *ledger_name, const char *row_name)
{
    const struct ledger *ledger = ledger_named(ledger_name);
    const struct row *row = row_named(row_name);
    uint8_t image[CRZ_IMAGE_LENGTH];
    if (ledger == NULL || row == NULL) {
        fprintf(stderr, "bench: no ledger %s or no row %s\n", ledger_name, row_name);
        return 2;
    }
    prepare(row, image);
    one_round(ledger, row, image);
    return 0;
}

static int print_names(void)
{
    int row;
    for (row = 0; row < ROWS; row++)
        puts(rows[row].name);
    return 0;
}

static void sweep_all(void)
{
    int i;
    for (i = 0; i < SWEEPS; i++)
        sweep();
}

int main(int argc, char **argv)
{
    int row;
    if (argc == 3)
        return one_round_of(argv[1], argv[2]);
    if (argc == 2 && strcmp(argv[1], "rows") == 0)
        return print_names();
    sweep_all();
    print_heads();
    for (row = 0; row < ROWS; row++)
        print_row(row);
    return 0;
}
