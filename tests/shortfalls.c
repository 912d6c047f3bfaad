/*
 * Shortfalls before the morning close (02 6/12). On zones that calls have led to and on zones that are made up, each in
 * the morning and in the afternoon, every figure is held to a count of its own for that account (plain_shortfall_of).
 * Then the close is made on copies of the zone: an account that has paid its figure in is the buyer of no default, and
 * one whose only part in the close is one trade that it buys defaults where it has paid a fen less. Some zones have
 * figures that are written down here. Lengths of both buffers, images that are not valid, and what must stay as it was
 * are tried on all sorts of zones; the image is lent for reading alone. The edges that the zones must have between them
 * are counted (shortfalls_edges.c), and one that is missing is a failure.
 *
 * shortfalls         all of it. The last line is 'N passed, M failed'
 * shortfalls first   ends at the first failure
 */
#include "draw.h"
#include "lent.h"
#include "shortfalls_edges.h"

#include <stdio.h>
#include <stdlib.h>

uint64_t plain_shortfall_of(const uint8_t *image, uint32_t account);

enum { FILL = 0xa5, DAY = 100, NONE = 0 };

static uint8_t zone[LENT_MOST]; /* the image that is tried, and zeros */
static size_t zone_len = CRZ_IMAGE_LENGTH;
static int zone_valid = 1;

static struct lent image, figures;
static unsigned long passed, failed, zones;
static const char *part = "";
static int ends_at_first;

/* the first ten failures are printed */
static void expect(int ok, const char *what)
{
    passed += ok != 0;
    if (!ok && ++failed <= 10)
        printf("failed: %s (%s, zone %lu, lengths %lu, %lu)\n", what, part, zones, (unsigned long)image.len,
            (unsigned long)figures.len);
    if (!ok && ends_at_first) {
        printf("0 passed, 1 failed\n");
        exit(1);
    }
}

/* ── One question ──────────────────────────────────────────────────────────────────────────────── */

static int all(const uint8_t *bytes, size_t count, uint8_t value)
{
    while (count-- > 0)
        if (*bytes++ != value)
            return 0;
    return 1;
}

/* as the request has it: first the figures' length, then the image */
static uint32_t number_for(size_t figures_len)
{
    if (figures_len < CRZ_FIGURES_LENGTH)
        return CRZ_NUMBER_SHORT_ANSWER;
    return zone_valid && zone_len == CRZ_IMAGE_LENGTH ? CRZ_NUMBER_ACCEPTED : CRZ_NUMBER_BAD_IMAGE;
}

/* each figure is what a count for the account alone makes of the zone */
static int figures_counted(void)
{
    uint32_t account, other = 0;
    for (account = 1; account <= CRZ_ACCOUNT_COUNT; account++)
        other += crz_get_figure(figures.bytes, account) != plain_shortfall_of(zone, account);
    return other == 0;
}

static void expect_figures(uint8_t fill)
{
    expect(figures_counted(), "the figures");
    expect(all(figures.bytes + CRZ_FIGURES_LENGTH, figures.len - CRZ_FIGURES_LENGTH, fill), "bytes past the figures");
    if (crz_get_phase(zone) == CRZ_PHASE_AFTERNOON)
        expect(all(figures.bytes, CRZ_FIGURES_LENGTH, 0), "no figure in an afternoon");
}

/* a buffer without bytes may be a null pointer */
static uint8_t *address(const struct lent *lent, int null)
{
    return null && lent->len == 0 ? NULL : lent->bytes;
}

/* figures of so many bytes, filled with this byte before */
static void ask(enum lent_place place, uint8_t fill, size_t figures_len)
{
    uint32_t wanted = number_for(figures_len), number;
    int null = place == LENT_BETWEEN && fill == 0;
    lend_bytes(&image, place, zone, zone_len);
    lend_filled(&figures, place, fill, figures_len);
    if (place != LENT_BETWEEN)
        lend_for_reading(&image);
    number = crz_shortfalls(address(&image, null), image.len, address(&figures, null), figures.len);
    expect(number == wanted, "the number");
    expect(memcmp(image.bytes, zone, image.len) == 0 && lent_kept(&image), "the image stays");
    expect(lent_kept(&figures), "bytes around the figures");
    if (wanted == CRZ_NUMBER_ACCEPTED)
        expect_figures(fill);
    else
        expect(all(figures.bytes, figures.len, fill), "nothing is written");
}

/* ── The morning close, on a copy of the zone ──────────────────────────────────────────────────── */

static uint8_t paid[CRZ_IMAGE_LENGTH], answer[CRZ_ANSWER_LENGTH];

/* the zone again, in which nobody has paid in yet */
static void start_paying(void)
{
    memcpy(paid, zone, sizeof paid);
}

/* nothing is called for a sum of 0 */
static void pay_in(uint32_t account, uint64_t fen)
{
    uint8_t call[CRZ_CALL_LENGTH];
    crz_put_pay_in(call, account, fen);
    if (fen != 0)
        expect(crz_call(paid, sizeof paid, call, sizeof call, answer, sizeof answer) == 0, "the sum is paid in");
}

static void close_morning(void)
{
    uint8_t call[CRZ_CALL_LENGTH];
    crz_put_morning_close(call);
    expect(crz_call(paid, sizeof paid, call, sizeof call, answer, sizeof answer) == 0, "the morning close");
}

static int is_default(const struct crz_entry_fields *entry)
{
    return entry->outcome == CRZ_OUTCOME_BUYER_DEFAULT || entry->outcome == CRZ_OUTCOME_BOTH_DEFAULTED;
}

/* defaults of the close with this account as buyer, or, for account NONE, with any */
static unsigned defaults_of(uint32_t account)
{
    uint32_t i, count = crz_get_answer(answer).count;
    unsigned found = 0;
    for (i = 0; i < count && i < CRZ_ENTRY_COUNT; i++) {
        struct crz_entry_fields entry = crz_get_entry(answer, i);
        found += is_default(&entry) && (account == NONE || entry.from == account);
    }
    return found;
}

/* whether the lot has a default of this buyer */
static int lot_defaults(uint32_t lot, uint32_t buyer)
{
    uint32_t i, count = crz_get_answer(answer).count;
    int found = 0;
    for (i = 0; i < count && i < CRZ_ENTRY_COUNT; i++) {
        struct crz_entry_fields entry = crz_get_entry(answer, i);
        found |= is_default(&entry) && entry.lot == lot && entry.from == buyer;
    }
    return found;
}

/* one part in the close, and that as a buyer: a fen less than the figure brings the default */
static void pay_fen_less(uint32_t account, uint64_t figure)
{
    const struct party *p = &parties[account];
    uint32_t state = crz_get_receipt(zone, p->trade).state;
    if (figure == 0 || p->trades != 1 || p->parts != 1)
        return;
    start_paying();
    pay_in(account, figure - 1);
    close_morning();
    expect(lot_defaults(p->trade, account), "a fen less brings a default");
    edges[FEN_LESS_STRUCK] += state == CRZ_STATE_STRUCK;
    edges[FEN_LESS_LODGED] += state == CRZ_STATE_LODGED;
    edges[FEN_LESS_NO_CALL] += figure == 1;
}

/* whoever else is short */
static void pay_figure(uint32_t account, uint64_t figure)
{
    if (figure == 0)
        return;
    start_paying();
    pay_in(account, figure);
    close_morning();
    expect(defaults_of(account) == 0, "no default of a buyer who has paid in");
    edges[OTHERS_SHORT] += defaults_of(NONE) > 0;
}

/* nobody pays in: whoever defaults as buyer has a figure above 0 */
static void pay_nothing(void)
{
    uint32_t account, other = 0;
    start_paying();
    close_morning();
    for (account = 1; account <= CRZ_ACCOUNT_COUNT; account++)
        other += crz_get_figure(figures.bytes, account) == 0 && defaults_of(account) > 0;
    expect(other == 0, "no default of a buyer with nothing to pay in");
}

/* everybody pays in: nobody defaults as buyer */
static void pay_all(void)
{
    uint32_t account;
    start_paying();
    for (account = 1; account <= CRZ_ACCOUNT_COUNT; account++)
        pay_in(account, crz_get_figure(figures.bytes, account));
    close_morning();
    expect(defaults_of(NONE) == 0, "no default of a buyer where all have paid in");
}

/* by the figures that are there */
static void pay_by_figures(void)
{
    uint32_t account;
    pay_nothing();
    pay_all();
    for (account = 1; account <= CRZ_ACCOUNT_COUNT; account++) {
        uint64_t figure = crz_get_figure(figures.bytes, account);
        pay_figure(account, figure);
        pay_fen_less(account, figure);
    }
}

/* ── One zone ──────────────────────────────────────────────────────────────────────────────────── */

static void ask_all_ways(void)
{
    ask(LENT_START_AT_WALL, 0, CRZ_FIGURES_LENGTH + 1);
    ask(LENT_BETWEEN, 0xff, 1000);
    ask(LENT_END_AT_WALL, FILL, CRZ_FIGURES_LENGTH - 1);
    ask(LENT_END_AT_WALL, FILL, CRZ_FIGURES_LENGTH);
}

/* a call without bytes is 3 on a valid image */
static void expect_valid(void)
{
    memcpy(paid, zone, sizeof paid);
    expect(crz_call(paid, sizeof paid, NULL, 0, answer, sizeof answer) == CRZ_NUMBER_BAD_CALL, "a valid zone");
}

/* a morning of the zone; the afternoon is tried before, with the same lots and money */
static void try_zone(void)
{
    zones++;
    survey(zone);
    zone[CRZ_IMAGE_PHASE] = CRZ_PHASE_AFTERNOON;
    expect_valid();
    ask_all_ways();
    zone[CRZ_IMAGE_PHASE] = CRZ_PHASE_MORNING;
    expect_valid();
    ask_all_ways();
    edges[AFTERNOON_DUE] += !all(figures.bytes, CRZ_FIGURES_LENGTH, 0);
    count_edges(zone);
    pay_by_figures();
}

/* ── Zones that are made up ────────────────────────────────────────────────────────────────────── */

/* what a lot costs: full payments of 100 fen; a fen below the deposit, the deposit and a fen above; example 1's; the
 * dearest that there is; and one that is dear by its premium alone */
static const struct terms {
    uint32_t price;
    int32_t basis, premium;
    uint32_t weight;
} all_terms[] = {{5, -4, 0, 1000}, {50000, -446, 0, 1009}, {45000, 0, 5000, 1000}, {35000, 461, 0, 1410},
    {15000, 200, 100, 41237}, {200000, 50000, 5000, 60000}, {5, -4, 5000, 60000}};

enum { CHEAPEST, BELOW_DEPOSIT, AT_DEPOSIT, ABOVE_DEPOSIT, EXAMPLE, DEAREST, BY_PREMIUM, TERMS };

static void start_fresh(const char *name, uint32_t day)
{
    part = name;
    memset(zone, 0, sizeof zone);
    expect(crz_fresh(zone, CRZ_IMAGE_LENGTH) == CRZ_NUMBER_ACCEPTED, "a fresh zone");
    crz_put_u16(zone + CRZ_IMAGE_DAY, (uint16_t)day);
}

static void put_terms(uint8_t *record, const struct terms *terms)
{
    record[CRZ_RECEIPT_CONTRACT] = 8;
    crz_put_i32(record + CRZ_RECEIPT_BASIS, terms->basis);
    crz_put_u32(record + CRZ_RECEIPT_PRICE, terms->price);
}

/* a lot from state 2 on, whose invoices are none; the money that it holds is booked later */
static void put_lot(uint32_t lot, uint32_t state, uint32_t seller, uint32_t buyer, uint32_t due, int terms)
{
    uint8_t *record = zone + crz_receipt_offset(lot);
    int bought = state == CRZ_STATE_SETTLED || state == CRZ_STATE_FIRST_PAID;
    memset(record, 0, CRZ_RECEIPT_LENGTH);
    record[CRZ_RECEIPT_OWNER] = (uint8_t)(bought ? buyer : seller);
    record[CRZ_RECEIPT_STATE] = (uint8_t)state;
    record[CRZ_RECEIPT_SELLER] = (uint8_t)seller;
    record[CRZ_RECEIPT_BUYER] = (uint8_t)buyer;
    crz_put_u32(record + CRZ_RECEIPT_WEIGHT, all_terms[terms].weight);
    crz_put_i32(record + CRZ_RECEIPT_PREMIUM, all_terms[terms].premium);
    if (state != CRZ_STATE_PENALTY_DUE)
        put_terms(record, &all_terms[terms]);
    if (state != CRZ_STATE_BID_STANDS)
        crz_put_u16(record + CRZ_RECEIPT_DUE, (uint16_t)due);
}

static void add_to(uint8_t *sum, uint64_t added)
{
    crz_put_u64(sum, crz_get_u64(sum) + added);
}

static void put_free(uint32_t account, uint64_t fen)
{
    crz_put_u64(zone + crz_account_offset(account) + CRZ_ACCOUNT_FREE, fen);
}

static void freeze_held(void)
{
    uint32_t lot;
    for (lot = 1; lot <= CRZ_RECEIPT_COUNT; lot++) {
        struct crz_receipt_fields receipt = crz_get_receipt(zone, lot);
        if (receipt.buyer != NONE)
            add_to(zone + crz_account_offset(receipt.buyer) + CRZ_ACCOUNT_FROZEN, crz_held_money(&receipt));
    }
}

static void add_up(void)
{
    uint32_t account;
    for (account = 1; account <= CRZ_ACCOUNT_COUNT; account++) {
        struct crz_account_fields money = crz_get_account(zone, account);
        add_to(zone + CRZ_IMAGE_TOTAL, money.free + money.frozen);
    }
}

/* frozen money and total, once the lots and the free money are there */
static void book(void)
{
    uint32_t account;
    for (account = 1; account <= CRZ_ACCOUNT_COUNT; account++)
        crz_put_u64(zone + crz_account_offset(account) + CRZ_ACCOUNT_FROZEN, 0);
    crz_put_u64(zone + CRZ_IMAGE_TOTAL, 0);
    freeze_held();
    add_up();
}

/* ── Figures that are known ────────────────────────────────────────────────────────────────────── */

enum { SELLER = 1, BUYER = CRZ_ACCOUNT_COUNT, OTHER = 40, FEN_ABOVE = 58092610 };

/* the zone is booked and tried: these figures of the three, and 0 of all others */
static void try_known(uint64_t of_seller, uint64_t of_other, uint64_t of_buyer)
{
    uint32_t account;
    uint64_t others = 0;
    book();
    try_zone();
    for (account = 1; account <= CRZ_ACCOUNT_COUNT; account++)
        if (account != SELLER && account != OTHER && account != BUYER)
            others |= crz_get_figure(figures.bytes, account);
    expect(crz_get_figure(figures.bytes, SELLER) == of_seller, "the figure of account 1");
    expect(crz_get_figure(figures.bytes, OTHER) == of_other, "the figure of account 40");
    expect(crz_get_figure(figures.bytes, BUYER) == of_buyer, "the figure of account 96");
    expect(others == 0, "no other figure");
}

/* one trade, due then; example 1 has 58,092,610 fen above the deposit */
static void try_one_trade(uint32_t state, uint32_t due, uint64_t free, uint64_t figure)
{
    start_fresh("one trade", DAY);
    put_lot(7, state, SELLER, BUYER, due, EXAMPLE);
    put_free(BUYER, free);
    try_known(0, 0, figure);
}

static void try_trade_days(uint32_t state)
{
    try_one_trade(state, DAY, 0, FEN_ABOVE);
    try_one_trade(state, DAY, FEN_ABOVE - 1, 1);
    try_one_trade(state, DAY, FEN_ABOVE, 0);
    try_one_trade(state, DAY, FEN_ABOVE + 1, 0);
    try_one_trade(state, DAY, 1000, FEN_ABOVE - 1000);
    try_one_trade(state, DAY - 1, 0, FEN_ABOVE);
    try_one_trade(state, CRZ_DUE_LEAST, 0, FEN_ABOVE);
    try_one_trade(state, DAY + 1, 0, 0);
    try_one_trade(state, CRZ_DUE_MOST, 0, 0);
}

/* what a trade at these terms asks for */
static void try_terms(uint32_t state, int terms, uint64_t figure)
{
    start_fresh("terms of one trade", DAY);
    put_lot(CRZ_RECEIPT_COUNT, state, SELLER, BUYER, DAY, terms);
    try_known(0, 0, figure);
}

static void try_all_terms(uint32_t state)
{
    try_terms(state, CHEAPEST, 0);
    try_terms(state, BELOW_DEPOSIT, 0);
    try_terms(state, AT_DEPOSIT, 0);
    try_terms(state, ABOVE_DEPOSIT, 1);
    try_terms(state, DEAREST, 1525000000);
    try_terms(state, BY_PREMIUM, 25006000);
}

/* a lot in a state that the close leaves, of a buyer without money */
static void try_other_state(uint32_t state, uint32_t due)
{
    start_fresh("a state that the close leaves", DAY);
    put_lot(1, state, SELLER, BUYER, due, EXAMPLE);
    try_known(0, 0, 0);
}

static void try_other_states(void)
{
    try_other_state(CRZ_STATE_BID_STANDS, DAY);
    try_other_state(CRZ_STATE_SETTLED, DAY);
    try_other_state(CRZ_STATE_SETTLED, CRZ_DUE_LEAST);
    try_other_state(CRZ_STATE_FIRST_PAID, DAY);
    try_other_state(CRZ_STATE_FIRST_PAID, CRZ_DUE_LEAST);
}

/* penalties are asked of the seller, one for each lot that is due */
static void try_penalties(uint64_t free, uint64_t figure)
{
    start_fresh("penalties", DAY);
    put_lot(1, CRZ_STATE_PENALTY_DUE, SELLER, BUYER, DAY, EXAMPLE);
    put_lot(2, CRZ_STATE_PENALTY_DUE, SELLER, OTHER, 1, CHEAPEST);
    put_lot(3, CRZ_STATE_PENALTY_DUE, SELLER, BUYER, DAY + 1, EXAMPLE);
    put_lot(128, CRZ_STATE_PENALTY_DUE, SELLER, BUYER, DAY - 1, DEAREST);
    put_free(SELLER, free);
    try_known(figure, 0, 0);
}

/* account 40 owes two penalties and buys two trades, a cheap one whose deposit is more than it costs */
static void try_both_roles(uint64_t free, uint64_t figure)
{
    start_fresh("seller and buyer", DAY);
    put_lot(1, CRZ_STATE_LODGED, SELLER, OTHER, DAY, EXAMPLE);
    put_lot(2, CRZ_STATE_PENALTY_DUE, OTHER, BUYER, DAY, EXAMPLE);
    put_lot(3, CRZ_STATE_STRUCK, SELLER, OTHER, DAY, CHEAPEST);
    put_lot(4, CRZ_STATE_PENALTY_DUE, OTHER, SELLER, DAY, EXAMPLE);
    put_lot(5, CRZ_STATE_LODGED, OTHER, SELLER, DAY, CHEAPEST);
    put_free(OTHER, free);
    try_known(0, figure, 0);
}

/* of the account before and the one behind, so that no figure stands at another place */
static void try_each_account(void)
{
    uint32_t account;
    for (account = 1; account <= CRZ_ACCOUNT_COUNT; account++) {
        uint32_t next = account % CRZ_ACCOUNT_COUNT + 1;
        start_fresh("each account", DAY);
        put_lot(account, CRZ_STATE_LODGED, next, account, DAY, EXAMPLE);
        put_lot(129 - account, CRZ_STATE_PENALTY_DUE, account, next, DAY, EXAMPLE);
        put_free(account, account);
        book();
        try_zone();
        expect(crz_get_figure(figures.bytes, account) == FEN_ABOVE + CRZ_PENALTY - account, "the account's figure");
    }
}

/* each lot by itself, in the three states by turns */
static void try_each_lot(uint32_t turn)
{
    static const uint32_t states[] = {CRZ_STATE_STRUCK, CRZ_STATE_LODGED, CRZ_STATE_PENALTY_DUE};
    uint32_t lot;
    for (lot = 1; lot <= CRZ_RECEIPT_COUNT; lot++) {
        uint32_t state = states[(lot + turn) % 3];
        int penalty = state == CRZ_STATE_PENALTY_DUE;
        start_fresh("each lot", DAY);
        put_lot(lot, state, SELLER, BUYER, DAY, EXAMPLE);
        try_known(penalty ? CRZ_PENALTY : 0, 0, penalty ? 0 : FEN_ABOVE);
    }
}

/* all lots of one seller and one buyer, in one state at the dearest terms; somebody else has the rest of all money */
static void try_all_lots(uint32_t state, uint64_t total)
{
    int penalty = state == CRZ_STATE_PENALTY_DUE;
    uint64_t of_seller = penalty ? UINT64_C(640000000) : 0, of_buyer = penalty ? 0 : UINT64_C(195200000000);
    uint32_t lot;
    start_fresh("all lots of two accounts", DAY);
    for (lot = 1; lot <= CRZ_RECEIPT_COUNT; lot++)
        put_lot(lot, state, SELLER, BUYER, DAY, DEAREST);
    book();
    if (total != 0)
        put_free(OTHER, total - of_seller - of_buyer - crz_get_total(zone));
    try_known(of_seller, 0, of_buyer);
    edges[MOST_PAYMENTS] += crz_get_figure(figures.bytes, BUYER) == UINT64_C(195200000000);
    edges[MOST_PENALTIES] += crz_get_figure(figures.bytes, SELLER) == UINT64_C(640000000);
    edges[TOTAL_AT_LIMIT] += crz_get_total(paid) == CRZ_TOTAL_MOST;
}

static void try_largest(uint32_t state)
{
    try_all_lots(state, 0);
    try_all_lots(state, CRZ_TOTAL_MOST);
}

static void try_known_figures(void)
{
    start_fresh("no lots", 1);
    try_known(0, 0, 0);
    try_trade_days(CRZ_STATE_STRUCK);
    try_trade_days(CRZ_STATE_LODGED);
    try_all_terms(CRZ_STATE_STRUCK);
    try_all_terms(CRZ_STATE_LODGED);
    try_other_states();
    try_penalties(0, 3 * CRZ_PENALTY);
    try_penalties(3 * CRZ_PENALTY - 1, 1);
    try_penalties(3 * CRZ_PENALTY, 0);
    try_penalties(3 * CRZ_PENALTY + 1, 0);
    try_both_roles(0, FEN_ABOVE + 2 * CRZ_PENALTY);
    try_both_roles(FEN_ABOVE, 2 * CRZ_PENALTY);
    try_both_roles(FEN_ABOVE + 2 * CRZ_PENALTY - 1, 1);
    try_both_roles(FEN_ABOVE + 2 * CRZ_PENALTY, 0);
    try_each_account();
    try_each_lot(0);
    try_each_lot(1);
    try_each_lot(2);
    try_largest(CRZ_STATE_STRUCK);
    try_largest(CRZ_STATE_LODGED);
    try_largest(CRZ_STATE_PENALTY_DUE);
}

/* ── Zones that are drawn ──────────────────────────────────────────────────────────────────────── */

/* another account than this one */
static uint32_t other_than(uint32_t account, uint32_t accounts)
{
    return (account + below(accounts - 1)) % accounts + 1;
}

/* today, a day or two beside it, long ago or far ahead, as far as there are such days */
static uint32_t draw_due(uint32_t day)
{
    uint32_t draw = below(8);
    switch (draw) {
    case 0: return 1 + below(day);
    case 1: return day > 60 ? day - 60 : 1;
    case 2: return day > 1 ? day - 1 : 1;
    case 3: return day + 1;
    case 4: return day + below(CRZ_DAYS_MOST + 1);
    default: return day;
    }
}

/* the states that the close works more often than the others; the last four accounts and the first ones meet too */
static void draw_lot(uint32_t lot, uint32_t accounts)
{
    static const uint32_t states[] = {CRZ_STATE_STRUCK, CRZ_STATE_STRUCK, CRZ_STATE_STRUCK, CRZ_STATE_LODGED,
        CRZ_STATE_LODGED, CRZ_STATE_LODGED, CRZ_STATE_PENALTY_DUE, CRZ_STATE_PENALTY_DUE, CRZ_STATE_BID_STANDS,
        CRZ_STATE_SETTLED, CRZ_STATE_FIRST_PAID};
    uint32_t state = states[below(sizeof states / sizeof states[0])], due = draw_due(crz_get_day(zone));
    uint32_t seller = 1 + below(accounts), buyer = other_than(seller, accounts);
    uint32_t shift = CRZ_ACCOUNT_COUNT - accounts, terms = below(TERMS);
    put_lot(lot, state, seller + (seller > 2 ? shift : 0), buyer + (buyer > 2 ? shift : 0), due, (int)terms);
}

/* nothing, just what is asked for, a fen less or more, a part of it, or plenty */
static uint64_t draw_free(uint64_t wanted)
{
    uint32_t draw = below(7), share = 1 + below(9);
    switch (draw) {
    case 0: return wanted;
    case 1: return wanted > 0 ? wanted - 1 : 0;
    case 2: return wanted + 1;
    case 3: return wanted / share;
    case 4: return wanted + UINT64_C(1000000000) * share;
    default: return 0;
    }
}

static void draw_money(void)
{
    uint32_t account;
    survey(zone);
    for (account = 1; account <= CRZ_ACCOUNT_COUNT; account++)
        put_free(account, draw_free(parties[account].wanted));
    book();
}

/* so many of a hundred lots, between so many accounts */
static void draw_zone(uint32_t day, uint32_t density, uint32_t accounts)
{
    uint32_t lot;
    start_fresh("zones that are drawn", day);
    for (lot = 1; lot <= CRZ_RECEIPT_COUNT; lot++)
        if (below(100) < density)
            draw_lot(lot, accounts);
    draw_money();
}

static void try_drawn(void)
{
    static const uint32_t days[] = {1, 2, DAY, CRZ_DAY_MOST}, densities[] = {3, 15, 50, 100};
    static const uint32_t accounts[] = {3, 6, 20, CRZ_ACCOUNT_COUNT};
    uint32_t i;
    for (i = 0; i < 4 * 4 * 4 * 4; i++) {
        draw_zone(days[i % 4], densities[i / 4 % 4], accounts[i / 16 % 4]);
        try_zone();
    }
}

/* ── Zones that calls lead to ──────────────────────────────────────────────────────────────────── */

/* the call changes the zone; whether it is accepted */
static int make(const uint8_t *call)
{
    return crz_call(zone, CRZ_IMAGE_LENGTH, call, CRZ_CALL_LENGTH, answer, sizeof answer) == CRZ_NUMBER_ACCEPTED;
}

static void register_all(uint32_t accounts)
{
    uint8_t call[CRZ_CALL_LENGTH];
    uint32_t lot;
    for (lot = 1; lot <= CRZ_RECEIPT_COUNT; lot++) {
        uint32_t seller = 1 + below(accounts), kilograms = CRZ_WEIGHT_LEAST + below(CRZ_WEIGHT_MOST - CRZ_WEIGHT_LEAST);
        crz_put_register(call, seller, lot, kilograms, (int32_t)below(10001) - CRZ_PREMIUM_MOST);
        expect(make(call), "a receipt is registered");
    }
}

/* a lot that its owner lists, for today or later, and another account bids for */
static void sell(uint32_t lot, uint32_t accounts)
{
    uint8_t call[CRZ_CALL_LENGTH];
    struct crz_receipt_fields receipt = crz_get_receipt(zone, lot);
    uint32_t days = below(3) == 0 ? 1 + below(CRZ_DAYS_MOST) : 0, bidder = other_than(receipt.owner, accounts);
    crz_put_list(call, receipt.owner, lot, 1, days, 0);
    make(call);
    crz_put_limit_bid(call, bidder, lot, CRZ_PREMIUM_MOST + CRZ_PRICE_STEP * (1 + below(3000)));
    make(call);
}

static void sell_some(uint32_t accounts, uint32_t density)
{
    uint32_t lot;
    for (lot = 1; lot <= CRZ_RECEIPT_COUNT; lot++)
        if (crz_get_receipt(zone, lot).state == CRZ_STATE_IDLE && below(100) < density)
            sell(lot, accounts);
}

/* two of three, the others default */
static void lodge_most(void)
{
    uint8_t call[CRZ_CALL_LENGTH];
    uint32_t lot;
    for (lot = 1; lot <= CRZ_RECEIPT_COUNT; lot++) {
        crz_put_lodge(call, crz_get_receipt(zone, lot).seller, lot);
        if (crz_get_receipt(zone, lot).state == CRZ_STATE_STRUCK && below(3) != 0)
            make(call);
    }
}

/* enough for a few deposits, and now and then for what is asked for, or nearly */
static void pay_in_some(void)
{
    uint8_t call[CRZ_CALL_LENGTH];
    uint32_t account;
    survey(zone);
    for (account = 1; account <= CRZ_ACCOUNT_COUNT; account++) {
        uint64_t fen = draw_free(parties[account].wanted) + CRZ_DEPOSIT * (uint64_t)below(3);
        crz_put_pay_in(call, account, fen);
        if (fen > 0)
            make(call);
    }
}

/* a morning with all that leads to the close, and the rest of the day */
static void play_day(uint32_t accounts, uint32_t density)
{
    uint8_t call[CRZ_CALL_LENGTH];
    pay_in_some();
    sell_some(accounts, density);
    crz_put_quote(call, 1, CRZ_PRICE_LEAST);
    make(call);
    lodge_most();
    try_zone();
    edges[REACHED_BY_CALLS] += !all(figures.bytes, CRZ_FIGURES_LENGTH, 0);
    crz_put_morning_close(call);
    expect(make(call), "the close of a morning that was played");
    crz_put_day_close(call);
    expect(make(call), "the close of a day that was played");
}

static void try_played(uint32_t accounts, uint32_t density)
{
    uint32_t day;
    start_fresh("days that are played", 1);
    register_all(accounts);
    for (day = 0; day < 12; day++)
        play_day(accounts, density);
}

/* ── Lengths, and images that are not valid ────────────────────────────────────────────────────── */

/* no byte up to far too many */
static void ask_all_lengths(void)
{
    static const size_t lengths[] = {0, 1, 8, 95, 96, 384, CRZ_FIGURES_LENGTH - CRZ_FIGURE_LENGTH,
        CRZ_FIGURES_LENGTH - 1, CRZ_FIGURES_LENGTH, CRZ_FIGURES_LENGTH + 1, 1000, CRZ_ANSWER_LENGTH, CRZ_IMAGE_LENGTH,
        LENT_MOST};
    static const uint8_t fills[] = {0, FILL, 0xff};
    size_t i;
    for (i = 0; i < 9 * sizeof lengths / sizeof lengths[0]; i++)
        ask((enum lent_place)(i % 3), fills[i / 3 % 3], lengths[i / 9]);
}

/* figures whose length does not fit 32 bits: a wall stands behind byte 768, and with 32 bits some would be too few */
static void ask_huge_lengths(void)
{
    static const uint64_t lengths[] = {UINT64_C(1) << 32, (UINT64_C(1) << 32) + 767, UINT64_C(1) << 62, SIZE_MAX};
    size_t i;
    for (i = 0; i < sizeof lengths / sizeof lengths[0]; i++) {
        lend_bytes(&image, LENT_END_AT_WALL, zone, zone_len);
        lend_filled(&figures, LENT_END_AT_WALL, FILL, CRZ_FIGURES_LENGTH);
        expect(crz_shortfalls(image.bytes, image.len, figures.bytes, (size_t)lengths[i]) == CRZ_NUMBER_ACCEPTED,
            "more bytes for figures than 32 bits count");
        expect(figures_counted() && lent_kept(&figures), "the figures then");
    }
}

/* the zone with another byte at one place, and then as it was */
static void ask_damaged(const char *name, size_t offset, uint8_t change)
{
    part = name;
    zone[offset] = (uint8_t)(zone[offset] ^ change);
    zone_valid = 0;
    ask_all_lengths();
    zone_valid = 1;
    zone[offset] = (uint8_t)(zone[offset] ^ change);
}

static void ask_lengths_of_image(void)
{
    static const size_t lengths[] = {0, 1, CRZ_FIGURES_LENGTH, CRZ_IMAGE_LENGTH - CRZ_RECEIPT_LENGTH,
        CRZ_IMAGE_LENGTH - 1, CRZ_IMAGE_LENGTH + 1, CRZ_IMAGE_LENGTH + CRZ_RECEIPT_LENGTH, 2 * CRZ_IMAGE_LENGTH};
    size_t i;
    part = "an image of another length";
    for (i = 0; i < sizeof lengths / sizeof lengths[0]; i++) {
        zone_len = lengths[i];
        ask_all_lengths();
    }
    zone_len = CRZ_IMAGE_LENGTH;
}

/* of the zone that is there, in this phase */
static void ask_badly(const char *name, enum crz_phase phase)
{
    part = name;
    zone[CRZ_IMAGE_PHASE] = (uint8_t)phase;
    ask_all_lengths();
    ask_huge_lengths();
    ask_lengths_of_image();
    ask_damaged("a total that is another", CRZ_IMAGE_TOTAL, 1);
    ask_damaged("a phase that is none", CRZ_IMAGE_PHASE, 2);
    ask_damaged("a count that is another", CRZ_IMAGE_ACCOUNT_COUNT, 1);
    ask_damaged("a day that is none", CRZ_IMAGE_DAY + 1, 0x80);
    ask_damaged("a spare byte", CRZ_IMAGE_ZEROS + 2, 0x80);
    ask_damaged("an ask that is no price", crz_ask_offset(CRZ_CONTRACT_COUNT), 1);
    ask_damaged("free money", crz_account_offset(1) + CRZ_ACCOUNT_FREE, 1);
    ask_damaged("frozen money", crz_account_offset(CRZ_ACCOUNT_COUNT) + CRZ_ACCOUNT_FROZEN, 1);
    ask_damaged("a state that is none", crz_receipt_offset(1) + CRZ_RECEIPT_STATE, 0x40);
    ask_damaged("the last byte", CRZ_IMAGE_LENGTH - 1, 0x40);
}

static void try_lengths(void)
{
    start_fresh("lengths", 1);
    ask_badly("lengths, no lots in the morning", CRZ_PHASE_MORNING);
    ask_badly("lengths, no lots in the afternoon", CRZ_PHASE_AFTERNOON);
    draw_zone(DAY, 100, CRZ_ACCOUNT_COUNT);
    ask_badly("lengths, all lots in the morning", CRZ_PHASE_MORNING);
    ask_badly("lengths, all lots in the afternoon", CRZ_PHASE_AFTERNOON);
    expect(crz_shortfalls(NULL, 0, NULL, 0) == CRZ_NUMBER_SHORT_ANSWER, "no buffer at all");
}

/* ── All ───────────────────────────────────────────────────────────────────────────────────────── */

static void expect_all_edges(void)
{
    unsigned i;
    part = "edges of all zones";
    for (i = 0; i < EDGES; i++)
        expect(edges[i] != 0, edge_names[i]);
}

int main(int argc, char **argv)
{
    ends_at_first = argc == 2 && strcmp(argv[1], "first") == 0;
    try_lengths();
    try_known_figures();
    try_drawn();
    try_played(CRZ_ACCOUNT_COUNT, 20);
    try_played(CRZ_ACCOUNT_COUNT, 70);
    try_played(8, 50);
    try_played(3, 100);
    expect_all_edges();
    printf("%lu zones\n%lu passed, %lu failed\n", zones, passed, failed);
    return failed != 0;
}
