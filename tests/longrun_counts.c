/*
 * What the long run has reached. Everything that can occur must occur: a pair of kind and number that never came, an
 * outcome, a contract that nothing was struck at, strikes of one quote at one price and at several, an amount or a
 * total at its limit, a premium at the ends of its range, every outcome of lots with a premium of either sign and with
 * none, a tonne that costs nothing or one yuan; parts of 0 fen, parts as large as the invoice's own share and one fen
 * larger, and images in which a fen too much or too little of a rest is paid; images in which what a lot holds, in each
 * state that holds something and of lot 128, is frozen from its seller or from the account before, or is free. In
 * tables of calls every number but 1, every kind and every outcome; tables of no call up to one too many, each reason
 * to refuse one, answers of just enough bytes, of fewer and of more, refused calls before accepted ones, closes with
 * calls behind them. What shortfalls must reach is counted in longrun_figures.c.
 */
#include "longrun.h"

#include <stdio.h>

enum { NUMBERS = 14, OUTCOMES = 16, KINDS = 16, VERDICTS = 2, LIMITS = 3, AMOUNTS = 4, FULLS = 2, PREMIUMS = 5 };

/*
 * The numbers 0 to 13 that a kind can return ('+'). Numbers 1 and 2 are of buffers and images, 3 is of the record's
 * form, so no kind is without them, and what is no kind ends there. 4 needs a field with a range, which closes do not
 * have; 5 is of closes alone. 6 and 7 are of lots and their parties; a receipt that is registered has no party yet. 8
 * is of a limit bid, 9 of a market bid, 10 and 11 are of both, 11 also of a take-out. 12 is of a pay-in, the one kind
 * that raises the total, and 13 of an invoice.
 */
static const struct {
    const char *name, *numbers;
} kinds[KINDS] = {
    {"no kind", "-+++----------"},
    {"pay in", "+++++-------+-"},
    {"take out", "+++++------+--"},
    {"register", "+++++-+-------"},
    {"list", "+++++-++------"},
    {"withdraw listing", "+++++-++------"},
    {"limit bid", "+++++-+++-++--"},
    {"market bid", "+++++-++-+++--"},
    {"withdraw bid", "+++++-++------"},
    {"quote", "+++++---------"},
    {"lodge", "+++++-++------"},
    {"morning close", "++++-+--------"},
    {"first payment", "+++++-++------"},
    {"invoice", "+++++-++-----+"},
    {"confirm", "+++++-++------"},
    {"day close", "++++-+--------"},
};

/* kinds that strike, and kinds with an amount */
enum { STRIKERS = 3, PAYERS = 3 };
static const uint8_t strikers[STRIKERS] = {CRZ_KIND_LIMIT_BID, CRZ_KIND_MARKET_BID, CRZ_KIND_QUOTE};
static const uint8_t payers[PAYERS] = {CRZ_KIND_PAY_IN, CRZ_KIND_TAKE_OUT, CRZ_KIND_INVOICE};
static const uint64_t amounts[AMOUNTS] = {0, CRZ_AMOUNT_MOST - 1, CRZ_AMOUNT_MOST, CRZ_AMOUNT_MOST + 1};

/* the least and the most that a lot can cost: 1 x 1,000 and 255,000 x 60,000 tenths of a fen */
static const uint32_t fulls[FULLS] = {100, 1530000000};

/* the ends of the range of premiums, one beyond each, and none */
static const int32_t premiums[PREMIUMS] = {
    CRZ_PREMIUM_LEAST - 1, CRZ_PREMIUM_LEAST, 0, CRZ_PREMIUM_MOST, CRZ_PREMIUM_MOST + 1};

/* lots by their premium */
enum premium_class { LEAST, BELOW_ZERO, NONE, ABOVE_ZERO, MOST, CLASSES };
static const char *const class_names[CLASSES] = {
    "premium -5,000", "premium below 0", "premium 0", "premium above 0", "premium 5,000"};

static unsigned long returned[KINDS][NUMBERS], outcomes[OUTCOMES], most_entries;
static unsigned long settled[FULLS], struck[STRIKERS][CRZ_CONTRACT_COUNT + 1], at_amount[PAYERS][AMOUNTS];
static unsigned long at_total[LIMITS], filled[VERDICTS][LIMITS];
static unsigned long damaged[VERDICTS], stray[VERDICTS];

/* outcomes by class, and behind the last outcome the part payments that were a lot's last */
static unsigned long by_premium[CLASSES][OUTCOMES + 1];

/* registrations whose other fields are in range: accepted, and refused as out of range */
static unsigned long registered[VERDICTS][PREMIUMS];

/* bids at which a tonne costs nothing, one yuan, two: accepted, and refused because nothing is left to pay */
enum { BIDDERS = 2, PRICES = 3 };
static const uint8_t bidders[BIDDERS] = {CRZ_KIND_LIMIT_BID, CRZ_KIND_MARKET_BID};
static unsigned long bids_at[BIDDERS][VERDICTS][PRICES];

/* premiums put into images: three that may be, then four that may not */
enum put_in { AT_LEAST, AT_MOST, ONE_YUAN, BELOW_LEAST, ABOVE_MOST, NOBODYS, NOTHING, PUT_INS };
static unsigned long put_in[VERDICTS][PUT_INS];

/* confirmed invoices, a lot's last apart: all; of one fen; not a lot's first; those that paid nothing, their own share
 * of the rest, a fen more, anything else. A lot's last always pays something. */
enum part { ANY_PART, OF_ONE_FEN, AFTER_OTHERS, PAID_NOTHING, PAID_SHARE, PAID_FEN_MORE, PAID_OTHER, PARTS };
enum { NOT_LAST, LAST, TURNS };
static unsigned long parts[TURNS][PARTS];

/* trades of made-up images whose invoices are others, within the full payment and all sums fitting: what is paid with
 * nothing confirmed, and with something, is what it must be, a fen more, a fen less */
enum paid { MUST_BE, FEN_MORE, FEN_LESS, PAIDS };
enum { NOTHING_CONFIRMED, SOME_CONFIRMED, CONFIRMEDS };
static unsigned long put_paid[CONFIRMEDS][VERDICTS][PAIDS];

/* images that differ from a valid one in nothing but where the held money of a lot is: by the lot's state, from 2 on,
 * and those of lot 128 */
enum { HOLDING = CRZ_STATE_FIRST_PAID - CRZ_STATE_BID_STANDS + 1, OF_LAST_LOT = HOLDING, HOLDERS };
static unsigned long misplaced[HELD_PLACES][VERDICTS][HOLDERS];

/* quotes that struck two lots or more; with two at one price, at different prices, both; quotes that struck all lots */
enum { SEVERAL, AT_ONE_PRICE, AT_DIFFERENT_PRICES, AT_BOTH, EVERY_LOT, QUOTES };
static unsigned long quotes[QUOTES];

/* tables by how many whole calls they have, none, 1, 2, up to 30, 31, 32, 33, more: those made and those of 14 */
enum { UP_TO_TWO = 2, BETWEEN_ENDS, ONE_BELOW_MOST, JUST_THE_MOST, ONE_TOO_MANY, FAR_TOO_MANY, SIZES };
static unsigned long table_sizes[VERDICTS][SIZES];

/* what tables were 14 for, by itself, and several of these at once */
enum { TOO_MANY, PART_OF_CALL, SHORT_ANSWERS, SEVERAL_REASONS, REASONS };
static unsigned long reasons[REASONS];

/* answers of tables that nothing else is wrong with: short by an answer, by eight bytes for each, by a byte, by another
 * number; of just enough bytes; of more, by an answer, by another number */
enum { ANSWER_SHORT, EIGHT_EACH_SHORT, BYTE_SHORT, ELSE_SHORT, ENOUGH, ANSWER_MORE, ELSE_MORE, ANSWERS };
static unsigned long table_answers[VERDICTS][ANSWERS];

/* tables on a valid image and on one that is not: made, without calls and with calls, and of 14 */
enum { WITHOUT_CALLS, WITH_CALLS, NOT_MADE, TABLE_KINDS };
static unsigned long table_images[VERDICTS][TABLE_KINDS];

/* their answers: numbers, accepted kinds, outcomes */
static unsigned long table_numbers[NUMBERS], table_kinds[KINDS], table_outcomes[OUTCOMES];

/* two calls side by side, each refused or accepted */
static unsigned long neighbours[2][2];

/* calls behind an accepted close of a morning, of a day, and both in one table; quotes that struck several lots; tables
 * of two calls or more that were all accepted, all refused */
enum { BEHIND_MORNING, BEHIND_DAY, BEHIND_BOTH, STRUCK_SEVERAL, ALL_ACCEPTED, ALL_REFUSED, WITHIN };
static unsigned long within[WITHIN];

/* ── Counting ──────────────────────────────────────────────────────────────────────────────────── */

/* the place of a kind in a list, or the list's length */
static size_t place_of(uint8_t kind, const uint8_t *list, size_t length)
{
    size_t i = 0;
    while (i < length && list[i] != kind)
        i++;
    return i;
}

/* a record of another length is of no kind */
static uint8_t kind_of(const struct request *q)
{
    uint8_t kind = q->call_len == CRZ_CALL_LENGTH ? q->call[CRZ_CALL_KIND] : 0;
    return kind < KINDS ? kind : 0;
}

static enum premium_class class_of(int32_t premium)
{
    if (premium == CRZ_PREMIUM_LEAST || premium == CRZ_PREMIUM_MOST)
        return premium < 0 ? LEAST : MOST;
    if (premium == 0)
        return NONE;
    return premium < 0 ? BELOW_ZERO : ABOVE_ZERO;
}

static void count_by_premium(const struct crz_receipt_fields *receipt, uint32_t outcome)
{
    unsigned long *counts = by_premium[class_of(receipt->premium)];
    if (outcome < OUTCOMES)
        counts[outcome]++;
    counts[OUTCOMES] += outcome == CRZ_OUTCOME_PART_PAID && receipt->state == CRZ_STATE_IDLE;
}

static void count_entry(const struct made *made, uint8_t kind, const struct crz_entry_fields *entry)
{
    size_t striker = place_of(kind, strikers, STRIKERS);
    struct crz_receipt_fields receipt = crz_get_receipt(made->after, entry->lot);
    uint32_t contract = receipt.contract;
    count_by_premium(&receipt, entry->outcome);
    if (entry->outcome < OUTCOMES)
        outcomes[entry->outcome]++;
    if (entry->outcome == CRZ_OUTCOME_STRUCK && striker < STRIKERS && contract <= CRZ_CONTRACT_COUNT)
        struck[striker][contract]++;
    if (entry->outcome == CRZ_OUTCOME_SETTLED) {
        settled[0] += entry->number == fulls[0];
        settled[1] += entry->number == fulls[1];
    }
}

/* an accepted quote; strikes at one price are listed side by side */
static void count_quote(const uint8_t *answer, uint32_t strikes)
{
    uint32_t i, equal = 0;
    for (i = 1; i < strikes && i < CRZ_ENTRY_COUNT; i++)
        equal += crz_get_entry(answer, i - 1).number == crz_get_entry(answer, i).number;
    quotes[SEVERAL] += strikes > 1;
    quotes[AT_ONE_PRICE] += equal > 0;
    quotes[AT_DIFFERENT_PRICES] += strikes > equal + 1;
    quotes[AT_BOTH] += equal > 0 && strikes > equal + 1;
    quotes[EVERY_LOT] += strikes == CRZ_RECEIPT_COUNT;
}

static void count_entries(const struct made *made, uint8_t kind)
{
    uint32_t i, entries = crz_get_answer(made->answer).count;
    if (kind == CRZ_KIND_QUOTE)
        count_quote(made->answer, entries);
    if (entries > most_entries)
        most_entries = entries;
    for (i = 0; i < entries && i < CRZ_ENTRY_COUNT; i++) {
        struct crz_entry_fields entry = crz_get_entry(made->answer, i);
        count_entry(made, kind, &entry);
    }
}

static void count_amount(uint8_t kind, uint64_t amount)
{
    size_t payer = place_of(kind, payers, PAYERS), i;
    for (i = 0; i < AMOUNTS && payer < PAYERS; i++)
        at_amount[payer][i] += amount == amounts[i];
}

/* one fen below the limit of the total, at it, one above */
static void count_limit(unsigned long *counts, uint64_t total)
{
    if (total - (CRZ_TOTAL_MOST - 1) < LIMITS)
        counts[total - (CRZ_TOTAL_MOST - 1)]++;
}

static int is_within(uint32_t number, uint32_t least, uint32_t most)
{
    return number >= least && number <= most;
}

static void count_registration(const struct crz_call_fields *call, uint32_t number)
{
    size_t i;
    if (!is_within(call->account, 1, CRZ_ACCOUNT_COUNT) || !is_within(call->receipt, 1, CRZ_RECEIPT_COUNT)
        || !is_within(call->weight, CRZ_WEIGHT_LEAST, CRZ_WEIGHT_MOST))
        return;
    for (i = 0; i < PREMIUMS; i++) {
        registered[0][i] += number == CRZ_NUMBER_ACCEPTED && call->basis == premiums[i];
        registered[1][i] += number == CRZ_NUMBER_OUT_OF_RANGE && call->basis == premiums[i];
    }
}

/* what a tonne costs at this price, from nothing up to two yuan, is the place of a count; PRICES where it is another
 * sum */
static size_t price_place(const struct crz_receipt_fields *receipt, uint32_t price)
{
    int64_t sum = (int64_t)price + receipt->basis + receipt->premium;
    return sum >= 0 && sum < PRICES ? (size_t)sum : PRICES;
}

static void count_bid(const struct made *made, const struct crz_call_fields *call, size_t bidder)
{
    struct crz_receipt_fields receipt = crz_get_receipt(made->before, call->receipt);
    uint32_t ask = crz_get_ask(made->before, receipt.contract);
    size_t place = price_place(&receipt, call->kind == CRZ_KIND_LIMIT_BID ? (uint32_t)call->amount : ask);
    int nothing = made->number == CRZ_NUMBER_NOTHING_TO_PAY;
    if (place < PRICES && (nothing || made->number == CRZ_NUMBER_ACCEPTED))
        bids_at[bidder][nothing][place]++;
}

static void count_premium_and_price(const struct made *made, uint8_t kind)
{
    struct crz_call_fields call = crz_get_call(made->request->call);
    size_t bidder = place_of(kind, bidders, BIDDERS);
    if (kind == CRZ_KIND_REGISTER)
        count_registration(&call, made->number);
    if (bidder < BIDDERS)
        count_bid(made, &call, bidder);
}

/* an accepted confirmation */
static void count_part(const struct made *made)
{
    struct crz_receipt_fields trade = crz_get_receipt(made->before, made->request->call[CRZ_CALL_RECEIPT]);
    uint64_t full = crz_full_payment(&trade), part = crz_get_entry(made->answer, 0).number;
    uint64_t share = crz_rest_payment(&trade) * trade.pending / full;
    unsigned long *counts = parts[(uint64_t)trade.confirmed + trade.pending == full ? LAST : NOT_LAST];
    counts[ANY_PART]++;
    counts[OF_ONE_FEN] += trade.pending == 1;
    counts[AFTER_OTHERS] += trade.confirmed != 0;
    counts[PAID_NOTHING] += part == 0;
    counts[PAID_SHARE] += part == share;
    counts[PAID_FEN_MORE] += part == share + 1;
    counts[PAID_OTHER] += part != share && part != share + 1;
}

void count_call(const struct made *made)
{
    uint8_t kind = kind_of(made->request);
    uint64_t amount = crz_get_u64(made->request->call + CRZ_CALL_AMOUNT);
    if (made->number >= NUMBERS)
        return;
    returned[kind][made->number]++;
    count_premium_and_price(made, kind);
    if (made->number == CRZ_NUMBER_ACCEPTED)
        count_entries(made, kind);
    if (made->number == CRZ_NUMBER_ACCEPTED && kind == CRZ_KIND_CONFIRM)
        count_part(made);
    /* numbers 1 to 3 are returned whatever the amount is */
    if (made->number == CRZ_NUMBER_ACCEPTED || made->number > CRZ_NUMBER_BAD_CALL)
        count_amount(kind, amount);
    if (kind == CRZ_KIND_PAY_IN && (made->number == CRZ_NUMBER_ACCEPTED || made->number == CRZ_NUMBER_OVER_LIMIT))
        count_limit(at_total, crz_get_total(made->before) + amount);
}

/* what a premium put into the record is; PUT_INS where it is none of these */
static enum put_in put_in_of(const struct crz_receipt_fields *receipt)
{
    int priced = is_within(receipt->state, CRZ_STATE_BID_STANDS, CRZ_STATE_FIRST_PAID);
    size_t place = priced ? price_place(receipt, receipt->price) : PRICES;
    if (receipt->owner == 0)
        return NOBODYS;
    switch (receipt->premium) {
    case CRZ_PREMIUM_LEAST - 1: return BELOW_LEAST;
    case CRZ_PREMIUM_LEAST: return AT_LEAST;
    case CRZ_PREMIUM_MOST: return AT_MOST;
    case CRZ_PREMIUM_MOST + 1: return ABOVE_MOST;
    default: break;
    }
    if (receipt->premium < CRZ_PREMIUM_LEAST || receipt->premium > CRZ_PREMIUM_MOST || place > 1)
        return PUT_INS;
    return place == 0 ? NOTHING : ONE_YUAN;
}

/* a premium that may be can stand in an image that is not valid, where the sums do not fit it: that is not counted */
static void count_put_in(const struct made *made, uint32_t lot)
{
    struct crz_receipt_fields receipt = crz_get_receipt(made->before, lot);
    enum put_in what = put_in_of(&receipt);
    int bad = made->number == CRZ_NUMBER_BAD_IMAGE;
    if (what < PUT_INS && (what > ONE_YUAN || !bad))
        put_in[bad][what]++;
}

/* what is paid went up by so much, modulo 2^64; frozen money and total went down by the same, or up, but not past the
 * limit: then the sums fit */
static int is_booked(const struct made *made, uint32_t buyer, uint64_t more)
{
    uint64_t frozen = crz_get_account(made->before, buyer).frozen, total = crz_get_total(made->before);
    return frozen + more == crz_get_account(made->sound, buyer).frozen && total + more == crz_get_total(made->sound)
           && total <= CRZ_TOTAL_MOST;
}

/* something is left to confirm, and no more is pending than that */
static int is_within_full(const struct crz_receipt_fields *receipt)
{
    uint64_t full = crz_full_payment(receipt), confirmed = receipt->confirmed;
    return confirmed < full && confirmed + receipt->pending <= full;
}

/* a trade whose pending, confirmed or paid is another is counted where nothing but paid can decide */
static void count_put_paid(const struct made *made, uint32_t lot)
{
    struct crz_receipt_fields now = crz_get_receipt(made->before, lot), then = crz_get_receipt(made->sound, lot);
    int bad = made->number == CRZ_NUMBER_BAD_IMAGE, some = now.confirmed != 0;
    uint32_t beside = now.paid - (uint32_t)crz_paid_of_rest(&now, now.confirmed);
    if (now.state != CRZ_STATE_FIRST_PAID || then.state != now.state || !is_within_full(&now)
        || crz_full_payment(&now) != crz_full_payment(&then)
        || !is_booked(made, now.buyer, (uint64_t)now.paid - then.paid))
        return;
    put_paid[some][bad][MUST_BE] += beside == 0;
    put_paid[some][bad][FEN_MORE] += beside == 1;
    put_paid[some][bad][FEN_LESS] += beside == UINT32_MAX;
}

static int other_invoices(const struct crz_receipt_fields *one, const struct crz_receipt_fields *other)
{
    return one->pending != other->pending || one->confirmed != other->confirmed || one->paid != other->paid;
}

void count_damaged(const struct made *made)
{
    uint32_t lot;
    damaged[made->number == CRZ_NUMBER_BAD_IMAGE]++;
    for (lot = 1; lot <= CRZ_RECEIPT_COUNT; lot++) {
        struct crz_receipt_fields now = crz_get_receipt(made->before, lot), then = crz_get_receipt(made->sound, lot);
        if (now.premium != then.premium)
            count_put_in(made, lot);
        if (other_invoices(&now, &then))
            count_put_paid(made, lot);
    }
}

void count_stray(const struct made *made)
{
    stray[made->number == CRZ_NUMBER_BAD_IMAGE]++;
}

void count_filled(const struct made *made)
{
    count_limit(filled[made->number == CRZ_NUMBER_BAD_IMAGE], crz_get_total(made->before));
}

/* a lot whose held money is there; two lots that hold the same sum from one account can both be */
static void count_moved(const struct made *made, uint32_t lot, enum held_to to)
{
    static uint8_t moved[CRZ_IMAGE_LENGTH];
    unsigned long *counts = misplaced[to][made->number == CRZ_NUMBER_BAD_IMAGE];
    memcpy(moved, made->sound, sizeof moved);
    move_held(moved, lot, to);
    if (memcmp(moved, made->before, sizeof moved) != 0)
        return;
    counts[crz_get_receipt(moved, lot).state - CRZ_STATE_BID_STANDS]++;
    counts[OF_LAST_LOT] += lot == CRZ_RECEIPT_COUNT;
}

void count_misplaced(const struct made *made)
{
    uint32_t lot;
    for (lot = 1; lot <= CRZ_RECEIPT_COUNT; lot++) {
        struct crz_receipt_fields receipt = crz_get_receipt(made->sound, lot);
        if (crz_held_money(&receipt) == 0)
            continue;
        count_moved(made, lot, TO_SELLER);
        count_moved(made, lot, TO_ACCOUNT_BEFORE);
        count_moved(made, lot, TO_FREE);
    }
}

/* ── Counting tables of calls ──────────────────────────────────────────────────────────────────── */

static size_t size_place(size_t count)
{
    if (count <= UP_TO_TWO)
        return count;
    if (count < CRZ_TABLE_COUNT - 1)
        return BETWEEN_ENDS;
    return count > CRZ_TABLE_COUNT + 1 ? FAR_TOO_MANY : ONE_BELOW_MOST + count - (CRZ_TABLE_COUNT - 1);
}

static size_t answers_place(size_t count, size_t length)
{
    size_t enough = crz_answer_offset(count), less = enough - length;
    if (length == enough)
        return ENOUGH;
    if (length > enough)
        return length == enough + CRZ_ANSWER_LENGTH ? ANSWER_MORE : ELSE_MORE;
    if (less == CRZ_ANSWER_LENGTH)
        return ANSWER_SHORT;
    if (less == CRZ_ENTRY_LENGTH * count)
        return EIGHT_EACH_SHORT;
    return less == 1 ? BYTE_SHORT : ELSE_SHORT;
}

static void count_lengths(const struct table *t, int refused)
{
    size_t count = t->calls_len / CRZ_CALL_LENGTH;
    int many = count > CRZ_TABLE_COUNT, part = t->calls_len % CRZ_CALL_LENGTH != 0;
    int is_short = t->answers_len < crz_answer_offset(count);
    table_sizes[refused][size_place(count)]++;
    reasons[TOO_MANY] += many && !part && !is_short;
    reasons[PART_OF_CALL] += part && !many && !is_short;
    reasons[SHORT_ANSWERS] += is_short && !many && !part;
    reasons[SEVERAL_REASONS] += many + part + is_short > 1;
    if (!many && !part)
        table_answers[refused][answers_place(count, t->answers_len)]++;
}

static void count_table_outcomes(const uint8_t *answer)
{
    uint32_t i, entries = crz_get_answer(answer).count;
    for (i = 0; i < entries && i < CRZ_ENTRY_COUNT; i++)
        table_outcomes[crz_get_entry(answer, i).outcome % OUTCOMES]++;
}

static void count_answer(uint8_t kind, const uint8_t *answer)
{
    uint8_t number = answer[CRZ_ANSWER_NUMBER];
    if (number < NUMBERS)
        table_numbers[number]++;
    if (number != CRZ_NUMBER_ACCEPTED || kind >= KINDS)
        return;
    table_kinds[kind]++;
    count_table_outcomes(answer);
    within[STRUCK_SEVERAL] += kind == CRZ_KIND_QUOTE && crz_get_answer(answer).count > 1;
}

/* what the calls of a table did so far */
struct past_calls {
    int accepted, refused, morning, day;
};

static void count_behind(struct past_calls *past, uint8_t kind, int accepted, int was_accepted)
{
    if (past->accepted + past->refused > 0)
        neighbours[was_accepted][accepted]++;
    within[BEHIND_MORNING] += past->morning != 0;
    within[BEHIND_DAY] += past->day != 0;
    within[BEHIND_BOTH] += past->morning != 0 && past->day != 0;
    past->accepted += accepted;
    past->refused += !accepted;
    past->morning += accepted && kind == CRZ_KIND_MORNING_CLOSE;
    past->day += accepted && kind == CRZ_KIND_DAY_CLOSE;
}

/* a table that was made */
static void count_calls(const struct made_table *made, size_t count)
{
    struct past_calls past = {0, 0, 0, 0};
    int was_accepted = 0;
    size_t i;
    for (i = 0; i < count; i++) {
        const uint8_t *answer = made->answers + crz_answer_offset(i);
        uint8_t kind = made->table->calls[crz_call_offset(i) + CRZ_CALL_KIND];
        int accepted = answer[CRZ_ANSWER_NUMBER] == CRZ_NUMBER_ACCEPTED;
        count_answer(kind, answer);
        count_behind(&past, kind, accepted, was_accepted);
        was_accepted = accepted;
    }
    within[ALL_ACCEPTED] += past.accepted > 1 && past.refused == 0;
    within[ALL_REFUSED] += past.refused > 1 && past.accepted == 0;
}

void count_table(const struct made_table *made)
{
    size_t count = made->table->calls_len / CRZ_CALL_LENGTH;
    unsigned long *images = table_images[!made->valid];
    int refused = made->number != CRZ_NUMBER_ACCEPTED;
    count_lengths(made->table, refused);
    images[NOT_MADE] += refused != 0;
    images[WITHOUT_CALLS] += !refused && count == 0;
    images[WITH_CALLS] += !refused && count != 0;
    if (!refused)
        count_calls(made, count);
}

/* ── What was reached ──────────────────────────────────────────────────────────────────────────── */

static unsigned long met, unmet;

/* a cell of a table; what cannot occur and does is a failure like what can and does not */
static void show_cell(unsigned long count, int can_occur)
{
    if (can_occur == (count != 0))
        met += can_occur != 0;
    else
        unmet++;
    if (can_occur || count != 0)
        printf(" %6lu", count);
    else
        printf("      .");
}

void show_row(const char *name, const unsigned long *counts, const char *marks)
{
    size_t i;
    printf("  %-20s", name);
    for (i = 0; marks[i] != '\0'; i++)
        show_cell(counts[i], marks[i] == '+');
    printf("\n");
}

static void show_heads(const char *name, unsigned first, unsigned end)
{
    unsigned i;
    printf("%-22s", name);
    for (i = first; i < end; i++)
        printf(" %6u", i);
    printf("\n");
}

static void show_kinds(void)
{
    unsigned kind;
    show_heads("number returned", 0, NUMBERS);
    for (kind = 0; kind < KINDS; kind++)
        show_row(kinds[kind].name, returned[kind], kinds[kind].numbers);
}

static void show_strikes(void)
{
    unsigned i;
    show_heads("contract of a strike", 1, CRZ_CONTRACT_COUNT + 1);
    for (i = 0; i < STRIKERS; i++)
        show_row(kinds[strikers[i]].name, struck[i] + 1, "++++++++");
    printf("%-22s %6s %6s %6s %6s %6s\n", "strikes of one quote", "two", "equal", "differ", "both", "all");
    show_row("quotes", quotes, "+++++");
}

static void show_amounts(void)
{
    unsigned i;
    printf("%-22s %6s %6s %6s %6s\n", "amount, most 10^12", "0", "most-1", "most", "most+1");
    for (i = 0; i < PAYERS; i++)
        show_row(kinds[payers[i]].name, at_amount[i], "++++");
    printf("%-22s %6s %6s %6s\n", "total, most 10^15", "most-1", "most", "most+1");
    show_row("that a pay-in makes", at_total, "+++");
    show_row("of a valid image", filled[0], "++-");
    show_row("of an invalid image", filled[1], "--+");
    printf("%-22s %6s %6s\n", "full payment", "least", "most");
    show_row("settled", settled, "++");
}

static void show_outcomes(void)
{
    unsigned i;
    show_heads("outcome", 1, OUTCOMES);
    show_row("entries", outcomes + 1, "+++++++++++++++");
    show_heads("16: a last payment", 1, OUTCOMES + 1);
    for (i = 0; i < CLASSES; i++)
        show_row(class_names[i], by_premium[i] + 1, "++++++++++++++++");
}

static void show_premiums(void)
{
    unsigned i;
    printf("%-22s %6s %6s %6s %6s %6s\n", "premium", "-5,001", "-5,000", "0", "5,000", "5,001");
    show_row("registered", registered[0], "-+++-");
    show_row("out of range", registered[1], "+---+");
    printf("%-22s %6s %6s %6s\n", "a tonne's price", "0", "1", "2");
    for (i = 0; i < BIDDERS; i++) {
        show_row(kinds[bidders[i]].name, bids_at[i][0], "-++");
        show_row("nothing to pay", bids_at[i][1], "+--");
    }
    printf("%-22s %6s %6s %6s %6s %6s %6s %6s\n", "premium put in", "-5,000", "5,000", "price1", "-5,001", "5,001",
        "nobody", "price0");
    show_row("image is valid", put_in[0], "+++----");
    show_row("image is not", put_in[1], "---++++");
}

static void show_parts(void)
{
    printf("%-22s %6s %6s %6s %6s %6s %6s %6s\n", "confirmed invoice", "all", "1 fen", "later", "paid 0", "share",
        "share+", "else");
    show_row("not the last", parts[NOT_LAST], "++++++-");
    show_row("the last", parts[LAST], "+++-++-");
    printf("%-22s %6s %6s %6s\n", "paid put in", "right", "+1", "-1");
    show_row("nothing confirmed", put_paid[NOTHING_CONFIRMED][0], "+--");
    show_row("image is not valid", put_paid[NOTHING_CONFIRMED][1], "-++");
    show_row("something confirmed", put_paid[SOME_CONFIRMED][0], "+--");
    show_row("image is not valid", put_paid[SOME_CONFIRMED][1], "-++");
}

static void show_misplaced(void)
{
    static const char *const names[HELD_PLACES] = {"to the seller", "to account before", "to free money"};
    unsigned i;
    printf("%-22s %6s %6s %6s %6s %6s %6s\n", "held money, by state", "2", "3", "4", "5", "6", "lot128");
    for (i = 0; i < HELD_PLACES; i++) {
        show_row(names[i], misplaced[i][0], "------");
        show_row("image is not valid", misplaced[i][1], "++++++");
    }
}

/* a call is never short of an answer inside a table: 1 cannot occur */
static void show_table_calls(void)
{
    show_heads("numbers in a table", 0, NUMBERS);
    show_row("answers", table_numbers, "+-++++++++++++");
    show_heads("accepted in a table", 1, KINDS);
    show_row("calls by kind", table_kinds + 1, "+++++++++++++++");
    show_row("entries by outcome", table_outcomes + 1, "+++++++++++++++");
    printf("%-22s %6s %6s\n", "next in a table", "refus.", "accep.");
    show_row("behind a refused call", neighbours[0], "++");
    show_row("behind an accepted", neighbours[1], "++");
    printf("%-22s %6s %6s %6s %6s %6s %6s\n", "in a table", "b.morn", "b.day", "b.both", "quote+", "all ac", "all re");
    show_row("calls, quotes, tables", within, "++++++");
}

static void show_tables(void)
{
    printf(
        "%-22s %6s %6s %6s %6s %6s %6s %6s %6s\n", "calls of a table", "0", "1", "2", "3-30", "31", "32", "33", "more");
    show_row("made", table_sizes[0], "++++++--");
    show_row("14", table_sizes[1], "++++++++");
    printf("%-22s %6s %6s %6s %6s\n", "reasons for 14", "many", "part", "short", "more");
    show_row("by itself, several", reasons, "++++");
    printf("%-22s %6s %6s %6s %6s %6s %6s %6s\n", "bytes for answers", "-whole", "-8n", "-1", "less", "enough",
        "+whole", "more");
    show_row("made", table_answers[0], "----+++");
    show_row("14", table_answers[1], "++++---");
    printf("%-22s %6s %6s %6s\n", "tables", "empty", "calls", "14");
    show_row("on a valid image", table_images[0], "+++");
    show_row("on one that is not", table_images[1], "+++");
    show_table_calls();
}

void show_counts(unsigned long *reached, unsigned long *unreached)
{
    show_kinds();
    show_outcomes();
    show_strikes();
    show_amounts();
    show_premiums();
    show_parts();
    show_misplaced();
    show_tables();
    show_figures();
    printf("%-22s %6s %6s\n", "made-up images", "valid", "not");
    show_row("a field out of place", damaged, "++");
    show_row("valid, not reached", stray, "+-");
    printf("%lu entries in the longest answer\n", most_entries);
    *reached = met;
    *unreached = unmet;
}
