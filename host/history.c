#include "history.h"

#include <stdio.h>
#include <string.h>

#include "../include/crz_records.h"

/* The sum that a bid holds, said here a second time: the table takes no constant of money from elsewhere. */
enum { DEPOSIT_HELD = 5000000 };

static const struct finding none = {SENTENCE_NONE, 0};

void finding_words(const struct finding *finding, char *words, size_t length)
{
    unsigned n = finding->number;
    switch (finding->sentence) {
    case SENTENCE_NONE: snprintf(words, length, "all sentences hold"); break;
    case SENTENCE_BOOKS:
        snprintf(words, length, "account %u does not have what was paid in and received, less what went out", n);
        break;
    case SENTENCE_FROZEN: snprintf(words, length, "frozen money of account %u is not what its lots hold", n); break;
    case SENTENCE_OWNER: snprintf(words, length, "receipt %u is not its last buyer's or its registrant's", n); break;
    case SENTENCE_STRIKE: snprintf(words, length, "lot %u was struck for an account that did not bid for it", n); break;
    case SENTENCE_LOT: snprintf(words, length, "an entry names lot %u, which no zone has", n); break;
    case SENTENCE_OUTCOME: snprintf(words, length, "an entry has outcome %u, which can be put to no lot", n); break;
    }
}

void history_start(struct history *history)
{
    memset(history, 0, sizeof *history);
}

/* A strike is for the account that calls, or by a quote for the one whose own limit bid is the lot's last entry. */
static int strike_fair(const struct past *past, const uint8_t *call, uint8_t from)
{
    uint8_t kind = call[CRZ_CALL_KIND];
    if (kind == CRZ_KIND_LIMIT_BID || kind == CRZ_KIND_MARKET_BID)
        return call[CRZ_CALL_ACCOUNT] == from;
    return kind == CRZ_KIND_QUOTE && past->last == CRZ_OUTCOME_BID_STANDS && past->last_from == from
           && past->last_kind == CRZ_KIND_LIMIT_BID && past->last_account == from;
}

static void pass(struct history *history, const struct crz_entry_fields *entry)
{
    history->passed[entry->from] += entry->number;
    history->received[entry->to] += entry->number;
}

static void settle(struct past *past, const struct crz_entry_fields *entry)
{
    past->settler = (uint8_t)entry->from;
    past->full = entry->number;
    past->since = 0;
}

/* Whether the outcome is known. No default: the compiler names one that crz.h adds, for which this is to be decided. */
static int enter(struct history *history, struct past *past, const struct crz_entry_fields *entry)
{
    switch ((enum crz_outcome)entry->outcome) {
    case CRZ_OUTCOME_REGISTERED: past->registrant = (uint8_t)entry->from; return 1;
    case CRZ_OUTCOME_BID_STANDS:
    case CRZ_OUTCOME_STRUCK: past->bidder = (uint8_t)entry->from; return 1;
    case CRZ_OUTCOME_SETTLED: settle(past, entry); return 1;
    case CRZ_OUTCOME_FIRST_PAID:
    case CRZ_OUTCOME_PART_PAID:
        past->since += entry->number;
        pass(history, entry);
        return 1;
    case CRZ_OUTCOME_BUYER_DEFAULT:
    case CRZ_OUTCOME_PENALTY: pass(history, entry); return 1;
    case CRZ_OUTCOME_LISTED:
    case CRZ_OUTCOME_ENDED:
    case CRZ_OUTCOME_BID_WITHDRAWN:
    case CRZ_OUTCOME_LODGED:
    case CRZ_OUTCOME_INVOICED:
    case CRZ_OUTCOME_SELLER_DEFAULT:
    case CRZ_OUTCOME_BOTH_DEFAULTED: return 1;
    }
    return 0;
}

/* One entry, as its lot's last. */
static struct finding take_entry(struct history *history, const uint8_t *call, const struct crz_entry_fields *entry)
{
    struct past *past = &history->lots[entry->lot];
    int fair = entry->outcome != CRZ_OUTCOME_STRUCK || strike_fair(past, call, (uint8_t)entry->from);
    if (!crz_is_place(entry->lot, CRZ_RECEIPT_COUNT))
        return (struct finding){SENTENCE_LOT, entry->lot};
    if (!enter(history, past, entry))
        return (struct finding){SENTENCE_OUTCOME, entry->outcome};
    past->last = (uint8_t)entry->outcome;
    past->last_from = (uint8_t)entry->from;
    past->last_kind = call[CRZ_CALL_KIND];
    past->last_account = call[CRZ_CALL_ACCOUNT];
    return fair ? none : (struct finding){SENTENCE_STRIKE, entry->lot};
}

struct finding history_feed(struct history *history, const uint8_t *call, const uint8_t *answer)
{
    struct crz_call_fields made = crz_get_call(call);
    struct finding finding = none;
    uint32_t count = crz_get_answer(answer).count;
    if (made.kind == CRZ_KIND_PAY_IN)
        history->pay_ins[made.account] += made.amount;
    if (made.kind == CRZ_KIND_TAKE_OUT)
        history->take_outs[made.account] += made.amount;
    for (uint32_t i = 0; i < count && i < CRZ_ENTRY_COUNT; i++) {
        struct crz_entry_fields entry = crz_get_entry(answer, i);
        struct finding found = take_entry(history, call, &entry);
        if (finding.sentence == SENTENCE_NONE)
            finding = found;
    }
    return finding;
}

/* What a lot holds by its last entry, and from whom; nothing before the first. */
static uint64_t held_by(const struct past *past, uint8_t *from)
{
    switch ((enum crz_outcome)past->last) {
    case CRZ_OUTCOME_BID_STANDS:
    case CRZ_OUTCOME_STRUCK:
    case CRZ_OUTCOME_LODGED: *from = past->bidder; return DEPOSIT_HELD;
    case CRZ_OUTCOME_SETTLED:
    case CRZ_OUTCOME_FIRST_PAID:
    case CRZ_OUTCOME_INVOICED:
    case CRZ_OUTCOME_PART_PAID: *from = past->settler; return past->full - past->since;
    case CRZ_OUTCOME_REGISTERED:
    case CRZ_OUTCOME_LISTED:
    case CRZ_OUTCOME_ENDED:
    case CRZ_OUTCOME_BID_WITHDRAWN:
    case CRZ_OUTCOME_BUYER_DEFAULT:
    case CRZ_OUTCOME_SELLER_DEFAULT:
    case CRZ_OUTCOME_BOTH_DEFAULTED:
    case CRZ_OUTCOME_PENALTY: break;
    }
    return 0;
}

static void add_held(const struct history *history, uint64_t held[HISTORY_ACCOUNTS])
{
    memset(held, 0, HISTORY_ACCOUNTS * sizeof *held);
    for (unsigned lot = 0; lot < HISTORY_LOTS; lot++) {
        uint8_t from = 0;
        uint64_t fen = held_by(&history->lots[lot], &from);
        held[from] += fen;
    }
}

static struct finding hold_accounts(const struct history *history, const uint8_t *image)
{
    uint64_t held[HISTORY_ACCOUNTS];
    add_held(history, held);
    for (unsigned a = 1; a <= CRZ_ACCOUNT_COUNT; a++) {
        struct crz_account_fields has = crz_get_account(image, a);
        uint64_t in = history->pay_ins[a] + history->received[a], out = history->take_outs[a] + history->passed[a];
        if (has.free + has.frozen + out != in)
            return (struct finding){SENTENCE_BOOKS, a};
        if (has.frozen != held[a])
            return (struct finding){SENTENCE_FROZEN, a};
    }
    return none;
}

static struct finding hold_owners(const struct history *history, const uint8_t *image)
{
    for (unsigned r = 1; r <= CRZ_RECEIPT_COUNT; r++) {
        const struct past *past = &history->lots[r];
        uint8_t buyer_or_registrant = past->settler != 0 ? past->settler : past->registrant;
        uint8_t owner = past->registrant == 0 ? 0 : buyer_or_registrant;
        if (crz_get_receipt(image, r).owner != owner)
            return (struct finding){SENTENCE_OWNER, r};
    }
    return none;
}

struct finding history_hold(const struct history *history, const uint8_t *image)
{
    struct finding finding = hold_accounts(history, image);
    return finding.sentence == SENTENCE_NONE ? hold_owners(history, image) : finding;
}
