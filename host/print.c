#include "print.h"

#include <inttypes.h>
#include <stdio.h>

#include "digits.h"
#include "reason.h"

static const struct outcome_words outcomes[] = {
    [CRZ_OUTCOME_REGISTERED] = {"registered", "owner", NULL, UNIT_NONE},
    [CRZ_OUTCOME_LISTED] = {"listed", "seller", NULL, UNIT_NONE},
    [CRZ_OUTCOME_ENDED] = {"listing ended", "seller", NULL, UNIT_NONE},
    [CRZ_OUTCOME_BID_STANDS] = {"bid stands", "buyer", "seller", UNIT_YUAN},
    [CRZ_OUTCOME_BID_WITHDRAWN] = {"bid withdrawn", "buyer", "seller", UNIT_NONE},
    [CRZ_OUTCOME_STRUCK] = {"struck", "buyer", "seller", UNIT_YUAN},
    [CRZ_OUTCOME_LODGED] = {"lodged", "seller", "buyer", UNIT_NONE},
    [CRZ_OUTCOME_SETTLED] = {"settled", "buyer", "seller", UNIT_FEN},
    [CRZ_OUTCOME_FIRST_PAID] = {"first paid", "buyer", "seller", UNIT_FEN},
    [CRZ_OUTCOME_INVOICED] = {"invoiced", "seller", "buyer", UNIT_FEN},
    [CRZ_OUTCOME_PART_PAID] = {"part paid", "buyer", "seller", UNIT_FEN},
    [CRZ_OUTCOME_BUYER_DEFAULT] = {"buyer default", "buyer", "seller", UNIT_FEN},
    [CRZ_OUTCOME_SELLER_DEFAULT] = {"seller default", "seller", "buyer", UNIT_NONE},
    [CRZ_OUTCOME_BOTH_DEFAULTED] = {"both defaulted", "buyer", "seller", UNIT_NONE},
    [CRZ_OUTCOME_PENALTY] = {"penalty", "seller", "buyer", UNIT_FEN},
};

const struct outcome_words *outcome_of(uint32_t outcome)
{
    return outcome >= 1 && outcome < sizeof outcomes / sizeof outcomes[0] ? &outcomes[outcome] : NULL;
}

const char *phase_words(uint32_t phase)
{
    return phase == CRZ_PHASE_MORNING ? "morning" : "afternoon";
}

/* ── Answers ───────────────────────────────────────────────────────────────────────────────────── */

static void print_entry(const struct crz_entry_fields *entry)
{
    const struct outcome_words *o = outcome_of(entry->outcome);
    if (o == NULL) {
        printf("    lot %u: outcome %u\n", entry->lot, entry->outcome);
        return;
    }
    printf("    lot %u: %s, %s %u", entry->lot, o->word, o->from, entry->from);
    if (o->to != NULL)
        printf(", %s %u", o->to, entry->to);
    if (o->unit == UNIT_FEN)
        printf(", %s fen", grouped(entry->number).text);
    if (o->unit == UNIT_YUAN)
        printf(", %s yuan per tonne", grouped(entry->number).text);
    putchar('\n');
}

static void print_entries(const uint8_t *answer)
{
    uint32_t count = crz_get_answer(answer).count;
    for (uint32_t i = 0; i < count; i++) {
        struct crz_entry_fields entry = crz_get_entry(answer, i);
        print_entry(&entry);
    }
}

static void print_after(const uint8_t *answer)
{
    struct crz_answer_fields head = crz_get_answer(answer);
    printf(": %s, total %s fen\n", phase_words(head.phase), grouped(head.total).text);
    print_entries(answer);
}

int invoiced_lot(const struct line *line, const uint8_t *found, struct crz_receipt_fields *lot)
{
    struct crz_call_fields call = crz_get_call(line->call);
    if (found == NULL || line->number != CRZ_NUMBER_ACCEPTED || call.kind != CRZ_KIND_INVOICE)
        return 0;
    *lot = crz_get_receipt(found, call.receipt);
    lot->pending = (uint32_t)call.amount; /* accepted, so it is within the full payment */
    return 1;
}

static void print_invoiced(const struct line *line, const uint8_t *found)
{
    struct crz_receipt_fields lot;
    if (invoiced_lot(line, found, &lot))
        printf("        its confirmation pays %s fen of the rest, %s fen are left to invoice\n",
            grouped(crz_next_part(&lot)).text, grouped(crz_left_to_invoice(&lot)).text);
}

void print_made(const struct line *line, const uint8_t found[CRZ_IMAGE_LENGTH])
{
    char seen[REASON_LENGTH];
    if (line->number == CRZ_NUMBER_ACCEPTED) {
        printf("accepted, sequence %" PRIu64, line->sequence);
        print_after(line->answer);
        print_invoiced(line, found);
        return;
    }
    reason_seen(line->number, line->call, found, seen);
    printf("refused %" PRIu32 ", sequence %" PRIu64 ": %s%s%s\n", line->number, line->sequence, reason_of(line->number),
        seen[0] == '\0' ? "" : ": ", seen);
}

/* ── The journal ───────────────────────────────────────────────────────────────────────────────── */

static void print_start(const struct line *line)
{
    if (line->has_further && line->further_length == CRZ_IMAGE_LENGTH)
        printf("start with an imported image: day %s, %s, total %s fen\n", grouped(crz_get_day(line->further)).text,
            phase_words(crz_get_phase(line->further)), grouped(crz_get_total(line->further)).text);
    else
        puts("start with a fresh zone");
}

static void print_table(const struct span *table)
{
    if (table == NULL)
        return;
    printf(", table %" PRIu64, table->first);
    if (table->last != table->first)
        printf(" to %" PRIu64, table->last);
}

void print_line(const struct line *line, const struct span *table)
{
    int accepted = line->number == CRZ_NUMBER_ACCEPTED;
    printf("%" PRIu64 "  %s  ", line->sequence, line->time);
    if (line->sequence == 0) {
        print_start(line);
        return;
    }
    print_call(line->call);
    printf("\n    %s", accepted ? "accepted" : "refused");
    if (!accepted)
        printf(" %" PRIu32, line->number);
    print_table(table);
    if (accepted)
        print_after(line->answer);
    else
        printf(": %s\n", reason_of(line->number));
}

/* ── Zones ─────────────────────────────────────────────────────────────────────────────────────── */

static void print_asks(const uint8_t *image)
{
    for (uint32_t k = 1; k <= CRZ_CONTRACT_COUNT; k++) {
        uint32_t ask = crz_get_ask(image, k);
        if (ask != 0)
            printf("  contract %u: ask %s yuan per tonne\n", k, grouped(ask).text);
    }
}

static void print_accounts(const uint8_t *image)
{
    printf("  %-8s %22s %22s\n", "account", "free fen", "frozen fen");
    for (uint32_t a = 1; a <= CRZ_ACCOUNT_COUNT; a++) {
        struct crz_account_fields has = crz_get_account(image, a);
        if (has.free != 0 || has.frozen != 0)
            printf("  %-8u %22s %22s\n", a, grouped(has.free).text, grouped(has.frozen).text);
    }
}

static void print_parties(const struct crz_receipt_fields *r)
{
    if (r->seller != 0)
        printf(", seller %u", r->seller);
    if (r->buyer != 0)
        printf(", buyer %u", r->buyer);
    if (r->due != 0)
        printf(", due day %s", grouped(r->due).text);
    putchar('\n');
}

static void print_terms(const struct crz_receipt_fields *r)
{
    if (r->contract == 0)
        return;
    printf("      contract %u, days %u, basis %s yuan per tonne", r->contract, r->days, grouped_signed(r->basis).text);
    if (r->price != 0)
        printf(", price %s yuan per tonne", grouped(r->price).text);
    putchar('\n');
}

static void print_invoices(const struct crz_receipt_fields *r)
{
    printf("      of the rest paid %s fen, invoices confirmed %s fen, pending %s fen, left to invoice %s fen\n",
        grouped(r->paid).text, grouped(r->confirmed).text, grouped(r->pending).text,
        grouped(crz_left_to_invoice(r)).text);
    if (r->pending != 0)
        printf("      the next confirmation pays %s fen\n", grouped(crz_next_part(r)).text);
    else
        puts("      no invoice is pending, there is nothing to confirm");
}

static void print_money(const struct crz_receipt_fields *r)
{
    if (r->price != 0)
        printf("      full payment %s fen, rest %s fen, held from the buyer %s fen\n",
            grouped(crz_full_payment(r)).text, grouped(crz_rest_payment(r)).text, grouped(crz_held_money(r)).text);
    if (r->state == CRZ_STATE_FIRST_PAID)
        print_invoices(r);
    if (r->state == CRZ_STATE_PENALTY_DUE)
        printf("      the seller owes the buyer up to %s fen\n", grouped(CRZ_PENALTY).text);
}

static void print_lots(const uint8_t *image, uint32_t state)
{
    for (uint32_t n = 1; n <= CRZ_RECEIPT_COUNT; n++) {
        struct crz_receipt_fields r = crz_get_receipt(image, n);
        if (r.owner == 0 || r.state != state)
            continue;
        printf("  lot %u: %s, owner %u, %s kilograms, premium %s yuan per tonne", n, state_words[state], r.owner,
            grouped(r.weight).text, grouped_signed(r.premium).text);
        print_parties(&r);
        print_terms(&r);
        print_money(&r);
    }
}

void print_zone(const uint8_t image[CRZ_IMAGE_LENGTH])
{
    printf("day %s, %s, total %s fen\n", grouped(crz_get_day(image)).text, phase_words(crz_get_phase(image)),
        grouped(crz_get_total(image)).text);
    print_asks(image);
    print_accounts(image);
    for (uint32_t state = 0; state < STATES; state++)
        print_lots(image, state);
}
