#include "statement.h"

#include <inttypes.h>
#include <stdio.h>

#include "digits.h"
#include "json.h"
#include "print.h"

/* Money of one account, summed up line by line. */
struct statement {
    uint32_t account;
    int json;
    const uint8_t *image; /* the newest; a receipt's premium is there whatever became of its lot */
    uint64_t at_start;    /* free and frozen money of an imported image */
    uint64_t pay_ins, take_outs, received, passed;
};

/* One movement of the account's money. */
struct movement {
    const struct line *line;
    const char *what;
    uint32_t lot, other; /* 0 where the movement has none */
    int in;
    uint64_t fen;
    int with_premium; /* a part of a full payment, which counts the receipt's premium */
    int32_t premium;
};

/* What a movement is of: with the premium where it counts. */
static void movement_words(char *words, size_t length, const struct movement *m)
{
    int used = snprintf(words, length, "%s", m->what);
    if (m->lot != 0)
        used += snprintf(
            words + used, length - (size_t)used, ", lot %u, %s account %u", m->lot, m->in ? "from" : "to", m->other);
    if (m->with_premium)
        snprintf(words + used, length - (size_t)used, ", premium %s", grouped_signed(m->premium).text);
}

static void print_movement(const struct movement *m)
{
    char what[128], fen[40];
    movement_words(what, sizeof what, m);
    snprintf(fen, sizeof fen, "%s%s", m->fen == 0 ? "" : m->in ? "+" : "-", grouped(m->fen).text);
    printf("  %-8" PRIu64 " %s  %-52s %22s\n", m->line->sequence, m->line->time, what, fen);
}

static void json_movement(const struct movement *m)
{
    json_open("movement");
    json_number("sequence", m->line->sequence);
    json_words("time", m->line->time);
    json_words("what", m->what);
    json_if(m->lot != 0, "lot", m->lot);
    json_if(m->other != 0, "other_account", m->other);
    json_signed_if(m->with_premium, "premium_yuan", m->premium);
    json_if(m->in, "in_fen", m->fen);
    json_if(!m->in, "out_fen", m->fen);
    json_close();
}

static void show_movement(const struct statement *s, const struct movement *m)
{
    if (s->json)
        json_movement(m);
    else
        print_movement(m);
}

/* Outcomes that pay a part of a full payment. */
static int pays(uint32_t outcome)
{
    return outcome == CRZ_OUTCOME_FIRST_PAID || outcome == CRZ_OUTCOME_PART_PAID;
}

/* Outcomes that pass money from one account to another. */
static int passes(uint32_t outcome)
{
    return pays(outcome) || outcome == CRZ_OUTCOME_BUYER_DEFAULT || outcome == CRZ_OUTCOME_PENALTY;
}

static void add_transfer(struct statement *s, const struct line *line, const struct crz_entry_fields *e)
{
    int in = e->to == s->account;
    struct movement m = {line, outcome_of(e->outcome)->word, e->lot, in ? e->from : e->to, in, e->number,
        pays(e->outcome), crz_get_receipt(s->image, e->lot).premium};
    if (!passes(e->outcome) || (!in && e->from != s->account))
        return;
    *(in ? &s->received : &s->passed) += e->number;
    show_movement(s, &m);
}

static void add_transfers(struct statement *s, const struct line *line)
{
    uint32_t count = crz_get_answer(line->answer).count;
    for (uint32_t i = 0; i < count; i++) {
        struct crz_entry_fields entry = crz_get_entry(line->answer, i);
        if (outcome_of(entry.outcome) != NULL)
            add_transfer(s, line, &entry);
    }
}

static void add_payment(struct statement *s, const struct line *line, const struct crz_call_fields *call)
{
    int in = call->kind == CRZ_KIND_PAY_IN;
    struct movement m = {line, kind_of(call->kind)->word, 0, 0, in, call->amount, 0, 0};
    *(in ? &s->pay_ins : &s->take_outs) += call->amount;
    show_movement(s, &m);
}

static void add_line(struct statement *s, const struct line *line)
{
    struct crz_call_fields call = crz_get_call(line->call);
    if (line->sequence == 0 && line->has_further && line->further_length == CRZ_IMAGE_LENGTH) {
        struct crz_account_fields had = crz_get_account(line->further, s->account);
        s->at_start = had.free + had.frozen;
    }
    if (line->sequence == 0 || line->number != CRZ_NUMBER_ACCEPTED)
        return;
    if ((call.kind == CRZ_KIND_PAY_IN || call.kind == CRZ_KIND_TAKE_OUT) && call.account == s->account)
        add_payment(s, line, &call);
    add_transfers(s, line);
}

static int add_lines(void *context, const struct line *lines, size_t count)
{
    for (size_t i = 0; i < count; i++)
        add_line(context, &lines[i]);
    return 0;
}

/* ── Lots that hold its money, and lots that it may invoice ────────────────────────────────────── */

static void print_invoices(const struct crz_receipt_fields *r)
{
    if (r->pending != 0)
        printf(", of which the next confirmation pays %s fen", grouped(crz_next_part(r)).text);
    else
        printf(", no invoice is pending");
    printf(", %s fen are left to invoice", grouped(crz_left_to_invoice(r)).text);
}

static void print_held(uint32_t lot, const struct crz_receipt_fields *r)
{
    printf("  held for lot %u, %s, premium %s: %s fen", lot, state_words[r->state], grouped_signed(r->premium).text,
        grouped(crz_held_money(r)).text);
    if (r->state == CRZ_STATE_FIRST_PAID)
        print_invoices(r);
    putchar('\n');
}

static void json_held(uint32_t lot, const struct crz_receipt_fields *r)
{
    int first_paid = r->state == CRZ_STATE_FIRST_PAID;
    json_open("held");
    json_number("lot", lot);
    json_words("state", state_words[r->state]);
    json_signed("premium_yuan", r->premium);
    json_number("fen", crz_held_money(r));
    json_if(first_paid, "left_to_invoice_fen", crz_left_to_invoice(r));
    json_if(first_paid && r->pending != 0, "next_part_fen", crz_next_part(r));
    json_close();
}

static void show_all_held(const struct statement *s)
{
    for (uint32_t n = 1; n <= CRZ_RECEIPT_COUNT; n++) {
        struct crz_receipt_fields r = crz_get_receipt(s->image, n);
        if (r.buyer == s->account && crz_held_money(&r) != 0)
            (s->json ? json_held : print_held)(n, &r);
    }
}

static void print_to_invoice(uint32_t lot, const struct crz_receipt_fields *r)
{
    printf("  to invoice for lot %u, buyer %u, premium %s: %s fen", lot, r->buyer, grouped_signed(r->premium).text,
        grouped(crz_left_to_invoice(r)).text);
    if (r->pending != 0)
        printf(", an invoice of %s fen is pending, its confirmation pays %s fen\n", grouped(r->pending).text,
            grouped(crz_next_part(r)).text);
    else
        puts(", no invoice is pending");
}

static void json_to_invoice(uint32_t lot, const struct crz_receipt_fields *r)
{
    json_open("to_invoice");
    json_number("lot", lot);
    json_number("buyer", r->buyer);
    json_signed("premium_yuan", r->premium);
    json_number("left_to_invoice_fen", crz_left_to_invoice(r));
    json_number("pending_fen", r->pending);
    json_if(r->pending != 0, "next_part_fen", crz_next_part(r));
    json_close();
}

/* It is the seller who waits for the rest; what invoices will bring is not its money yet and in none of the sums. */
static void show_all_to_invoice(const struct statement *s)
{
    for (uint32_t n = 1; n <= CRZ_RECEIPT_COUNT; n++) {
        struct crz_receipt_fields r = crz_get_receipt(s->image, n);
        if (r.seller == s->account && r.state == CRZ_STATE_FIRST_PAID)
            (s->json ? json_to_invoice : print_to_invoice)(n, &r);
    }
}

/* ── The line that adds up ─────────────────────────────────────────────────────────────────────── */

static void json_balance(const struct statement *s, const struct crz_account_fields *has)
{
    json_open("balance");
    json_number("account", s->account);
    json_number("start_fen", s->at_start);
    json_number("pay_ins_fen", s->pay_ins);
    json_number("received_fen", s->received);
    json_number("take_outs_fen", s->take_outs);
    json_number("passed_fen", s->passed);
    json_number("free_fen", has->free);
    json_number("frozen_fen", has->frozen);
    json_close();
}

static void print_balance(const struct statement *s, const struct crz_account_fields *has)
{
    printf("  ");
    if (s->at_start != 0)
        printf("at the start %s + ", grouped(s->at_start).text);
    printf("pay-ins %s + received %s - take-outs %s - passed on %s fen", grouped(s->pay_ins).text,
        grouped(s->received).text, grouped(s->take_outs).text, grouped(s->passed).text);
    printf("\n  = free %s + frozen %s = %s fen\n", grouped(has->free).text, grouped(has->frozen).text,
        grouped(has->free + has->frozen).text);
}

static void print_head(const struct statement *s, const struct newest *newest)
{
    printf("account %u after sequence %" PRIu64 ", day %s, %s\n", s->account, newest->last.sequence,
        grouped(crz_get_day(newest->kept.image)).text, phase_words(crz_get_phase(newest->kept.image)));
    printf("  %-8s %-24s  %-52s %22s\n", "sequence", "time (UTC)", "what", "fen");
}

enum status print_statement(struct store *store, const struct newest *newest, uint32_t account, int json)
{
    struct statement s = {.account = account, .json = json, .image = newest->kept.image};
    struct crz_account_fields has = crz_get_account(newest->kept.image, account);
    if (!json)
        print_head(&s, newest);
    if (store_walk(store, 0, newest->last.sequence, add_lines, &s) != 0)
        return STATUS_NOTHING_DONE;
    show_all_held(&s);
    show_all_to_invoice(&s);
    if (json)
        json_balance(&s, &has);
    else
        print_balance(&s, &has);
    if (s.at_start + s.pay_ins + s.received == s.take_outs + s.passed + has.free + has.frozen)
        return STATUS_ACCEPTED;
    store_damaged(store_path(store), STORE_READ, "journal and image do not add up for this account");
    return STATUS_NOTHING_DONE;
}
