#include "json.h"

#include <inttypes.h>
#include <stdio.h>

#include "print.h"
#include "reason.h"

/* ── Members ───────────────────────────────────────────────────────────────────────────────────── */

static void put_string(const char *words)
{
    putchar('"');
    for (const char *c = words; *c != '\0'; c++) {
        if (*c == '"' || *c == '\\')
            printf("\\%c", *c);
        else if ((unsigned char)*c < 0x20 || (unsigned char)*c >= 0x7f)
            printf("\\u%04x", (unsigned)(unsigned char)*c);
        else
            putchar(*c);
    }
    putchar('"');
}

static void put_name(const char *name)
{
    printf(",\"%s\":", name);
}

void json_open(const char *type)
{
    printf("{\"type\":\"%s\"", type);
}

void json_close(void)
{
    puts("}");
}

void json_number(const char *name, uint64_t number)
{
    put_name(name);
    printf("%" PRIu64, number);
}

void json_signed(const char *name, int64_t number)
{
    put_name(name);
    printf("%" PRId64, number);
}

void json_flag(const char *name, int holds)
{
    put_name(name);
    fputs(holds ? "true" : "false", stdout);
}

void json_words(const char *name, const char *words)
{
    put_name(name);
    if (words == NULL)
        fputs("null", stdout);
    else
        put_string(words);
}

void json_hash(const char *name, const struct hash *hash)
{
    char words[HASH_DIGITS + 1];
    hash_words(hash, words);
    json_words(name, words);
}

void json_signed_if(int is_there, const char *name, int64_t number)
{
    if (is_there)
        json_signed(name, number);
    else
        json_words(name, NULL);
}

void json_if(int is_there, const char *name, uint64_t number)
{
    if (is_there)
        json_number(name, number);
    else
        json_words(name, NULL);
}

/* ── Calls ─────────────────────────────────────────────────────────────────────────────────────── */

/* The fields that the kind takes. */
static void put_call(const uint8_t *call)
{
    const struct kind_words *kind = kind_of(call[CRZ_CALL_KIND]);
    printf(",\"call\":{\"kind\":\"%s\"", kind == NULL ? "unknown" : kind->word);
    for (unsigned f = 0; f < FIELDS; f++)
        if (kind != NULL && kind->takes & 1u << f)
            json_signed(fields[f].name, call_field(call, f));
    putchar('}');
}

static void put_entry(const struct crz_entry_fields *entry)
{
    const struct outcome_words *o = outcome_of(entry->outcome);
    printf("{\"lot\":%" PRIu32, entry->lot);
    json_words("outcome", o == NULL ? NULL : o->word);
    json_number("from", entry->from);
    json_if(entry->to != 0, "to", entry->to);
    json_if(o != NULL && o->unit == UNIT_FEN, "fen", entry->number);
    json_if(o != NULL && o->unit == UNIT_YUAN, "yuan", entry->number);
    putchar('}');
}

static void put_entries(const uint8_t *answer, uint32_t count)
{
    fputs(",\"entries\":[", stdout);
    for (uint32_t i = 0; i < count; i++) {
        struct crz_entry_fields entry = crz_get_entry(answer, i);
        if (i > 0)
            putchar(',');
        put_entry(&entry);
    }
    putchar(']');
}

static void put_reason(const struct line *line, const uint8_t *found)
{
    char seen[REASON_LENGTH] = "";
    int refused = line->number != CRZ_NUMBER_ACCEPTED;
    if (refused && found != NULL)
        reason_seen(line->number, line->call, found, seen);
    json_words("reason", refused ? reason_of(line->number) : NULL);
    json_words("seen", seen[0] == '\0' ? NULL : seen);
}

/* Of an accepted invoice; null of every other call. */
static void put_invoiced(const struct line *line, const uint8_t *found)
{
    struct crz_receipt_fields lot = {0};
    int invoiced = invoiced_lot(line, found, &lot);
    json_if(invoiced, "next_part_fen", crz_next_part(&lot));
    json_if(invoiced, "left_to_invoice_fen", crz_left_to_invoice(&lot));
}

static void put_answer(const struct line *line)
{
    struct crz_answer_fields head = crz_get_answer(line->answer);
    int accepted = line->number == CRZ_NUMBER_ACCEPTED;
    json_words("phase", accepted ? phase_words(head.phase) : NULL);
    json_if(accepted, "total_fen", head.total);
    put_entries(line->answer, accepted ? head.count : 0);
}

static void put_table(const struct span *table)
{
    if (table == NULL)
        json_words("table", NULL);
    else
        printf(",\"table\":{\"first\":%" PRIu64 ",\"last\":%" PRIu64 "}", table->first, table->last);
}

void json_line(const struct line *line, const struct span *table, const uint8_t *found)
{
    json_open(line->sequence == 0 ? "start" : "call");
    json_number("sequence", line->sequence);
    json_words("time", line->time);
    json_words("through", line->entry);
    if (line->sequence > 0) {
        put_table(table);
        put_call(line->call);
        json_number("number", line->number);
        json_flag("accepted", line->number == CRZ_NUMBER_ACCEPTED);
        put_reason(line, found);
        put_answer(line);
        put_invoiced(line, found);
    }
    json_hash("hash", &line->hash);
    json_close();
}

/* ── Zones ─────────────────────────────────────────────────────────────────────────────────────── */

static void put_asks(const uint8_t *image)
{
    for (uint32_t k = 1; k <= CRZ_CONTRACT_COUNT; k++) {
        json_open("contract");
        json_number("contract", k);
        json_if(crz_get_ask(image, k) != 0, "ask_yuan", crz_get_ask(image, k));
        json_close();
    }
}

static void put_accounts(const uint8_t *image)
{
    for (uint32_t a = 1; a <= CRZ_ACCOUNT_COUNT; a++) {
        struct crz_account_fields has = crz_get_account(image, a);
        if (has.free == 0 && has.frozen == 0)
            continue;
        json_open("account");
        json_number("account", a);
        json_number("free_fen", has.free);
        json_number("frozen_fen", has.frozen);
        json_close();
    }
}

static void put_invoices(const struct crz_receipt_fields *r)
{
    int first_paid = r->state == CRZ_STATE_FIRST_PAID;
    json_if(first_paid, "paid_of_rest_fen", r->paid);
    json_if(first_paid, "confirmed_fen", r->confirmed);
    json_if(first_paid, "pending_fen", r->pending);
    json_if(first_paid, "left_to_invoice_fen", crz_left_to_invoice(r));
    json_if(first_paid && r->pending != 0, "next_part_fen", crz_next_part(r));
}

static void put_lot(uint32_t lot, const struct crz_receipt_fields *r)
{
    json_open("lot");
    json_number("lot", lot);
    json_words("state", state_words[r->state]);
    json_number("owner", r->owner);
    json_number("kilograms", r->weight);
    json_signed("premium_yuan", r->premium);
    json_if(r->seller != 0, "seller", r->seller);
    json_if(r->buyer != 0, "buyer", r->buyer);
    json_if(r->contract != 0, "contract", r->contract);
    json_if(r->contract != 0, "days", r->days);
    json_signed_if(r->contract != 0, "basis_yuan", r->basis);
    json_if(r->price != 0, "price_yuan", r->price);
    json_if(r->due != 0, "due", r->due);
    json_if(r->price != 0, "full_fen", crz_full_payment(r));
    json_if(r->price != 0, "rest_fen", crz_rest_payment(r));
    json_number("held_fen", crz_held_money(r));
    put_invoices(r);
    json_close();
}

static void put_lots(const uint8_t *image)
{
    for (uint32_t n = 1; n <= CRZ_RECEIPT_COUNT; n++) {
        struct crz_receipt_fields r = crz_get_receipt(image, n);
        if (r.owner != 0)
            put_lot(n, &r);
    }
}

void json_zone(const uint8_t image[CRZ_IMAGE_LENGTH])
{
    json_open("zone");
    json_number("day", crz_get_day(image));
    json_words("phase", phase_words(crz_get_phase(image)));
    json_number("total_fen", crz_get_total(image));
    json_close();
    put_asks(image);
    put_accounts(image);
    put_lots(image);
}
