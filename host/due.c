#include "due.h"

#include <inttypes.h>
#include <stdio.h>

#include "digits.h"
#include "json.h"
#include "words.h"

/* ── Lots ──────────────────────────────────────────────────────────────────────────────────────── */

/* A lot that the close of the day works. */
static int is_due(const struct crz_receipt_fields *r, uint32_t day)
{
    int waits = r->state == CRZ_STATE_STRUCK || r->state == CRZ_STATE_LODGED || r->state == CRZ_STATE_PENALTY_DUE;
    return waits && r->due <= day;
}

static uint32_t count_due(const uint8_t *image, uint32_t day)
{
    uint32_t count = 0;
    for (uint32_t n = 1; n <= CRZ_RECEIPT_COUNT; n++) {
        struct crz_receipt_fields r = crz_get_receipt(image, n);
        count += is_due(&r, day) ? 1 : 0;
    }
    return count;
}

static uint64_t lacking(uint64_t needed, uint64_t has)
{
    return needed > has ? needed - has : 0;
}

/* All of the account's free money is counted for each of its lots; what they take together is the account's figure. */
static void print_lacking(uint64_t fen)
{
    if (fen != 0)
        printf(", lacks %s fen for this lot alone", grouped(fen).text);
    putchar('\n');
}

static void print_due_lot(const uint8_t *image, uint32_t lot, const struct crz_receipt_fields *r)
{
    uint64_t full = crz_full_payment(r), seller = crz_get_account(image, r->seller).free;
    uint64_t buyer = crz_get_account(image, r->buyer).free;
    printf("  lot %u, due day %s: %s", lot, grouped(r->due).text, state_words[r->state]);
    if (r->state == CRZ_STATE_PENALTY_DUE) {
        printf(", seller %u owes %s fen to buyer %u\n", r->seller, grouped(CRZ_PENALTY).text, r->buyer);
        printf("      seller %u has %s fen free", r->seller, grouped(seller).text);
        print_lacking(lacking(CRZ_PENALTY, seller));
        return;
    }
    printf(", full payment %s fen, seller %u %s\n", grouped(full).text, r->seller,
        r->state == CRZ_STATE_STRUCK ? "must lodge" : "has lodged");
    printf("      seller %u has %s fen free\n", r->seller, grouped(seller).text);
    printf("      buyer %u has %s fen free and the deposit of %s fen", r->buyer, grouped(buyer).text,
        grouped(CRZ_DEPOSIT).text);
    print_lacking(lacking(full, buyer + CRZ_DEPOSIT));
}

static void json_due_lot(const uint8_t *image, uint32_t lot, const struct crz_receipt_fields *r)
{
    uint64_t seller = crz_get_account(image, r->seller).free, buyer = crz_get_account(image, r->buyer).free;
    int penalty = r->state == CRZ_STATE_PENALTY_DUE;
    json_open("due");
    json_number("lot", lot);
    json_words("state", state_words[r->state]);
    json_number("due", r->due);
    json_number("seller", r->seller);
    json_number("buyer", r->buyer);
    json_if(!penalty, "full_fen", crz_full_payment(r));
    json_flag("must_lodge", r->state == CRZ_STATE_STRUCK);
    json_if(penalty, "penalty_fen", CRZ_PENALTY);
    json_number("seller_free_fen", seller);
    json_number("buyer_free_fen", buyer);
    json_number("deposit_fen", crz_held_money(r));
    json_number(
        "lacks_fen", penalty ? lacking(CRZ_PENALTY, seller) : lacking(crz_full_payment(r), buyer + CRZ_DEPOSIT));
    json_close();
}

static void show_due_lots(const uint8_t *image, uint32_t day, int json)
{
    for (uint32_t n = 1; n <= CRZ_RECEIPT_COUNT; n++) {
        struct crz_receipt_fields r = crz_get_receipt(image, n);
        if (is_due(&r, day) && json)
            json_due_lot(image, n, &r);
        else if (is_due(&r, day))
            print_due_lot(image, n, &r);
    }
}

/* ── Accounts ──────────────────────────────────────────────────────────────────────────────────── */

/* What each account has to pay in before today's morning close, by the library. Returns 0, or -1 after a message. */
static int read_figures(const uint8_t *image, uint8_t figures[CRZ_FIGURES_LENGTH])
{
    uint32_t number = crz_shortfalls(image, CRZ_IMAGE_LENGTH, figures, CRZ_FIGURES_LENGTH);
    return number == CRZ_NUMBER_ACCEPTED
               ? 0
               : report(NULL, "the library returns %" PRIu32 " where it is asked for the shortfalls", number);
}

/* What its due lots ask for is the figure and the free money that was taken off, since the figure is above 0. */
static void print_shortfall(const uint8_t *image, uint32_t account, uint64_t fen)
{
    uint64_t has = crz_get_account(image, account).free;
    printf("  account %u has to pay in %s fen before the morning close\n", account, grouped(fen).text);
    printf("      its due lots together ask for %s fen beyond deposits, it has %s fen free\n", grouped(fen + has).text,
        grouped(has).text);
}

static void json_shortfall(uint32_t account, uint64_t fen)
{
    json_open("shortfall");
    json_number("account", account);
    json_number("fen", fen);
    json_close();
}

/* In an afternoon no figure says what tomorrow's close will ask for, whatever is due then. */
static void print_nobody(int today)
{
    if (today)
        puts("nobody has to pay in before the morning close");
    else
        puts("today's close is made, nothing is to be paid in for it; what to pay in for tomorrow's is shown after the "
             "day close");
}

static void show_shortfalls(const uint8_t *image, const uint8_t *figures, int today, int json)
{
    uint32_t count = 0;
    for (uint32_t a = 1; a <= CRZ_ACCOUNT_COUNT; a++) {
        uint64_t fen = crz_get_figure(figures, a);
        count += fen > 0 ? 1 : 0;
        if (fen > 0 && json)
            json_shortfall(a, fen);
        else if (fen > 0)
            print_shortfall(image, a, fen);
    }
    if (count == 0 && !json)
        print_nobody(today);
}

/* ── The close ─────────────────────────────────────────────────────────────────────────────────── */

/* Day 0 where no close comes any more. */
static void show_close(uint32_t day, int today, uint32_t lots, int json)
{
    if (json) {
        json_open("close");
        json_if(day != 0, "day", day);
        json_flag("today", today);
        json_number("lots", lots);
        json_close();
    } else if (day == 0) {
        printf("no morning close comes: day %s is the last\n", grouped(CRZ_DAY_MOST).text);
    } else {
        printf("the next morning close, of day %s (%s), works %u lot%s\n", grouped(day).text,
            today ? "today" : "tomorrow: today's is made", lots, plural(lots));
    }
}

enum status print_due(const uint8_t image[CRZ_IMAGE_LENGTH], int json)
{
    uint8_t figures[CRZ_FIGURES_LENGTH];
    int today = crz_get_phase(image) == CRZ_PHASE_MORNING;
    uint32_t day = crz_get_day(image) + (today ? 0 : 1);
    if (read_figures(image, figures) != 0)
        return STATUS_NOTHING_DONE;
    if (day > CRZ_DAY_MOST) {
        show_close(0, 0, 0, json);
        return STATUS_ACCEPTED;
    }
    show_close(day, today, count_due(image, day), json);
    show_due_lots(image, day, json);
    show_shortfalls(image, figures, today, json);
    return STATUS_ACCEPTED;
}
