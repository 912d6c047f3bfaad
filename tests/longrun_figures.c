/*
 * Shortfalls in the long run: the lengths that they are asked for with, and what was reached. Each number, by the
 * length of the figures and by what is wrong with the image; lots in each state that a morning close works, due long
 * ago, earlier, today, tomorrow and later, the first and the last lot among them; full payments at the deposit and a
 * fen beside it; accounts that are asked for penalties, for trades and for both, the first and the last account among
 * them, with free money that is just enough, a fen short, a fen over, and none; the largest sums; and lots that are due
 * in an afternoon.
 */
#include "longrun.h"

#include <stdio.h>

/* the states that a morning close works */
enum { STRUCK, LODGED, PENALTY, WORKED };
static const char *const worked_names[WORKED] = {"struck", "lodged", "penalty due"};

/* the number returned, 1 on a valid image and on any other, by the length of the figures */
enum { NO_BYTES, ONE_BYTE, FEW_BYTES, BYTE_SHORT, ENOUGH, BYTE_MORE, MORE, LENGTHS };
enum { ACCEPTED, SHORT_ON_VALID, SHORT_ON_BAD, BAD_IMAGE, ANSWERS };
static unsigned long lengths[ANSWERS][LENGTHS];

/* images that were 2: of another length, shorter and longer, else by the phase in them */
enum { SHORTER, LONGER, IN_MORNING, IN_AFTERNOON, BAD_IMAGES };
static unsigned long bad_images[BAD_IMAGES];

/* lots of a morning, by state and by when they are due */
enum { LONG_AGO, EARLIER, TODAY, TOMORROW, LATER, DUES };
static unsigned long dues[WORKED][DUES];

/* due lots: lot 1, lot 128, and those for which account 1 or 96 is asked */
enum { LOT_1, LOT_128, OF_FIRST, OF_LAST, ENDS };
static unsigned long ends[WORKED][ENDS];

/* full payments of due trades: a fen below the deposit, the deposit, a fen above, the least, the most; and lots that a
 * close leaves although their due day has come, settled and first paid, and bids that stand */
enum { FEN_BELOW, JUST_DEPOSIT, FEN_ABOVE, LEAST_FULL, MOST_FULL, FULLS };
static unsigned long fulls[WORKED][FULLS];
enum { BID, SETTLED, FIRST_PAID, LEFT };
static unsigned long left[LEFT];

/* accounts of a morning that are asked for something: cheap and dear trades, several dear ones, several penalties, a
 * penalty and a trade; their free money; frozen money that would make up for what is short; the largest sums */
enum { CHEAP_AND_DEAR, SEVERAL_DEAR, SEVERAL_PENALTIES, BOTH_ROLES, ROLES };
enum { JUST_ENOUGH, FEN_SHORT, FEN_OVER, NO_FREE, FROZEN_WOULD_DO, MONEYS };
enum { MOST_PAYMENTS, MOST_PENALTIES, SUMS };
static unsigned long roles[ROLES], moneys[MONEYS], sums[SUMS];

/* zones: no figure above 0, some, and an afternoon with lots due */
enum { NO_FIGURE, SOME_FIGURE, DUE_IN_AFTERNOON, ZONES };
static unsigned long zones[ZONES];

/* ── Questions ─────────────────────────────────────────────────────────────────────────────────── */

static size_t some_length(void)
{
    static const size_t edges[] = {0, 1, CRZ_FIGURES_LENGTH - 1, CRZ_FIGURES_LENGTH, CRZ_FIGURES_LENGTH + 1};
    uint64_t draw = below(100);
    if (draw < 60)
        return CRZ_FIGURES_LENGTH;
    if (draw < 75)
        return edges[below(sizeof edges / sizeof edges[0])];
    return draw < 85 ? (size_t)below(CRZ_FIGURES_LENGTH) : (size_t)between(CRZ_FIGURES_LENGTH, FIGURES_MOST);
}

/* now and then an image of another length */
void draw_question(struct question *q)
{
    q->figures_len = some_length();
    q->image_len = CRZ_IMAGE_LENGTH;
    if (percent(4))
        q->image_len = percent(50) ? CRZ_IMAGE_LENGTH - 1 : CRZ_IMAGE_LENGTH + (size_t)between(1, SPARE);
}

/* ── Counting ──────────────────────────────────────────────────────────────────────────────────── */

static size_t length_place(size_t length)
{
    if (length <= 1)
        return length;
    if (length < CRZ_FIGURES_LENGTH - 1)
        return FEW_BYTES;
    return length > CRZ_FIGURES_LENGTH + 1 ? MORE : BYTE_SHORT + length - (CRZ_FIGURES_LENGTH - 1);
}

static void count_number(const struct made_figures *made)
{
    size_t place = length_place(made->question->figures_len);
    lengths[ACCEPTED][place] += made->number == CRZ_NUMBER_ACCEPTED;
    lengths[SHORT_ON_VALID][place] += made->number == CRZ_NUMBER_SHORT_ANSWER && made->valid;
    lengths[SHORT_ON_BAD][place] += made->number == CRZ_NUMBER_SHORT_ANSWER && !made->valid;
    lengths[BAD_IMAGE][place] += made->number == CRZ_NUMBER_BAD_IMAGE;
}

static void count_bad_image(const struct made_figures *made)
{
    size_t length = made->question->image_len;
    int whole = length == CRZ_IMAGE_LENGTH;
    bad_images[SHORTER] += length < CRZ_IMAGE_LENGTH;
    bad_images[LONGER] += length > CRZ_IMAGE_LENGTH;
    bad_images[IN_MORNING] += whole && crz_get_phase(made->image) == CRZ_PHASE_MORNING;
    bad_images[IN_AFTERNOON] += whole && crz_get_phase(made->image) == CRZ_PHASE_AFTERNOON;
}

/* the state's place among those that a morning close works, WORKED for another */
static size_t worked_place(uint32_t state)
{
    switch (state) {
    case CRZ_STATE_STRUCK: return STRUCK;
    case CRZ_STATE_LODGED: return LODGED;
    case CRZ_STATE_PENALTY_DUE: return PENALTY;
    default: return WORKED;
    }
}

static size_t due_place(uint32_t due, uint32_t day)
{
    if (due < day)
        return due + 20 < day ? LONG_AGO : EARLIER;
    return due - day < 2 ? TODAY + due - day : LATER;
}

static void count_full(size_t state, uint64_t full)
{
    fulls[state][FEN_BELOW] += full + 1 == CRZ_DEPOSIT;
    fulls[state][JUST_DEPOSIT] += full == CRZ_DEPOSIT;
    fulls[state][FEN_ABOVE] += full == CRZ_DEPOSIT + 1;
    fulls[state][LEAST_FULL] += full == 100;
    fulls[state][MOST_FULL] += full == 1530000000;
}

/* what an account is asked for, lot by lot */
struct party {
    unsigned penalties, cheap, dear;
    uint64_t wanted;
};

static struct party parties[CRZ_ACCOUNT_COUNT + 1];

static void count_party_in(size_t state, const struct crz_receipt_fields *receipt)
{
    struct party *p = &parties[state == PENALTY ? receipt->seller : receipt->buyer];
    uint64_t full = crz_full_payment(receipt);
    if (state == PENALTY) {
        p->penalties++;
        p->wanted += CRZ_PENALTY;
        return;
    }
    count_full(state, full);
    p->cheap += full < CRZ_DEPOSIT;
    p->dear += full > CRZ_DEPOSIT;
    p->wanted += full > CRZ_DEPOSIT ? full - CRZ_DEPOSIT : 0;
}

/* a lot of a morning */
static void count_lot(const uint8_t *image, uint32_t lot)
{
    struct crz_receipt_fields receipt = crz_get_receipt(image, lot);
    size_t state = worked_place(receipt.state), due = due_place(receipt.due, crz_get_day(image));
    uint32_t asked = state == PENALTY ? receipt.seller : receipt.buyer;
    left[BID] += receipt.state == CRZ_STATE_BID_STANDS;
    left[SETTLED] += receipt.state == CRZ_STATE_SETTLED && due <= TODAY;
    left[FIRST_PAID] += receipt.state == CRZ_STATE_FIRST_PAID && due <= TODAY;
    if (state == WORKED)
        return;
    dues[state][due]++;
    if (due > TODAY)
        return;
    ends[state][LOT_1] += lot == 1;
    ends[state][LOT_128] += lot == CRZ_RECEIPT_COUNT;
    ends[state][OF_FIRST] += asked == 1;
    ends[state][OF_LAST] += asked == CRZ_ACCOUNT_COUNT;
    count_party_in(state, &receipt);
}

static void count_money(const uint8_t *image, uint32_t account)
{
    const struct party *p = &parties[account];
    struct crz_account_fields money = crz_get_account(image, account);
    if (p->wanted == 0)
        return;
    moneys[JUST_ENOUGH] += money.free == p->wanted;
    moneys[FEN_SHORT] += money.free + 1 == p->wanted;
    moneys[FEN_OVER] += money.free == p->wanted + 1;
    moneys[NO_FREE] += money.free == 0;
    moneys[FROZEN_WOULD_DO] += money.free < p->wanted && money.free + money.frozen >= p->wanted;
    roles[CHEAP_AND_DEAR] += p->cheap > 0 && p->dear > 0;
    roles[SEVERAL_DEAR] += p->dear > 1;
    roles[SEVERAL_PENALTIES] += p->penalties > 1;
    roles[BOTH_ROLES] += p->penalties > 0 && p->dear > 0;
    sums[MOST_PAYMENTS] += p->wanted == UINT64_C(195200000000);
    sums[MOST_PENALTIES] += p->penalties == CRZ_RECEIPT_COUNT;
}

static void count_lots(const uint8_t *image)
{
    uint32_t lot;
    memset(parties, 0, sizeof parties);
    for (lot = 1; lot <= CRZ_RECEIPT_COUNT; lot++)
        count_lot(image, lot);
}

static void count_morning(const struct made_figures *made)
{
    uint32_t account;
    uint64_t together = 0;
    count_lots(made->image);
    for (account = 1; account <= CRZ_ACCOUNT_COUNT; account++) {
        count_money(made->image, account);
        together |= crz_get_figure(made->figures, account);
    }
    zones[together == 0 ? NO_FIGURE : SOME_FIGURE]++;
}

static void count_afternoon(const uint8_t *image)
{
    uint32_t lot;
    int due = 0;
    for (lot = 1; lot <= CRZ_RECEIPT_COUNT; lot++) {
        struct crz_receipt_fields receipt = crz_get_receipt(image, lot);
        due |= worked_place(receipt.state) != WORKED && receipt.due <= crz_get_day(image);
    }
    zones[DUE_IN_AFTERNOON] += due != 0;
}

void count_figures(const struct made_figures *made)
{
    count_number(made);
    if (made->number == CRZ_NUMBER_BAD_IMAGE)
        count_bad_image(made);
    if (made->number != CRZ_NUMBER_ACCEPTED)
        return;
    if (crz_get_phase(made->image) == CRZ_PHASE_MORNING)
        count_morning(made);
    else
        count_afternoon(made->image);
}

/* ── What was reached ──────────────────────────────────────────────────────────────────────────── */

static void show_lengths(void)
{
    printf("%-22s %6s %6s %6s %6s %6s %6s %6s\n", "bytes for figures", "0", "1", "few", "767", "768", "769", "more");
    show_row("0", lengths[ACCEPTED], "----+++");
    show_row("1 on a valid image", lengths[SHORT_ON_VALID], "++++---");
    show_row("1 on one that is not", lengths[SHORT_ON_BAD], "++++---");
    show_row("2", lengths[BAD_IMAGE], "----+++");
    printf("%-22s %6s %6s %6s %6s\n", "image of a 2", "short", "long", "morn", "aftern");
    show_row("images", bad_images, "++++");
}

static void show_due_days(void)
{
    unsigned i;
    printf("%-22s %6s %6s %6s %6s %6s\n", "lots, by due day", "long", "past", "today", "tomorr", "later");
    for (i = 0; i < WORKED; i++)
        show_row(worked_names[i], dues[i], "+++++");
}

static void show_ends(void)
{
    unsigned i;
    printf("%-22s %6s %6s %6s %6s\n", "due lots", "lot 1", "lot128", "acct 1", "acct96");
    for (i = 0; i < WORKED; i++)
        show_row(worked_names[i], ends[i], "++++");
}

static void show_due_lots(void)
{
    show_due_days();
    show_ends();
    printf("%-22s %6s %6s %6s %6s %6s\n", "full of a due trade", "dep.-1", "dep.", "dep.+1", "least", "most");
    show_row(worked_names[STRUCK], fulls[STRUCK], "+++++");
    show_row(worked_names[LODGED], fulls[LODGED], "+++++");
    printf("%-22s %6s %6s %6s\n", "lots that are left", "bid", "settl.", "first");
    show_row("due day past or none", left, "+++");
}

void show_figures(void)
{
    show_lengths();
    show_due_lots();
    printf("%-22s %6s %6s %6s %6s\n", "accounts, asked for", "cheap+", "dear++", "pen.++", "both");
    show_row("several lots", roles, "++++");
    printf("%-22s %6s %6s %6s %6s %6s\n", "free money, of asked", "just", "-1", "+1", "none", "frozen");
    show_row("accounts", moneys, "+++++");
    printf("%-22s %6s %6s\n", "largest sums", "trades", "penal.");
    show_row("accounts", sums, "++");
    printf("%-22s %6s %6s %6s\n", "zones", "none", "some", "aftern");
    show_row("with figures, or due", zones, "+++");
}
