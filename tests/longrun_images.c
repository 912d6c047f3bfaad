/* Made-up images, from those that a run has reached. */
#include "longrun.h"

/* a field of the image, or of each record of a table */
struct field {
    unsigned offset, size, stride, records;
};

static const struct field header_fields[] = {{CRZ_IMAGE_ACCOUNT_COUNT, 2, 0, 1}, {CRZ_IMAGE_RECEIPT_COUNT, 2, 0, 1},
    {CRZ_IMAGE_CONTRACT_COUNT, 2, 0, 1}, {CRZ_IMAGE_DAY, 2, 0, 1}, {CRZ_IMAGE_ACCOUNT_OFFSET, 4, 0, 1},
    {CRZ_IMAGE_CONTRACT_OFFSET, 4, 0, 1}, {CRZ_IMAGE_RECEIPT_OFFSET, 4, 0, 1}, {CRZ_IMAGE_PHASE, 1, 0, 1},
    {CRZ_IMAGE_ZEROS, 1, 0, 1}, {CRZ_IMAGE_ZEROS + 1, 1, 0, 1}, {CRZ_IMAGE_ZEROS + 2, 1, 0, 1},
    {CRZ_IMAGE_TOTAL, 8, 0, 1}, {CRZ_IMAGE_ASKS, 4, CRZ_ASK_LENGTH, CRZ_CONTRACT_COUNT}};

static const struct field account_fields[] = {
    {CRZ_IMAGE_ACCOUNTS + CRZ_ACCOUNT_FREE, 8, CRZ_ACCOUNT_LENGTH, CRZ_ACCOUNT_COUNT},
    {CRZ_IMAGE_ACCOUNTS + CRZ_ACCOUNT_FROZEN, 8, CRZ_ACCOUNT_LENGTH, CRZ_ACCOUNT_COUNT}};

static const struct field receipt_fields[] = {{CRZ_RECEIPT_OWNER, 1, 0, 1}, {CRZ_RECEIPT_STATE, 1, 0, 1},
    {CRZ_RECEIPT_SELLER, 1, 0, 1}, {CRZ_RECEIPT_BUYER, 1, 0, 1}, {CRZ_RECEIPT_CONTRACT, 1, 0, 1},
    {CRZ_RECEIPT_DAYS, 1, 0, 1}, {CRZ_RECEIPT_DUE, 2, 0, 1}, {CRZ_RECEIPT_WEIGHT, 4, 0, 1},
    {CRZ_RECEIPT_BASIS, 4, 0, 1}, {CRZ_RECEIPT_PRICE, 4, 0, 1}, {CRZ_RECEIPT_PENDING, 4, 0, 1},
    {CRZ_RECEIPT_CONFIRMED, 4, 0, 1}, {CRZ_RECEIPT_PAID, 4, 0, 1}, {CRZ_RECEIPT_PREMIUM, 4, 0, 1}};

static uint8_t *account_in(uint8_t *image, uint64_t number)
{
    return image + crz_account_offset((uint32_t)number);
}

static void add_to(uint8_t *sum, uint64_t added)
{
    crz_put_u64(sum, crz_get_u64(sum) + added);
}

/* puts another value into the field; returns what was added, modulo 2^64 */
static uint64_t displace(uint8_t *at, unsigned size, uint64_t other)
{
    uint64_t old = crz_get_bytes(at, size), now;
    switch (below(6)) {
    case 0: now = old + 1; break;
    case 1: now = old - 1; break;
    case 2: now = percent(50) ? old + 5 * between(1, 3) : old - 5; break;
    case 3: now = edge_value(); break;
    default: now = other;
    }
    crz_put_bytes(at, size, now);
    if (crz_get_bytes(at, size) == old)
        crz_put_bytes(at, size, old + 1);
    return crz_get_bytes(at, size) - old;
}

/* ── Receipts ──────────────────────────────────────────────────────────────────────────────────── */

static void freeze_held(uint8_t *image)
{
    unsigned n;
    for (n = 1; n <= CRZ_RECEIPT_COUNT; n++) {
        struct crz_receipt_fields receipt = crz_get_receipt(image, n);
        if (receipt.buyer >= 1 && receipt.buyer <= CRZ_ACCOUNT_COUNT)
            add_to(account_in(image, receipt.buyer) + CRZ_ACCOUNT_FROZEN, crz_held_money(&receipt));
    }
}

static void add_up(uint8_t *image)
{
    uint64_t total = 0;
    unsigned n;
    for (n = 1; n <= CRZ_ACCOUNT_COUNT; n++)
        total += crz_get_account(image, n).free + crz_get_account(image, n).frozen;
    crz_put_u64(image + CRZ_IMAGE_TOTAL, total);
}

/* makes the sums fit a damaged receipt again, so that its own fields alone decide */
static void rebook(uint8_t *image)
{
    unsigned n;
    for (n = 1; n <= CRZ_ACCOUNT_COUNT; n++)
        crz_put_u64(account_in(image, n) + CRZ_ACCOUNT_FROZEN, 0);
    freeze_held(image);
    add_up(image);
}

/* what leaves nothing to pay for a tonne, or one or two yuan, mostly where that is a premium; else an end of the range
 * of premiums or a number beside it */
static uint64_t premium_limit(const struct crz_receipt_fields *receipt)
{
    int64_t least = (int64_t)below(3) - receipt->price - receipt->basis;
    int64_t end = percent(50) ? CRZ_PREMIUM_LEAST : CRZ_PREMIUM_MOST;
    if (least >= CRZ_PREMIUM_LEAST && least <= CRZ_PREMIUM_MOST && percent(80))
        return (uint64_t)least;
    return (uint64_t)end - 1 + below(3);
}

/* a value at the field's own limit, or just beyond */
static uint64_t limit_of(const struct crz_receipt_fields *receipt, unsigned offset)
{
    uint64_t full = crz_full_payment(receipt), confirmed = receipt->confirmed, beyond = below(2);
    switch (offset) {
    case CRZ_RECEIPT_DUE: return CRZ_DUE_MOST + beyond;
    case CRZ_RECEIPT_BASIS: return beyond - receipt->price - (uint64_t)receipt->premium;
    case CRZ_RECEIPT_PREMIUM: return premium_limit(receipt);
    case CRZ_RECEIPT_PENDING: return full - confirmed + beyond;
    case CRZ_RECEIPT_CONFIRMED: return percent(30) ? 0 : full - receipt->pending - 1 + beyond;
    case CRZ_RECEIPT_PAID: return crz_paid_of_rest(receipt, confirmed) - 1 + below(3);
    default: return percent(50) ? receipt->seller : receipt->buyer;
    }
}

enum { RECEIPT_FIELDS = sizeof receipt_fields / sizeof receipt_fields[0], INVOICE_FIELDS = 3 };

/* any field; the premium, the last, more often, for few lots have a price near which it decides; of a lot that is paid
 * in parts often one of the three before it, which say how far that has gone */
static const struct field *some_receipt_field(uint32_t state)
{
    const struct field *premium = &receipt_fields[RECEIPT_FIELDS - 1];
    uint64_t draw = below(100);
    if (draw < 20)
        return premium;
    if (state == CRZ_STATE_FIRST_PAID && draw < 60)
        return premium - 1 - below(INVOICE_FIELDS);
    return &receipt_fields[below(RECEIPT_FIELDS)];
}

/* what is paid follows another field of the lot, so that it is not what decides */
static void fit_paid(uint8_t *image, uint64_t number)
{
    struct crz_receipt_fields receipt = crz_get_receipt(image, (uint32_t)number);
    uint8_t *paid = image + crz_receipt_offset((uint32_t)number) + CRZ_RECEIPT_PAID;
    crz_put_bytes(paid, 4, crz_paid_of_rest(&receipt, receipt.confirmed));
}

static void damage_receipt(uint8_t *image, uint64_t number)
{
    struct crz_receipt_fields receipt = crz_get_receipt(image, (uint32_t)number);
    const struct field *f = some_receipt_field(receipt.state);
    uint64_t value = percent(80) ? limit_of(&receipt, f->offset) : random_word();
    displace(image + crz_receipt_offset((uint32_t)number) + f->offset, f->size, value);
    if (receipt.state == CRZ_STATE_FIRST_PAID && f->offset != CRZ_RECEIPT_PAID && percent(70))
        fit_paid(image, number);
    if (percent(60))
        rebook(image);
}

/* ── Sums and header ───────────────────────────────────────────────────────────────────────────── */

/* a free or frozen sum; often the total or another account takes the difference, which a sum modulo 2^64 would not see
 */
static void damage_account(uint8_t *image)
{
    const struct field *f = &account_fields[below(2)];
    size_t offset = f->offset + (size_t)below(plan.accounts) * f->stride;
    uint64_t added = displace(image + offset, f->size, random_word());
    uint8_t *other = account_in(image, some_account()) + CRZ_ACCOUNT_FREE;
    if (percent(40))
        add_to(image + CRZ_IMAGE_TOTAL, added);
    else if (percent(50))
        add_to(other, 0 - added);
}

static void damage_header(uint8_t *image)
{
    const struct field *f = &header_fields[below(sizeof header_fields / sizeof header_fields[0])];
    size_t offset = f->offset + (size_t)below(f->records) * f->stride;
    uint64_t other = percent(50) ? random_word() : 5 * between(1, CRZ_PRICE_MOST / 5);
    displace(image + offset, f->size, other);
}

/* any bit, those of receipts that nobody has registered too */
static void flip_bit(uint8_t *image)
{
    size_t place = (size_t)below(CRZ_IMAGE_LENGTH);
    image[place] = (uint8_t)(image[place] ^ 1u << below(8));
}

/* now and then any receipt, so that one that nobody has registered gets a field too, and now and then the next one
 * whose lot is paid in parts */
static uint64_t some_receipt(const uint8_t *image)
{
    uint64_t most = percent(15) ? CRZ_RECEIPT_COUNT : plan.receipts, number = between(1, most), next = number;
    int in_parts = percent(30);
    while (in_parts && next < most && crz_get_receipt(image, (uint32_t)next).state != CRZ_STATE_FIRST_PAID)
        next++;
    return in_parts ? next : number;
}

uint64_t damage_image(uint8_t *image)
{
    uint64_t draw = below(100), number = some_receipt(image);
    if (draw < 60) {
        damage_receipt(image, number);
        return number;
    }
    if (draw < 75)
        damage_account(image);
    else if (draw < 90)
        damage_header(image);
    else
        flip_bit(image);
    return 0;
}

/* ── What lots hold ────────────────────────────────────────────────────────────────────────────── */

static uint64_t held_by(const uint8_t *image, uint32_t lot)
{
    struct crz_receipt_fields receipt = crz_get_receipt(image, lot);
    return crz_held_money(&receipt);
}

void move_held(uint8_t *image, uint32_t lot, enum held_to to)
{
    struct crz_receipt_fields receipt = crz_get_receipt(image, lot);
    uint32_t before = receipt.buyer == 1 ? CRZ_ACCOUNT_COUNT : receipt.buyer - 1;
    uint8_t *frozen = account_in(image, receipt.buyer) + CRZ_ACCOUNT_FROZEN;
    uint8_t *const places[HELD_PLACES] = {account_in(image, receipt.seller) + CRZ_ACCOUNT_FROZEN,
        account_in(image, before) + CRZ_ACCOUNT_FROZEN, account_in(image, receipt.buyer) + CRZ_ACCOUNT_FREE};
    uint64_t held = crz_held_money(&receipt);
    add_to(frozen, 0 - held);
    add_to(places[to], held);
}

/* a lot of the drawn state, else any that holds money; 0 where none does */
static uint32_t some_holder(const uint8_t *image)
{
    uint32_t lot = (uint32_t)between(1, CRZ_RECEIPT_COUNT), found = 0, i;
    uint64_t state = between(CRZ_STATE_BID_STANDS, CRZ_STATE_FIRST_PAID);
    for (i = 0; i < CRZ_RECEIPT_COUNT; i++, lot = lot % CRZ_RECEIPT_COUNT + 1)
        if (held_by(image, lot) != 0 && (found == 0 || crz_get_receipt(image, lot).state == state))
            found = lot;
    return found;
}

uint64_t misplace_held(uint8_t *image)
{
    int last = percent(20) && held_by(image, CRZ_RECEIPT_COUNT) != 0;
    uint32_t lot = last ? CRZ_RECEIPT_COUNT : some_holder(image);
    enum held_to to = (enum held_to)below(HELD_PLACES);
    if (lot != 0)
        move_held(image, lot, to);
    return lot;
}

/* ── Valid images that no run reaches ──────────────────────────────────────────────────────────── */

/* a price beside the other, at most one step away, within the range */
static uint32_t price_near(uint32_t price)
{
    uint64_t near = price - CRZ_PRICE_STEP + CRZ_PRICE_STEP * below(3);
    return near >= CRZ_PRICE_LEAST && near <= CRZ_PRICE_MOST ? (uint32_t)near : price;
}

uint64_t stray_image(uint8_t *image)
{
    uint64_t number = between(1, plan.receipts);
    struct crz_receipt_fields receipt = crz_get_receipt(image, (uint32_t)number);
    uint16_t due = (uint16_t)between(CRZ_DUE_LEAST, crz_get_day(image));
    switch (receipt.state) {
    case CRZ_STATE_BID_STANDS:
        crz_put_u32(image + crz_ask_offset(receipt.contract), price_near(receipt.price));
        return number;
    case CRZ_STATE_STRUCK:
    case CRZ_STATE_LODGED:
    case CRZ_STATE_PENALTY_DUE:
        crz_put_u16(image + crz_receipt_offset((uint32_t)number) + CRZ_RECEIPT_DUE, due);
        return number;
    default: return 0;
    }
}

uint64_t fill_to_limit(uint8_t *image)
{
    uint64_t total = crz_get_total(image), wanted = CRZ_TOTAL_MOST - 1 + below(3);
    if (wanted < total)
        wanted = total;
    add_to(account_in(image, some_account()) + CRZ_ACCOUNT_FREE, wanted - total);
    crz_put_u64(image + CRZ_IMAGE_TOTAL, wanted);
    return 0;
}

/* ── Lots that are due ─────────────────────────────────────────────────────────────────────────── */

/* price, basis, premium and weight; the full payment is a fen below the deposit, the deposit, a fen above, the least,
 * the most, or any */
struct terms {
    uint32_t price;
    int32_t basis, premium;
    uint32_t weight;
};

static const struct terms due_terms[] = {{50000, -446, 0, 1009}, {45000, 0, 5000, 1000}, {35000, 461, 0, 1410},
    {5, -4, 0, 1000}, {CRZ_PRICE_MOST, CRZ_BASIS_MOST, CRZ_PREMIUM_MOST, CRZ_WEIGHT_MOST}, {15000, 300, -200, 41237}};

enum { DEAREST = 4, DUE_TERMS = sizeof due_terms / sizeof due_terms[0] };

/* often today; a day beside it, some time ago, long ago or later */
static uint16_t some_due(uint32_t day)
{
    uint64_t draw = below(100), past = between(1, day);
    if (draw < 40)
        return (uint16_t)day;
    if (draw < 55)
        return (uint16_t)(day + 1);
    if (draw < 65)
        return (uint16_t)(day + CRZ_DAYS_MOST);
    return (uint16_t)(draw < 80 && day > 1 ? day - 1 : past);
}

/* the receipt's owner, and with a penalty due its terms, follow from the state */
static void put_due_lot(
    uint8_t *image, uint32_t lot, uint64_t state, const uint64_t *parties, const struct terms *terms)
{
    uint8_t *record = image + crz_receipt_offset(lot);
    int bought = state == CRZ_STATE_SETTLED || state == CRZ_STATE_FIRST_PAID, penalty = state == CRZ_STATE_PENALTY_DUE;
    memset(record, 0, CRZ_RECEIPT_LENGTH);
    record[CRZ_RECEIPT_OWNER] = (uint8_t)parties[bought];
    record[CRZ_RECEIPT_STATE] = (uint8_t)state;
    record[CRZ_RECEIPT_SELLER] = (uint8_t)parties[0];
    record[CRZ_RECEIPT_BUYER] = (uint8_t)parties[1];
    record[CRZ_RECEIPT_CONTRACT] = (uint8_t)(penalty ? 0 : 1);
    crz_put_u16(record + CRZ_RECEIPT_DUE, some_due(crz_get_day(image)));
    crz_put_u32(record + CRZ_RECEIPT_WEIGHT, terms->weight);
    crz_put_i32(record + CRZ_RECEIPT_BASIS, penalty ? 0 : terms->basis);
    crz_put_u32(record + CRZ_RECEIPT_PRICE, penalty ? 0 : terms->price);
    crz_put_i32(record + CRZ_RECEIPT_PREMIUM, terms->premium);
}

/* seller and buyer; the last account too, though few plans have it */
static void draw_parties(uint64_t *parties)
{
    uint64_t seller = percent(15) ? CRZ_ACCOUNT_COUNT : some_account(), buyer = some_account();
    if (seller == buyer)
        buyer = seller == CRZ_ACCOUNT_COUNT ? 1 : CRZ_ACCOUNT_COUNT;
    parties[0] = seller;
    parties[1] = buyer;
}

/* few lots, the first and the last more often than others */
static void put_due_lots(uint8_t *image)
{
    uint64_t parties[2], left = between(1, 12);
    while (left-- > 0) {
        uint64_t lot = percent(20) ? 1 + (CRZ_RECEIPT_COUNT - 1) * below(2) : between(1, CRZ_RECEIPT_COUNT);
        uint64_t state = percent(85) ? between(CRZ_STATE_STRUCK, CRZ_STATE_LODGED) : CRZ_STATE_SETTLED + below(2);
        const struct terms *terms = &due_terms[below(DUE_TERMS)];
        draw_parties(parties);
        put_due_lot(image, (uint32_t)lot, percent(25) ? CRZ_STATE_PENALTY_DUE : state, parties, terms);
    }
}

/* every lot between two accounts and today, at the most that it can cost */
static void put_all_due(uint8_t *image)
{
    uint64_t state = percent(30) ? CRZ_STATE_PENALTY_DUE : between(CRZ_STATE_STRUCK, CRZ_STATE_LODGED), parties[2];
    uint32_t lot;
    draw_parties(parties);
    for (lot = 1; lot <= CRZ_RECEIPT_COUNT; lot++) {
        put_due_lot(image, lot, state, parties, &due_terms[DEAREST]);
        crz_put_u16(image + crz_receipt_offset(lot) + CRZ_RECEIPT_DUE, (uint16_t)crz_get_day(image));
    }
}

/* free money of an account that is asked for this sum: just that, a fen beside it, nothing, or as it was */
static uint64_t some_free(uint64_t wanted, uint64_t otherwise)
{
    uint64_t draw = below(6);
    if (draw < 3)
        return wanted - 1 + draw;
    return draw == 3 ? 0 : otherwise;
}

static void fit_free(uint8_t *image)
{
    uint32_t account;
    for (account = 1; account <= CRZ_ACCOUNT_COUNT; account++) {
        uint8_t *free = account_in(image, account) + CRZ_ACCOUNT_FREE;
        uint64_t had = crz_get_u64(free), wanted;
        crz_put_u64(free, 0);
        wanted = plain_shortfall_of(image, account);
        crz_put_u64(free, wanted == 0 ? had : some_free(wanted, had));
    }
}

uint64_t due_image(uint8_t *image)
{
    if (percent(75))
        image[CRZ_IMAGE_PHASE] = CRZ_PHASE_MORNING;
    if (percent(4))
        put_all_due(image);
    else
        put_due_lots(image);
    fit_free(image);
    rebook(image);
    return 0;
}
