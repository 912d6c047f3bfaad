#include "image.h"

#include "../include/crz_records.h"
#include "digits.h"
#include "report.h"

/* A call of no bytes is refused as a call only where the image is valid. */
int image_valid(const uint8_t image[CRZ_IMAGE_LENGTH])
{
    uint8_t copy[CRZ_IMAGE_LENGTH], answer[CRZ_ANSWER_LENGTH];
    memcpy(copy, image, sizeof copy);
    return crz_call(copy, sizeof copy, NULL, 0, answer, sizeof answer) == CRZ_NUMBER_BAD_CALL;
}

/* ── Lots with another paid ────────────────────────────────────────────────────────────────────── */

/* What the lot would have as paid by the rule of this version. */
static uint32_t paid_by_rule(const struct crz_receipt_fields *r)
{
    return r->state == CRZ_STATE_FIRST_PAID ? (uint32_t)crz_paid_of_rest(r, r->confirmed) : r->paid;
}

static void add(uint8_t *sum, uint64_t fen)
{
    crz_put_u64(sum, crz_get_u64(sum) + fen);
}

/* Changes frozen money and total with paid: what is not paid is still held from the buyer. */
static void move_held(uint8_t *image, const struct crz_receipt_fields *r, uint32_t paid)
{
    if (!crz_is_place(r->buyer, CRZ_ACCOUNT_COUNT))
        return;
    add(image + crz_account_offset(r->buyer) + CRZ_ACCOUNT_FROZEN, (uint64_t)r->paid - paid);
    add(image + CRZ_IMAGE_TOTAL, (uint64_t)r->paid - paid);
}

/* Whether the image would be valid with every paid by the rule, its money as it is or following that. */
static int valid_by_rule(const uint8_t *image, int money_follows)
{
    uint8_t copy[CRZ_IMAGE_LENGTH];
    memcpy(copy, image, sizeof copy);
    for (uint32_t n = 1; n <= CRZ_RECEIPT_COUNT; n++) {
        struct crz_receipt_fields r = crz_get_receipt(image, n);
        crz_put_u32(copy + crz_receipt_offset(n) + CRZ_RECEIPT_PAID, paid_by_rule(&r));
        if (money_follows)
            move_held(copy, &r, paid_by_rule(&r));
    }
    return image_valid(copy);
}

static void name_lot(const char *path, uint32_t lot, const struct crz_receipt_fields *r)
{
    report(path,
        "lot %u has %s fen as paid of its rest, where its confirmed invoices make it %s fen (rest %s x confirmed %s / "
        "full payment %s)",
        lot, grouped(r->paid).text, grouped(paid_by_rule(r)).text, grouped(crz_rest_payment(r)).text,
        grouped(r->confirmed).text, grouped(crz_full_payment(r)).text);
}

/* Every lot with another paid. */
static void name_lots(const char *path, const uint8_t *image)
{
    for (uint32_t n = 1; n <= CRZ_RECEIPT_COUNT; n++) {
        struct crz_receipt_fields r = crz_get_receipt(image, n);
        if (r.paid != paid_by_rule(&r))
            name_lot(path, n, &r);
    }
}

/* Whether a lot has more as paid than the rule gives, as no version pays. */
static int any_above(const uint8_t *image)
{
    int above = 0;
    for (uint32_t n = 1; n <= CRZ_RECEIPT_COUNT; n++) {
        struct crz_receipt_fields r = crz_get_receipt(image, n);
        above |= r.paid > paid_by_rule(&r);
    }
    return above;
}

/* ── Messages ──────────────────────────────────────────────────────────────────────────────────── */

/* Paying what is missing here would move money that no call moved; the version that paid so far can go on. */
static int report_unfinished(const char *path, const struct layout *older)
{
    return report(path,
        "these trades were paid in part by the rule of versions before 3.0.0; no zone was made; finish each of them "
        "with %s, invoices confirmed up to the full payment, then export and import again",
        older != NULL ? older->finished : "version 2.0.0");
}

int image_report(const char *path, const uint8_t image[CRZ_IMAGE_LENGTH], const struct layout *older)
{
    int balanced = valid_by_rule(image, 1);
    if (balanced || valid_by_rule(image, 0))
        name_lots(path, image);
    if (balanced && !any_above(image))
        return report_unfinished(path, older);
    return report(path, "is no valid image of a zone; no zone was made");
}
