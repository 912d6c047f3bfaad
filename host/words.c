#include "words.h"

#include <string.h>

#include "digits.h"
#include "report.h"

const struct field_words fields[FIELDS] = {
    [FIELD_ACCOUNT] = {"account", "account", CRZ_CALL_ACCOUNT, 1, 0, 255, 1, CRZ_ACCOUNT_COUNT, 1},
    [FIELD_RECEIPT] = {"receipt", "receipt", CRZ_CALL_RECEIPT, 1, 0, 255, 1, CRZ_RECEIPT_COUNT, 1},
    [FIELD_CONTRACT] = {"contract", "contract", CRZ_CALL_CONTRACT, 1, 0, 255, 1, CRZ_CONTRACT_COUNT, 1},
    [FIELD_DAYS] = {"days", "days", CRZ_CALL_DAYS, 1, 0, 255, CRZ_DAYS_LEAST, CRZ_DAYS_MOST, 1},
    [FIELD_FEN] = {"fen", "fen", CRZ_CALL_AMOUNT, 8, 0, INT64_MAX, CRZ_AMOUNT_LEAST, CRZ_AMOUNT_MOST, 1},
    [FIELD_YUAN] = {"yuan", "yuan", CRZ_CALL_AMOUNT, 8, 0, INT64_MAX, CRZ_PRICE_LEAST, CRZ_PRICE_MOST, CRZ_PRICE_STEP},
    [FIELD_BASIS] = {"basis-yuan", "basis_yuan", CRZ_CALL_BASIS, 4, INT32_MIN, INT32_MAX, CRZ_BASIS_LEAST,
        CRZ_BASIS_MOST, 1},
    [FIELD_KILOGRAMS] = {"kilograms", "kilograms", CRZ_CALL_WEIGHT, 4, 0, UINT32_MAX, CRZ_WEIGHT_LEAST, CRZ_WEIGHT_MOST,
        1},
    [FIELD_PREMIUM] = {"premium", "premium_yuan", CRZ_CALL_BASIS, 4, INT32_MIN, INT32_MAX, CRZ_PREMIUM_LEAST,
        CRZ_PREMIUM_MOST, 1},
};

const char *const state_words[STATES] = {
    [CRZ_STATE_IDLE] = "idle",
    [CRZ_STATE_LISTED] = "listed",
    [CRZ_STATE_BID_STANDS] = "bid stands",
    [CRZ_STATE_STRUCK] = "struck",
    [CRZ_STATE_LODGED] = "lodged",
    [CRZ_STATE_SETTLED] = "settled",
    [CRZ_STATE_FIRST_PAID] = "first paid",
    [CRZ_STATE_PENALTY_DUE] = "penalty due",
};

#define BIT(n) (1u << (n))
#define MONEY (BIT(FIELD_ACCOUNT) | BIT(FIELD_FEN))
#define LOT (BIT(FIELD_ACCOUNT) | BIT(FIELD_RECEIPT))
#define TERMS (BIT(FIELD_CONTRACT) | BIT(FIELD_DAYS) | BIT(FIELD_BASIS))
#define WEIGHT_AND_PREMIUM (BIT(FIELD_KILOGRAMS) | BIT(FIELD_PREMIUM))
#define OPEN (BIT(CRZ_STATE_LISTED) | BIT(CRZ_STATE_BID_STANDS))

/* What scripts from before there were premiums do not name: left out, it is 0. */
#define OPTIONAL BIT(FIELD_PREMIUM)

static const struct kind_words kinds[] = {
    {"pay-in", CRZ_KIND_PAY_IN, MONEY, PARTY_ANYONE, 0, "adds to the account's free money"},
    {"take-out", CRZ_KIND_TAKE_OUT, MONEY, PARTY_ANYONE, 0, "takes from the account's free money"},
    {"register", CRZ_KIND_REGISTER, LOT | WEIGHT_AND_PREMIUM, PARTY_ANYONE, 0,
        "gives a new receipt its owner, and the premium or discount that it keeps"},
    {"list", CRZ_KIND_LIST, LOT | TERMS, PARTY_OWNER, BIT(CRZ_STATE_IDLE), "offers the receipt for sale"},
    {"withdraw-listing", CRZ_KIND_WITHDRAW_LISTING, LOT, PARTY_SELLER, OPEN, "ends the offer and a bid on it"},
    {"limit-bid", CRZ_KIND_LIMIT_BID, LOT | BIT(FIELD_YUAN), PARTY_NOT_SELLER, OPEN,
        "bids a price; struck at once where the ask is not above it"},
    {"market-bid", CRZ_KIND_MARKET_BID, LOT, PARTY_NOT_SELLER, OPEN, "bids the ask and is struck at once"},
    {"withdraw-bid", CRZ_KIND_WITHDRAW_BID, LOT, PARTY_BUYER, BIT(CRZ_STATE_BID_STANDS), "takes a standing bid back"},
    {"quote", CRZ_KIND_QUOTE, BIT(FIELD_CONTRACT) | BIT(FIELD_YUAN), PARTY_HOST, 0,
        "sets a contract's ask and strikes the bids that reach it, listed highest first; yuan 0 takes the ask away"},
    {"lodge", CRZ_KIND_LODGE, LOT, PARTY_SELLER, BIT(CRZ_STATE_STRUCK), "hands the receipt in for delivery"},
    {"morning-close", CRZ_KIND_MORNING_CLOSE, 0, PARTY_HOST, 0,
        "settles the lots that are due, or finds who defaulted"},
    {"first-payment", CRZ_KIND_FIRST_PAYMENT, LOT, PARTY_SELLER, BIT(CRZ_STATE_SETTLED),
        "pays 80 percent to the seller"},
    {"invoice", CRZ_KIND_INVOICE, LOT | BIT(FIELD_FEN), PARTY_SELLER, BIT(CRZ_STATE_FIRST_PAID),
        "sends the buyer an invoice, at most what is left of the full payment"},
    {"confirm", CRZ_KIND_CONFIRM, LOT, PARTY_BUYER, BIT(CRZ_STATE_FIRST_PAID),
        "confirms the pending invoice; pays what the confirmed sum then gives of the rest, less what was paid"},
    {"day-close", CRZ_KIND_DAY_CLOSE, 0, PARTY_HOST, 0,
        "ends listings and bids that were not struck; the next day begins"},
};

enum { KINDS = sizeof kinds / sizeof kinds[0] };

const struct kind_words *kind_of(uint32_t kind)
{
    return kind >= 1 && kind <= KINDS ? &kinds[kind - 1] : NULL;
}

const char *party_words(enum party party)
{
    static const char *const words[] = {
        [PARTY_ANYONE] = "any account",
        [PARTY_OWNER] = "the owner",
        [PARTY_SELLER] = "the seller",
        [PARTY_BUYER] = "the buyer",
        [PARTY_NOT_SELLER] = "any account but the seller",
        [PARTY_HOST] = "the host",
    };
    return words[party];
}

const struct kind_words *kind_named(const char *word)
{
    for (size_t i = 0; i < KINDS; i++)
        if (strcmp(kinds[i].word, word) == 0)
            return &kinds[i];
    return NULL;
}

void nearest_kind(struct nearest *nearest)
{
    for (size_t i = 0; i < KINDS; i++)
        nearest_try(nearest, kinds[i].word);
}

/* The kind, or NULL with a message that names the nearest one. */
static const struct kind_words *kind_asked(const char *word, char *message, size_t length)
{
    const struct kind_words *kind = kind_named(word);
    struct nearest nearest = nearest_to(word);
    char hint[64];
    if (kind != NULL)
        return kind;
    nearest_kind(&nearest);
    nearest_words(&nearest, hint, sizeof hint);
    snprintf(message, length, "%s is no kind of call%s", quoted(word).text, hint);
    return NULL;
}

/* The nearest of the fields that the kind takes. */
static void name_field(const char *word, const struct kind_words *kind, char *message, size_t length)
{
    struct nearest nearest = nearest_to(word);
    char hint[64];
    for (unsigned f = 0; f < FIELDS; f++)
        if (kind->takes & BIT(f))
            nearest_try(&nearest, fields[f].word);
    nearest_words(&nearest, hint, sizeof hint);
    snprintf(message, length, "%s: %s is no field%s", kind->word, quoted(word).text, hint);
}

/* FIELDS where no field has that name. */
static unsigned field_named(const char *word)
{
    unsigned f = 0;
    while (f < FIELDS && strcmp(fields[f].word, word) != 0)
        f++;
    return f;
}

static int put_field(uint8_t *call, const struct field_words *field, const char *word, char *message, size_t length)
{
    int64_t number;
    const char *fault = digits_read(word, &number);
    if (fault != NULL) {
        snprintf(message, length, "%s: %s %s", field->word, quoted(word).text, fault);
        return -1;
    }
    if (number < field->holds_least || number > field->holds_most) {
        snprintf(message, length, "%s: %s does not fit; it takes %s to %s", field->word, grouped_signed(number).text,
            grouped_signed(field->least).text, grouped_signed(field->most).text);
        return -1;
    }
    crz_put_bytes(call + field->offset, field->width, (uint64_t)number);
    return 0;
}

/* Whether the word is a field that is still to come; a message where it is not. */
static int field_awaited(const struct kind_words *kind, unsigned left, const char *word, char *message, size_t length)
{
    unsigned f = field_named(word);
    if (f < FIELDS && left & BIT(f))
        return 1;
    if (f == FIELDS)
        name_field(word, kind, message, length);
    else
        snprintf(message, length, "%s: %s %s", kind->word, quoted(word).text,
            kind->takes & BIT(f) ? "is there twice" : "is not one of its fields");
    return 0;
}

static int none_missing(const struct kind_words *kind, unsigned left, char *message, size_t length)
{
    unsigned f = 0;
    while (f < FIELDS && !(left & ~OPTIONAL & BIT(f)))
        f++;
    if (f < FIELDS)
        snprintf(message, length, "%s: '%s' is missing", kind->word, fields[f].word);
    return f == FIELDS;
}

static int put_fields(
    uint8_t *call, const struct kind_words *kind, char **words, int count, char *message, size_t length)
{
    unsigned left = kind->takes;
    for (int i = 0; i < count; i += 2) {
        if (!field_awaited(kind, left, words[i], message, length))
            return -1;
        if (i + 1 == count) {
            snprintf(message, length, "%s: %s has no value", kind->word, quoted(words[i]).text);
            return -1;
        }
        unsigned f = field_named(words[i]);
        if (put_field(call, &fields[f], words[i + 1], message, length) != 0)
            return -1;
        left &= ~BIT(f);
    }
    return none_missing(kind, left, message, length) ? 0 : -1;
}

int call_from_words(uint8_t call[CRZ_CALL_LENGTH], char **words, int count, char *message, size_t message_length)
{
    const struct kind_words *kind = kind_asked(count > 0 ? words[0] : "", message, message_length);
    memset(call, 0, CRZ_CALL_LENGTH);
    if (kind == NULL)
        return -1;
    call[CRZ_CALL_KIND] = kind->kind;
    return put_fields(call, kind, words + 1, count - 1, message, message_length);
}

int64_t call_field(const uint8_t call[CRZ_CALL_LENGTH], enum field field)
{
    if (field == FIELD_BASIS || field == FIELD_PREMIUM)
        return crz_get_i32(call + CRZ_CALL_BASIS);
    return (int64_t)crz_get_bytes(call + fields[field].offset, fields[field].width);
}

void print_call(const uint8_t call[CRZ_CALL_LENGTH])
{
    const struct kind_words *kind = kind_of(call[CRZ_CALL_KIND]);
    if (kind == NULL) {
        printf("kind %u", call[CRZ_CALL_KIND]);
        return;
    }
    fputs(kind->word, stdout);
    for (unsigned f = 0; f < FIELDS; f++)
        if (kind->takes & BIT(f))
            printf(" %s %s", fields[f].word, grouped_signed(call_field(call, f)).text);
}

void print_kind(const struct kind_words *kind)
{
    printf("  %s", kind->word);
    for (unsigned f = 0; f < FIELDS; f++)
        if (kind->takes & BIT(f))
            printf(BIT(f) & OPTIONAL ? " [%s N]" : " %s N", fields[f].word);
    printf("\n      %s: %s\n", party_words(kind->party), kind->what);
}

void print_ranges(unsigned takes)
{
    for (unsigned f = 0; f < FIELDS; f++) {
        if (!(takes & BIT(f)))
            continue;
        printf("  %-10s  %s to %s", fields[f].word, grouped_signed(fields[f].least).text,
            grouped_signed(fields[f].most).text);
        if (fields[f].step > 1)
            printf(" in steps of %s", grouped_signed(fields[f].step).text);
        if (BIT(f) & OPTIONAL)
            printf("; 0 where it is left out");
        putchar('\n');
    }
}

void print_kinds(void)
{
    for (size_t i = 0; i < KINDS; i++)
        print_kind(&kinds[i]);
}
