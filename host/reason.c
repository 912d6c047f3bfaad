#include "reason.h"

#include <inttypes.h>
#include <stdarg.h>
#include <stdio.h>

#include "digits.h"
#include "report.h"
#include "words.h"

/* A refused call, and what it found. */
struct seen {
    const struct kind_words *kind;
    struct crz_call_fields call;
    struct crz_receipt_fields lot;
    struct crz_account_fields account;
    const uint8_t *record;
    const uint8_t *image;
    char *words;
    size_t length; /* of the words so far */
};

static const char *const reasons[] = {
    [CRZ_NUMBER_ACCEPTED] = "accepted",
    [CRZ_NUMBER_SHORT_ANSWER] = "the answer buffer is too short",
    [CRZ_NUMBER_BAD_IMAGE] = "the image is not valid",
    [CRZ_NUMBER_BAD_CALL] = "the call record is not valid",
    [CRZ_NUMBER_OUT_OF_RANGE] = "a field is out of range",
    [CRZ_NUMBER_WRONG_PHASE] = "not in this phase of the day",
    [CRZ_NUMBER_WRONG_STATE] = "the receipt is not in a state for this call",
    [CRZ_NUMBER_WRONG_PARTY] = "not the party that may make this call",
    [CRZ_NUMBER_NOT_ABOVE] = "not above the standing bid",
    [CRZ_NUMBER_NO_ASK] = "the contract has no ask",
    [CRZ_NUMBER_NOTHING_TO_PAY] = "price, basis and premium leave nothing to pay",
    [CRZ_NUMBER_NO_MONEY] = "not enough free money",
    [CRZ_NUMBER_OVER_LIMIT] = "the zone's total would pass its limit",
    [CRZ_NUMBER_OVER_INVOICE] = "the invoice is above what is left to invoice",
    [CRZ_NUMBER_BAD_TABLE] = "the table of calls does not fit its buffers",
};

const char *reason_of(uint32_t number)
{
    return number < sizeof reasons / sizeof reasons[0] ? reasons[number]
                                                       : "for a reason that this program does not know";
}

static void say(struct seen *seen, const char *format, ...) REPORT_FORMAT(2, 3);

static void say(struct seen *seen, const char *format, ...)
{
    va_list values;
    size_t room = REASON_LENGTH - seen->length;
    va_start(values, format);
    int added = vsnprintf(seen->words + seen->length, room, format, values);
    va_end(values);
    if (added > 0)
        seen->length += (size_t)added < room ? (size_t)added : room - 1;
}

static void say_range(struct seen *seen, const struct field_words *field, int64_t value)
{
    const char *before = seen->length > 0 ? "; " : "";
    if (value < field->least || value > field->most)
        say(seen, "%s%s %s is not in %s to %s", before, field->word, grouped_signed(value).text,
            grouped_signed(field->least).text, grouped_signed(field->most).text);
    else if (value % field->step != 0)
        say(seen, "%s%s %" PRId64 " is no multiple of %" PRId64, before, field->word, value, field->step);
}

/* Every field that is out of range; a quote may carry 0 in place of a price. */
static void out_of_range(struct seen *seen)
{
    for (unsigned f = 0; f < FIELDS; f++) {
        int64_t value = call_field(seen->record, f);
        int ask_away = seen->call.kind == CRZ_KIND_QUOTE && f == FIELD_YUAN && value == 0;
        if (seen->kind->takes & 1u << f && !ask_away)
            say_range(seen, &fields[f], value);
    }
}

static void wrong_phase(struct seen *seen)
{
    uint32_t day = crz_get_day(seen->image);
    if (seen->call.kind == CRZ_KIND_MORNING_CLOSE)
        say(seen, "it is the afternoon of day %s, its morning close is made; day-close comes next", grouped(day).text);
    else if (crz_get_phase(seen->image) == CRZ_PHASE_MORNING)
        say(seen, "it is the morning of day %s; morning-close comes first", grouped(day).text);
    else
        say(seen, "day %s is the last day of a zone", grouped(day).text);
}

static void states_asked(struct seen *seen)
{
    const char *before = "";
    for (unsigned s = 0; s < STATES; s++)
        if (seen->kind->states & 1u << s) {
            say(seen, "%s'%s'", before, state_words[s]);
            before = " or ";
        }
}

static void wrong_state(struct seen *seen)
{
    uint32_t receipt = seen->call.receipt;
    if (seen->call.kind == CRZ_KIND_REGISTER)
        say(seen, "receipt %u is registered already, its owner is %u", receipt, seen->lot.owner);
    else if (seen->lot.owner == 0)
        say(seen, "receipt %u is not registered", receipt);
    else if (seen->kind->states & 1u << seen->lot.state && seen->lot.pending != 0)
        say(seen, "an invoice of %s fen waits for its confirmation, which pays %s fen; %s fen are left to invoice",
            grouped(seen->lot.pending).text, grouped(crz_next_part(&seen->lot)).text,
            grouped(crz_left_to_invoice(&seen->lot)).text);
    else if (seen->kind->states & 1u << seen->lot.state)
        say(seen, "no invoice waits for a confirmation; %s fen are left to invoice",
            grouped(crz_left_to_invoice(&seen->lot)).text);
    else {
        say(seen, "lot %u is in state '%s', %s needs ", receipt, state_words[seen->lot.state], seen->kind->word);
        states_asked(seen);
    }
}

static void wrong_party(struct seen *seen)
{
    uint32_t asked = seen->kind->party == PARTY_BUYER   ? seen->lot.buyer
                     : seen->kind->party == PARTY_OWNER ? seen->lot.owner
                                                        : seen->lot.seller;
    if (seen->kind->party == PARTY_NOT_SELLER)
        say(seen, "account %u is the seller of lot %u", seen->call.account, seen->call.receipt);
    else
        say(seen, "account %u is not %s of lot %u, who is %u", seen->call.account, party_words(seen->kind->party),
            seen->call.receipt, asked);
}

static void no_money(struct seen *seen)
{
    uint64_t needed = seen->call.kind == CRZ_KIND_TAKE_OUT ? seen->call.amount : CRZ_DEPOSIT;
    say(seen, "account %u has %s fen free, %s needs %s fen", seen->call.account, grouped(seen->account.free).text,
        seen->kind->word, grouped(needed).text);
}

static void nothing_to_pay(struct seen *seen)
{
    int limit = seen->call.kind == CRZ_KIND_LIMIT_BID;
    int64_t price = limit ? (int64_t)seen->call.amount : crz_get_ask(seen->image, seen->lot.contract);
    int64_t sum = price + seen->lot.basis + seen->lot.premium;
    say(seen, "%s %s, basis %s and premium %s make %s yuan per tonne, at least 1 is needed", limit ? "price" : "ask",
        grouped_signed(price).text, grouped_signed(seen->lot.basis).text, grouped_signed(seen->lot.premium).text,
        grouped_signed(sum).text);
}

static void over_invoice(struct seen *seen)
{
    say(seen, "the invoice is %s fen, %s fen are left to invoice", grouped(seen->call.amount).text,
        grouped(crz_left_to_invoice(&seen->lot)).text);
}

static void over_limit(struct seen *seen)
{
    say(seen, "the zone holds %s fen, with %s fen more it would pass %s", grouped(crz_get_total(seen->image)).text,
        grouped(seen->call.amount).text, grouped(CRZ_TOTAL_MOST).text);
}

static void not_above(struct seen *seen)
{
    say(seen, "the bid is %s, the standing bid %s yuan per tonne", grouped(seen->call.amount).text,
        grouped(seen->lot.price).text);
}

void reason_seen(uint32_t number, const uint8_t *call, const uint8_t *image, char words[REASON_LENGTH])
{
    struct seen seen = {.kind = kind_of(call[CRZ_CALL_KIND]),
        .call = crz_get_call(call),
        .record = call,
        .image = image,
        .words = words};
    words[0] = '\0';
    if (seen.kind == NULL)
        return;
    seen.lot = crz_get_receipt(image, seen.call.receipt);
    seen.account = crz_get_account(image, seen.call.account);
    switch (number) {
    case CRZ_NUMBER_OUT_OF_RANGE: out_of_range(&seen); break;
    case CRZ_NUMBER_WRONG_PHASE: wrong_phase(&seen); break;
    case CRZ_NUMBER_WRONG_STATE: wrong_state(&seen); break;
    case CRZ_NUMBER_WRONG_PARTY: wrong_party(&seen); break;
    case CRZ_NUMBER_NOT_ABOVE: not_above(&seen); break;
    case CRZ_NUMBER_NO_ASK: say(&seen, "contract %u has no ask today; a quote sets one", seen.lot.contract); break;
    case CRZ_NUMBER_NOTHING_TO_PAY: nothing_to_pay(&seen); break;
    case CRZ_NUMBER_NO_MONEY: no_money(&seen); break;
    case CRZ_NUMBER_OVER_LIMIT: over_limit(&seen); break;
    case CRZ_NUMBER_OVER_INVOICE: over_invoice(&seen); break;
    default: break;
    }
}
