/* Calls made at random: sensible ones, which carry lots through all states, and wild ones. */
#include "longrun.h"

/* at the prices of these two the full payment is the least and the most that there can be */
enum { CHEAP_CONTRACT = 8, DEAR_CONTRACT = 7 };

/* ── Random numbers: xorshift with 64 bits ─────────────────────────────────────────────────────── */

static uint64_t random_state;

void random_start(uint64_t seed)
{
    random_state = seed;
}

uint64_t random_word(void)
{
    random_state ^= random_state << 13;
    random_state ^= random_state >> 7;
    random_state ^= random_state << 17;
    return random_state * UINT64_C(0x2545f4914f6cdd1d);
}

uint64_t below(uint64_t n)
{
    return (random_word() >> 11) % n;
}

uint64_t between(uint64_t low, uint64_t high)
{
    return low + below(high - low + 1);
}

int percent(unsigned n)
{
    return below(100) < n;
}

/* ── Fields ────────────────────────────────────────────────────────────────────────────────────── */

void ask_for(struct request *q, enum crz_kind kind, uint64_t account, uint64_t receipt, uint64_t amount)
{
    memset(q, 0, sizeof *q);
    q->image_len = CRZ_IMAGE_LENGTH;
    q->call_len = CRZ_CALL_LENGTH;
    q->answer_len = CRZ_ANSWER_LENGTH;
    crz_put_plain_call(q->call, kind, (uint32_t)account, (uint32_t)receipt, amount);
}

uint64_t some_account(void)
{
    return between(1, plan.accounts);
}

/* mostly the party named */
static uint64_t party(uint32_t account)
{
    return percent(92) && account != 0 ? account : some_account();
}

/* all eight, some more often, so that quotes meet bids */
static unsigned some_contract(void)
{
    uint64_t draw = below(100);
    if (draw < 20)
        return CHEAP_CONTRACT;
    if (draw < 30)
        return DEAR_CONTRACT;
    return (unsigned)(draw < 65 ? between(1, 3) : between(1, CRZ_CONTRACT_COUNT));
}

/* prices of a contract lie near each other */
static uint64_t near_price(unsigned contract)
{
    switch (contract) {
    case CHEAP_CONTRACT: return percent(40) ? CRZ_PRICE_LEAST : 5 * between(1, 10);
    case DEAR_CONTRACT: return percent(60) ? CRZ_PRICE_MOST : CRZ_PRICE_MOST - 5 * below(10);
    default: return 14000 + 500 * (uint64_t)contract + 5 * below(20);
    }
}

/* often an end of the range, one beyond it or none, else any */
static int32_t some_premium(void)
{
    static const int32_t edges[] = {CRZ_PREMIUM_LEAST - 1, CRZ_PREMIUM_LEAST, CRZ_PREMIUM_LEAST, 0, CRZ_PREMIUM_MOST,
        CRZ_PREMIUM_MOST, CRZ_PREMIUM_MOST + 1};
    if (percent(60))
        return edges[below(sizeof edges / sizeof edges[0])];
    return CRZ_PREMIUM_LEAST + (int32_t)below(CRZ_PREMIUM_MOST - CRZ_PREMIUM_LEAST + 1);
}

/* the basis of the cheap contract makes up for the premium: often a tonne costs nothing at the least price, or one or
 * two yuan */
static uint64_t near_basis(unsigned contract, int32_t premium)
{
    uint64_t makes_up = 0 - (uint64_t)premium;
    switch (contract) {
    case CHEAP_CONTRACT: return percent(60) ? makes_up - CRZ_PRICE_LEAST + below(3) : makes_up - 50 + below(80);
    case DEAR_CONTRACT: return percent(60) ? CRZ_BASIS_MOST : CRZ_BASIS_MOST - below(10);
    default: return below(801) - 400;
    }
}

static uint64_t some_basis(unsigned contract, int32_t premium)
{
    static const int32_t edges[] = {CRZ_BASIS_LEAST - 1, CRZ_BASIS_LEAST, CRZ_BASIS_MOST, CRZ_BASIS_MOST + 1};
    uint64_t draw = below(100);
    if (draw < 2)
        return (uint64_t)edges[below(4)];
    return draw < 5 ? (uint64_t)CRZ_BASIS_LEAST + below(CRZ_BASIS_MOST) : near_basis(contract, premium);
}

static uint64_t some_weight(void)
{
    static const uint64_t edges[] = {999, 1000, 1000, 1000, 1001, 41237, 59999, 60000, 60000, 60000, 60001};
    return percent(50) ? edges[below(sizeof edges / sizeof edges[0])] : between(39000, 43000);
}

/* the ends of the range of amounts, and one fen beyond */
static uint64_t limit_amount(void)
{
    static const uint64_t edges[] = {0, CRZ_AMOUNT_MOST - 1, CRZ_AMOUNT_MOST, CRZ_AMOUNT_MOST + 1};
    return edges[below(4)];
}

/* ── Money ─────────────────────────────────────────────────────────────────────────────────────── */

/* every third account is rich, the others often lack the full payment; a full treasury takes large sums, to meet its
 * limit */
static uint64_t some_pay_in(uint64_t account)
{
    uint64_t most = account % 3 == 1 ? 2000000000 : 40000000;
    return plan.full_treasury && percent(90) ? CRZ_AMOUNT_MOST : between(1, most);
}

/* what brings the total to its limit or one fen beside it, where one pay-in can */
static uint64_t pay_in_to_limit(const uint8_t *image, uint64_t otherwise)
{
    uint64_t amount = CRZ_TOTAL_MOST - crz_get_total(image) - 1 + below(3);
    return amount >= 1 && amount <= CRZ_AMOUNT_MOST ? amount : otherwise;
}

static void pay_in(struct request *q, const uint8_t *image, uint64_t account)
{
    uint64_t amount = some_pay_in(account);
    if (percent(4))
        amount = limit_amount();
    else if (plan.full_treasury && percent(20))
        amount = pay_in_to_limit(image, amount);
    ask_for(q, CRZ_KIND_PAY_IN, account, 0, amount);
}

static void take_out(struct request *q, const uint8_t *image, uint64_t account)
{
    uint64_t free = crz_get_account(image, (uint32_t)account).free, amount = free;
    if (percent(50))
        amount = 1 + below(free + 2);
    if (amount == 0 || amount > CRZ_AMOUNT_MOST)
        amount = CRZ_AMOUNT_MOST;
    ask_for(q, CRZ_KIND_TAKE_OUT, account, 0, percent(4) ? limit_amount() : amount);
}

/* brings the free money that the next close tests to its limit or one fen beside it */
static void meet_limit(struct request *q, const uint8_t *image, const struct crz_receipt_fields *receipt)
{
    int penalty = receipt->state == CRZ_STATE_PENALTY_DUE;
    uint32_t account = penalty ? receipt->seller : receipt->buyer;
    uint64_t full = crz_full_payment(receipt), above = full > CRZ_DEPOSIT ? full - CRZ_DEPOSIT : 1;
    uint64_t limit = penalty ? CRZ_PENALTY : above, wanted = limit - 1 + below(3), free;
    if (account < 1 || account > CRZ_ACCOUNT_COUNT)
        account = 1;
    free = crz_get_account(image, account).free;
    if (free < wanted)
        ask_for(q, CRZ_KIND_PAY_IN, account, 0, wanted - free);
    else
        ask_for(q, CRZ_KIND_TAKE_OUT, account, 0, free - wanted);
}

/* ── Lots ──────────────────────────────────────────────────────────────────────────────────────── */

/* now and then the receipt that can cost most */
static void put_premium_and_weight(struct request *q)
{
    int32_t premium = some_premium();
    uint64_t weight = some_weight();
    int dearest = percent(20);
    crz_put_i32(q->call + CRZ_CALL_BASIS, dearest ? CRZ_PREMIUM_MOST : premium);
    crz_put_bytes(q->call + CRZ_CALL_WEIGHT, 4, dearest ? CRZ_WEIGHT_MOST : weight);
}

static void list_or_register(struct request *q, const struct crz_receipt_fields *receipt, uint64_t number)
{
    unsigned contract = some_contract();
    uint64_t account = party(receipt->owner);
    int unregistered = receipt->owner == 0;
    int registers = percent(4) ? !unregistered : unregistered;
    ask_for(q, registers ? CRZ_KIND_REGISTER : CRZ_KIND_LIST, account, number, 0);
    if (registers) {
        put_premium_and_weight(q);
        return;
    }
    q->call[CRZ_CALL_CONTRACT] = (uint8_t)contract;
    q->call[CRZ_CALL_DAYS] = (uint8_t)below(4);
    crz_put_bytes(q->call + CRZ_CALL_BASIS, 4, some_basis(contract, receipt->premium));
}

/* a bid, often by the standing buyer or near the standing price; or a withdrawal */
static void bid_or_withdraw(struct request *q, const struct crz_receipt_fields *receipt, uint64_t number)
{
    uint64_t standing = receipt->price, price = near_price(receipt->contract);
    uint32_t buyer = receipt->buyer;
    uint64_t bidder = buyer != 0 && percent(30) ? buyer : some_account(), draw = below(100);
    if (standing != 0 && percent(70))
        price = standing - 5 + 5 * below(6);
    if (price < 5)
        price = 5;
    if (draw < 65)
        ask_for(q, CRZ_KIND_LIMIT_BID, bidder, number, price);
    else if (draw < 80)
        ask_for(q, CRZ_KIND_MARKET_BID, bidder, number, 0);
    else if (draw < 90)
        ask_for(q, CRZ_KIND_WITHDRAW_BID, party(buyer), number, 0);
    else
        ask_for(q, CRZ_KIND_WITHDRAW_LISTING, party(receipt->seller), number, 0);
}

/* an invoice in parts, the last one exact, now and then one fen over, or all but the last fen */
static uint64_t some_invoice(uint64_t left)
{
    uint64_t draw = below(100);
    if (draw < 30)
        return left;
    if (draw < 40)
        return left + 1 + below(2);
    if (draw < 45)
        return left > 1 ? left - 1 : 1;
    if (draw < 60)
        return 1 + below(3);
    return draw < 64 ? limit_amount() : 1 + below(left + 1);
}

static void invoice_or_confirm(struct request *q, const struct crz_receipt_fields *receipt, uint64_t number)
{
    uint64_t full = crz_full_payment(receipt), confirmed = receipt->confirmed;
    uint64_t left = full > confirmed ? full - confirmed : 1;
    uint64_t invoice = some_invoice(left);
    int pending = receipt->pending != 0;
    if (pending ? percent(95) : percent(3))
        ask_for(q, CRZ_KIND_CONFIRM, party(receipt->buyer), number, 0);
    else
        ask_for(q, CRZ_KIND_INVOICE, party(receipt->seller), number, invoice);
}

/* now and then the step is one of another state */
void step_lot(struct request *q, const uint8_t *image, uint64_t number)
{
    const struct crz_receipt_fields lot = crz_get_receipt(image, (uint32_t)number), *receipt = &lot;
    uint64_t state = percent(3) ? below(8) : receipt->state;
    switch (state) {
    case CRZ_STATE_IDLE: list_or_register(q, receipt, number); return;
    case CRZ_STATE_LISTED:
    case CRZ_STATE_BID_STANDS: bid_or_withdraw(q, receipt, number); return;
    case CRZ_STATE_STRUCK:
        if (percent(40))
            ask_for(q, CRZ_KIND_LODGE, party(receipt->seller), number, 0);
        else
            bid_or_withdraw(q, receipt, number);
        return;
    case CRZ_STATE_SETTLED: ask_for(q, CRZ_KIND_FIRST_PAYMENT, party(receipt->seller), number, 0); return;
    case CRZ_STATE_FIRST_PAID: invoice_or_confirm(q, receipt, number); return;
    default:
        if (percent(60))
            meet_limit(q, image, receipt);
        else
            pay_in(q, image, party(receipt->buyer));
    }
}

/* ── All lots ──────────────────────────────────────────────────────────────────────────────────── */

void close_phase(struct request *q, const uint8_t *image)
{
    int morning = crz_get_phase(image) == CRZ_PHASE_MORNING;
    if (percent(5))
        morning = !morning;
    ask_for(q, morning ? CRZ_KIND_MORNING_CLOSE : CRZ_KIND_DAY_CLOSE, 0, 0, 0);
}

static void quote(struct request *q)
{
    unsigned contract = some_contract();
    ask_for(q, CRZ_KIND_QUOTE, 0, 0, percent(30) ? 0 : near_price(contract));
    q->call[CRZ_CALL_CONTRACT] = (uint8_t)contract;
}

void sensible_call(struct request *q, const uint8_t *image)
{
    uint64_t draw = below(1000);
    if (draw < plan.closes)
        close_phase(q, image);
    else if (draw < plan.closes + 50)
        quote(q);
    else if (draw < plan.closes + 100)
        pay_in(q, image, some_account());
    else if (draw < plan.closes + 130)
        take_out(q, image, some_account());
    else
        step_lot(q, image, between(1, plan.receipts));
}

/* ── Wild calls ────────────────────────────────────────────────────────────────────────────────── */

uint64_t edge_value(void)
{
    static const uint64_t edges[] = {0, 1, 2, 3, 4, 5, 7, 8, 9, 16, 95, 96, 97, 127, 128, 129, 255, 999, 1000, 4999,
        5000, 5001, 29999, 30000, 30001, 30003, 30004, 50000, 50001, 60000, 60001, 199995, 200000, 200001, 200005,
        CRZ_DEPOSIT, 0x7fffffff, 0x80000000, 0xffffffff, UINT64_C(0x100000005), UINT64_C(999999999999),
        UINT64_C(1000000000000), UINT64_C(1000000000001), UINT64_C(999999999999999), UINT64_C(1000000000000000),
        UINT64_C(1000000000000001), UINT64_C(0x7fffffffffffffff), UINT64_C(0x8000000000000000)};
    uint64_t value = percent(20) ? 0 : edges[below(sizeof edges / sizeof edges[0])];
    return percent(30) ? 0 - value : value;
}

/* one field of a sensible call gets a value from the edges of the ranges */
static void edge_field(struct request *q)
{
    static const struct {
        uint8_t offset, size;
    } fields[] = {{CRZ_CALL_KIND, 1}, {CRZ_CALL_ACCOUNT, 1}, {CRZ_CALL_RECEIPT, 1}, {CRZ_CALL_CONTRACT, 1},
        {CRZ_CALL_DAYS, 1}, {CRZ_CALL_ZEROS, 1}, {CRZ_CALL_ZEROS + 1, 1}, {CRZ_CALL_ZEROS + 2, 1}, {CRZ_CALL_AMOUNT, 8},
        {CRZ_CALL_BASIS, 4}, {CRZ_CALL_WEIGHT, 4}};
    size_t i = (size_t)below(sizeof fields / sizeof fields[0]);
    crz_put_bytes(q->call + fields[i].offset, fields[i].size, edge_value());
}

static void random_record(struct request *q)
{
    size_t i;
    for (i = 0; i < CRZ_CALL_LENGTH; i++)
        q->call[i] = (uint8_t)random_word();
    q->call[CRZ_CALL_KIND] &= 15;
}

/* one beside the named length, or any up to SPARE more */
static size_t other_length(size_t named)
{
    return percent(50) ? named - 1 + 2 * (size_t)below(2) : (size_t)below(named + SPARE);
}

static void displace(struct request *q)
{
    size_t place;
    switch (below(8)) {
    case 0: random_record(q); break;
    case 1:
        place = (size_t)below(CRZ_CALL_LENGTH);
        q->call[place] = (uint8_t)random_word();
        break;
    case 2: q->call_len = other_length(CRZ_CALL_LENGTH); break;
    case 3: q->answer_len = percent(50) ? CRZ_ANSWER_LENGTH - 1 : (size_t)below(CRZ_ANSWER_LENGTH); break;
    case 4: q->image_len = other_length(CRZ_IMAGE_LENGTH); break;
    case 5: q->answer_len = CRZ_ANSWER_LENGTH + (size_t)below(SPARE + 1); break;
    default: edge_field(q);
    }
}

/* one thing out of place, or two */
void wild_call(struct request *q, const uint8_t *image)
{
    sensible_call(q, image);
    displace(q);
    if (percent(30))
        displace(q);
}
