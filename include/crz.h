/*
 * crz.h - the cotton receipt zone
 *
 * A zone is an image of CRZ_IMAGE_LENGTH bytes that the host keeps. Each entry takes byte buffers that the host lends
 * for the time of the call: a pointer and a length. No two buffers of one call may share a byte. A buffer of length 0
 * may come with any pointer, NULL too. The library keeps no state of its own and allocates nothing: calls on different
 * images may run at the same time on different threads, calls on one image one at a time, and nobody reads an image
 * while a call is made on it. crz_shortfalls only reads its image: several threads may ask at once. On x86-64 each entry
 * takes less than 16 KB of the caller's stack, whatever the kind and the image.
 *
 * Numbers in the image, the calls, the answers and the figures are little-endian; i32 is two's complement. Accounts,
 * receipts and contracts count from 1, and a lot has the number of its receipt. crz_records.h reads and writes the
 * records.
 *
 * Each family of names has one prefix:
 *
 *   CRZ_NUMBER_     what an entry returns                 CRZ_IMAGE_      offsets in the image
 *   CRZ_KIND_       kinds of call                         CRZ_ACCOUNT_    offsets in an account
 *   CRZ_OUTCOME_    outcomes in the entries of an answer  CRZ_RECEIPT_    offsets in a receipt
 *   CRZ_STATE_      states of a lot                       CRZ_CALL_       offsets in a call record
 *   CRZ_PHASE_      phases of the day                     CRZ_ANSWER_     offsets in an answer
 *                                                         CRZ_ENTRY_      offsets in an entry of an answer
 *
 * All of these are enumerators. Lengths in bytes (_LENGTH), counts (_COUNT), ends of ranges (_LEAST, _MOST) and fixed
 * sums are macros.
 */
#ifndef CRZ_H
#define CRZ_H

#include <stddef.h>
#include <stdint.h>

#ifdef __cplusplus
extern "C" {
#endif

/* ── Version of this interface ─────────────────────────────────────────────────────────────────── */

#define CRZ_VERSION_MAJOR 3
#define CRZ_VERSION_MINOR 2
#define CRZ_VERSION_PATCH 1
#define CRZ_VERSION "3.2.1"

/* ── Lengths and counts ────────────────────────────────────────────────────────────────────────── */

#define CRZ_IMAGE_LENGTH 6208
#define CRZ_CALL_LENGTH 24
#define CRZ_ANSWER_LENGTH 1040
#define CRZ_ACCOUNT_LENGTH 16
#define CRZ_ASK_LENGTH 4
#define CRZ_RECEIPT_LENGTH 36
#define CRZ_ENTRY_LENGTH 8
#define CRZ_FIGURE_LENGTH 8
#define CRZ_FIGURES_LENGTH 768 /* a figure for each account */

#define CRZ_ACCOUNT_COUNT 96
#define CRZ_RECEIPT_COUNT 128
#define CRZ_CONTRACT_COUNT 8
#define CRZ_ENTRY_COUNT 128 /* at most, in one answer */
#define CRZ_TABLE_COUNT 32 /* calls at most, in one table */

/* ── Ranges and fixed sums ─────────────────────────────────────────────────────────────────────── */

#define CRZ_PRICE_LEAST 5 /* yuan per tonne */
#define CRZ_PRICE_MOST 200000
#define CRZ_PRICE_STEP 5 /* a price is a multiple of this */
#define CRZ_BASIS_LEAST (-50000) /* yuan per tonne */
#define CRZ_BASIS_MOST 50000
#define CRZ_PREMIUM_LEAST (-5000) /* yuan per tonne */
#define CRZ_PREMIUM_MOST 5000
#define CRZ_WEIGHT_LEAST 1000 /* kilograms */
#define CRZ_WEIGHT_MOST 60000
#define CRZ_AMOUNT_LEAST 1 /* fen, of one call */
#define CRZ_AMOUNT_MOST UINT64_C(1000000000000)
#define CRZ_DAYS_LEAST 0 /* D, the days from the strike to the delivery */
#define CRZ_DAYS_MOST 3
#define CRZ_DAY_LEAST 1
#define CRZ_DAY_MOST 30000
#define CRZ_DUE_LEAST 1
#define CRZ_DUE_MOST 30003
#define CRZ_TOTAL_MOST UINT64_C(1000000000000000) /* fen in the whole zone */

#define CRZ_DEPOSIT 5000000 /* fen, frozen from the buyer for a bid and until the lot settles */
#define CRZ_PENALTY 5000000 /* fen, what a seller who did not lodge owes the buyer */
#define CRZ_FIRST_PAYMENT_PERCENT 80 /* of the full payment */

/* ── What is returned ──────────────────────────────────────────────────────────────────────────── */

/* Of a call the rows 1 to 13 are tested in this order, and its number is that of the first one that applies. */
enum crz_number {
    CRZ_NUMBER_ACCEPTED = 0,
    CRZ_NUMBER_SHORT_ANSWER = 1,    /* answer buffer under 1,040 bytes, or figures under 768; nothing is written */
    CRZ_NUMBER_BAD_IMAGE = 2,       /* image not 6,208 bytes or not valid */
    CRZ_NUMBER_BAD_CALL = 3,        /* call record not of 24 bytes, of no known kind, or with a field too many */
    CRZ_NUMBER_OUT_OF_RANGE = 4,    /* field out of range */
    CRZ_NUMBER_WRONG_PHASE = 5,     /* morning close in an afternoon; day close in a morning or on day 30,000 */
    CRZ_NUMBER_WRONG_STATE = 6,     /* receipt or lot in another state; invoice already pending; nothing to confirm */
    CRZ_NUMBER_WRONG_PARTY = 7,     /* another account than the kind asks for; a bid by the seller */
    CRZ_NUMBER_NOT_ABOVE = 8,       /* limit price not above the standing bid */
    CRZ_NUMBER_NO_ASK = 9,          /* market bid, no ask */
    CRZ_NUMBER_NOTHING_TO_PAY = 10, /* price (limit bid) or ask (market bid) + basis + premium below 1 */
    CRZ_NUMBER_NO_MONEY = 11,       /* free money under the amount (take out) or the deposit (bids) */
    CRZ_NUMBER_OVER_LIMIT = 12,     /* total would pass 10^15 fen */
    CRZ_NUMBER_OVER_INVOICE = 13,   /* invoice above full payment less confirmed */
    CRZ_NUMBER_BAD_TABLE = 14       /* of crz_table alone, by the lengths of its buffers; nothing is read or written */
};

/* ── Call: 24 bytes. Fields that a kind does not use are zero. ─────────────────────────────────── */

enum crz_call_layout {
    CRZ_CALL_KIND = 0,     /* u8 */
    CRZ_CALL_ACCOUNT = 1,  /* u8, 1 to 96 */
    CRZ_CALL_RECEIPT = 2,  /* u8, 1 to 128 */
    CRZ_CALL_CONTRACT = 3, /* u8, 1 to 8 */
    CRZ_CALL_DAYS = 4,     /* u8, 0 to 3 */
    CRZ_CALL_ZEROS = 5,    /* three zero bytes */
    CRZ_CALL_AMOUNT = 8,   /* u64: fen, or a price in yuan per tonne */
    CRZ_CALL_BASIS = 16,   /* i32: a basis, or a premium where a receipt is registered; yuan per tonne */
    CRZ_CALL_WEIGHT = 20   /* u32: kilograms */
};

/* The fields that a kind uses; who may make it, where not any account; the state that it needs. */
enum crz_kind {
    CRZ_KIND_PAY_IN = 1,           /* account, amount */
    CRZ_KIND_TAKE_OUT = 2,         /* account, amount */
    CRZ_KIND_REGISTER = 3,         /* account, receipt, premium as basis, weight; an unregistered receipt */
    CRZ_KIND_LIST = 4,             /* account, receipt, contract, days, basis; the owner; idle */
    CRZ_KIND_WITHDRAW_LISTING = 5, /* account, receipt; the seller; listed or bid stands */
    CRZ_KIND_LIMIT_BID = 6,        /* account, receipt, price; not the seller; listed or bid stands */
    CRZ_KIND_MARKET_BID = 7,       /* account, receipt; not the seller; listed or bid stands */
    CRZ_KIND_WITHDRAW_BID = 8,     /* account, receipt; the buyer; bid stands */
    CRZ_KIND_QUOTE = 9,            /* contract, price or 0; the host */
    CRZ_KIND_LODGE = 10,           /* account, receipt; the seller; struck */
    CRZ_KIND_MORNING_CLOSE = 11,   /* no field; the host; in a morning */
    CRZ_KIND_FIRST_PAYMENT = 12,   /* account, receipt; the seller; settled */
    CRZ_KIND_INVOICE = 13,         /* account, receipt, amount; the seller; first paid, no invoice pending */
    CRZ_KIND_CONFIRM = 14,         /* account, receipt; the buyer; first paid, an invoice pending */
    CRZ_KIND_DAY_CLOSE = 15        /* no field; the host; in an afternoon, but not of day 30,000 */
};

/* ── Answer: 1,040 bytes. A refusal fills the number alone. ────────────────────────────────────── */

enum crz_answer_layout {
    CRZ_ANSWER_NUMBER = 0, /* u8 */
    CRZ_ANSWER_PHASE = 1,  /* u8: phase after the call */
    CRZ_ANSWER_COUNT = 2,  /* u16: entries */
    CRZ_ANSWER_OFFSET = 4, /* u32: offset of the entries, CRZ_ANSWER_ENTRIES */
    CRZ_ANSWER_TOTAL = 8,  /* u64: total after the call, fen */
    CRZ_ANSWER_ENTRIES = 16
};

enum crz_entry_layout {
    CRZ_ENTRY_LOT = 0,     /* u8 */
    CRZ_ENTRY_OUTCOME = 1, /* u8 */
    CRZ_ENTRY_FROM = 2,    /* u8: account */
    CRZ_ENTRY_TO = 3,      /* u8: account, 0 for nobody */
    CRZ_ENTRY_NUMBER = 4   /* u32 */
};

/*
 * An entry's accounts, `from` and `to`, are buyer and seller, with these exceptions: lodged, invoiced, seller default
 * and penalty have the seller in `from` and the buyer in `to`; registered, listed and ended have the owner, who is the
 * seller of a listing, in `from` and 0 in `to`. Where money passes, it passes from `from` to `to`.
 *
 * Entries stand in this order: both closes have their lots ascending; a quote has each lot that it strikes once, the
 * highest price first, and lots at one price ascending. Pay-ins and take-outs have no entry; each kind not named here
 * has one, for its own lot. A bid that another bid replaces, and a bid on a listing that ends, have no entry of their
 * own.
 */
enum crz_outcome { /* what the entry's number is; 0 where nothing stands */
    CRZ_OUTCOME_REGISTERED = 1,
    CRZ_OUTCOME_LISTED = 2,
    CRZ_OUTCOME_ENDED = 3,
    CRZ_OUTCOME_BID_STANDS = 4,      /* the price, yuan per tonne */
    CRZ_OUTCOME_BID_WITHDRAWN = 5,
    CRZ_OUTCOME_STRUCK = 6,          /* the price, yuan per tonne */
    CRZ_OUTCOME_LODGED = 7,
    CRZ_OUTCOME_SETTLED = 8,         /* the full payment, fen */
    CRZ_OUTCOME_FIRST_PAID = 9,      /* fen paid */
    CRZ_OUTCOME_INVOICED = 10,       /* the invoice, fen */
    CRZ_OUTCOME_PART_PAID = 11,      /* fen paid, which may be 0 */
    CRZ_OUTCOME_BUYER_DEFAULT = 12,  /* the deposit that passes, fen */
    CRZ_OUTCOME_SELLER_DEFAULT = 13,
    CRZ_OUTCOME_BOTH_DEFAULTED = 14,
    CRZ_OUTCOME_PENALTY = 15         /* fen passed, at most the penalty */
};

/* ── Image: 6,208 bytes ────────────────────────────────────────────────────────────────────────── */

enum crz_image_layout {
    CRZ_IMAGE_ACCOUNT_COUNT = 0,    /* u16, CRZ_ACCOUNT_COUNT */
    CRZ_IMAGE_RECEIPT_COUNT = 2,    /* u16, CRZ_RECEIPT_COUNT */
    CRZ_IMAGE_CONTRACT_COUNT = 4,   /* u16, CRZ_CONTRACT_COUNT */
    CRZ_IMAGE_DAY = 6,              /* u16 */
    CRZ_IMAGE_ACCOUNT_OFFSET = 8,   /* u32, CRZ_IMAGE_ACCOUNTS */
    CRZ_IMAGE_CONTRACT_OFFSET = 12, /* u32, CRZ_IMAGE_ASKS */
    CRZ_IMAGE_RECEIPT_OFFSET = 16,  /* u32, CRZ_IMAGE_RECEIPTS */
    CRZ_IMAGE_PHASE = 20,           /* u8 */
    CRZ_IMAGE_ZEROS = 21,           /* three zero bytes */
    CRZ_IMAGE_TOTAL = 24,           /* u64: all free and frozen money, fen */
    CRZ_IMAGE_ACCOUNTS = 32,
    CRZ_IMAGE_ASKS = 1568,          /* a u32 for each contract, yuan per tonne; 0 for none */
    CRZ_IMAGE_RECEIPTS = 1600
};

enum crz_phase {
    CRZ_PHASE_MORNING = 0,
    CRZ_PHASE_AFTERNOON = 1
};

enum crz_account_layout {
    CRZ_ACCOUNT_FREE = 0,  /* u64, fen */
    CRZ_ACCOUNT_FROZEN = 8 /* u64, fen */
};

/*
 * In state CRZ_STATE_FIRST_PAID paid follows from confirmed: it is rest x confirmed / full payment, the fraction
 * dropped, and so 0 before the first confirmation. An image with another paid is not valid. crz_records.h reckons all of
 * these.
 */
enum crz_receipt_layout {
    CRZ_RECEIPT_OWNER = 0,      /* u8: account; 0 where the receipt is not registered */
    CRZ_RECEIPT_STATE = 1,      /* u8 */
    CRZ_RECEIPT_SELLER = 2,     /* u8: account */
    CRZ_RECEIPT_BUYER = 3,      /* u8: account */
    CRZ_RECEIPT_CONTRACT = 4,   /* u8 */
    CRZ_RECEIPT_DAYS = 5,       /* u8 */
    CRZ_RECEIPT_DUE = 6,        /* u16: the day whose morning close works the lot */
    CRZ_RECEIPT_WEIGHT = 8,     /* u32, kilograms */
    CRZ_RECEIPT_BASIS = 12,     /* i32, yuan per tonne */
    CRZ_RECEIPT_PRICE = 16,     /* u32, yuan per tonne */
    CRZ_RECEIPT_PENDING = 20,   /* u32: the invoice that waits for its confirmation, fen */
    CRZ_RECEIPT_CONFIRMED = 24, /* u32: sum of confirmed invoices, fen */
    CRZ_RECEIPT_PAID = 28,      /* u32: what they have paid of the rest, rest x confirmed / full, fen */
    CRZ_RECEIPT_PREMIUM = 32    /* i32, yuan per tonne: given when the receipt is registered, and kept */
};

enum crz_state { /* fields filled besides owner, state, weight and premium; all others are zero */
    CRZ_STATE_IDLE = 0,       /* none; a receipt that is not registered has 36 zero bytes */
    CRZ_STATE_LISTED = 1,     /* seller, contract, days, basis */
    CRZ_STATE_BID_STANDS = 2, /* seller, contract, days, basis, buyer, price */
    CRZ_STATE_STRUCK = 3,     /* seller, contract, days, basis, buyer, price, due */
    CRZ_STATE_LODGED = 4,     /* the same */
    CRZ_STATE_SETTLED = 5,    /* the same; the owner is now the buyer */
    CRZ_STATE_FIRST_PAID = 6, /* the same, and pending, confirmed, paid */
    CRZ_STATE_PENALTY_DUE = 7 /* seller, buyer, due */
};

/* ── Entries ───────────────────────────────────────────────────────────────────────────────────── */

/*
 * Writes a fresh zone's image: no money, no receipts, no asks, day 1, morning.
 * Returns 0, or 2 where image_len is not 6,208; then nothing is written.
 */
uint32_t crz_fresh(uint8_t *image, size_t image_len);

/*
 * Makes a call on an image. Returns 0 and has then written the image after the call and the answer: its head, its
 * entries, and zeros behind them up to byte 1,040; or returns the number of the first row of enum crz_number that
 * applies. A refusal leaves the image as it was. 1 writes nothing at all; 2 to 13 put the number into byte 0 of the
 * answer and zeros behind it up to byte 1,040. Bytes of the answer past 1,040 keep their content in every case.
 */
uint32_t crz_call(uint8_t *image, size_t image_len, const uint8_t *call, size_t call_len, uint8_t *answer,
                  size_t answer_len);

/*
 * Makes the calls of a table on an image: records of 24 bytes, one behind the other, at most CRZ_TABLE_COUNT of them.
 * Each call finds the image that the one before it left, and has 1,040 bytes of the answers for itself: those of call i,
 * counted from 0, begin at byte 1,040 x i. Image and answers are those of as many calls of crz_call, made in the same
 * order: a refused call has its number in byte 0 of its own answer, and those behind it are made all the same. A table
 * without calls leaves image and answers alone, and no table touches what lies behind its last answer.
 *
 * Returns 0, whatever the numbers of its calls; where the image is not valid, each answer has 2. Or returns 14, where
 * there are more than CRZ_TABLE_COUNT calls, calls_len is no multiple of 24, or answers_len is below 1,040 for each
 * call. That is decided by the lengths alone: nothing is read or written then.
 */
uint32_t crz_table(uint8_t *image, size_t image_len, const uint8_t *calls, size_t calls_len, uint8_t *answers,
                   size_t answers_len);

/*
 * Writes what each account has to pay in before the morning close; the image is only read. A lot is due where its due
 * day is today or earlier. An account is asked for CRZ_PENALTY for each due lot in CRZ_STATE_PENALTY_DUE whose seller
 * it is, and, for each due lot in CRZ_STATE_STRUCK or CRZ_STATE_LODGED whose buyer it is, for what the full payment has
 * above CRZ_DEPOSIT, if anything. Its figure is the sum less its free money, or 0 where that covers it. In an afternoon
 * every figure is 0.
 *
 * Returns 0, and the figures stand in the first 768 bytes: a u64 in fen for each account, account 1 first. Or returns 1
 * where figures_len is below 768, else 2 where the image is not of 6,208 bytes or not valid; then nothing is written.
 * Bytes past 768 keep their content in every case.
 *
 * An account that pays its figure in, with no other call made before the morning close, is the buyer of no default in
 * it, whoever else is short.
 */
uint32_t crz_shortfalls(const uint8_t *image, size_t image_len, uint8_t *figures, size_t figures_len);

#ifdef __cplusplus
}
#endif

#endif
