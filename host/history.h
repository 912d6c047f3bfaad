/*
 * The history table: what the accepted calls of a zone, from its fresh start on, say about money and owners. It takes
 * call records and answers alone, never an image, and is then held against one. Written apart from the library: it
 * shares offsets and names with it, no rule.
 */
#ifndef HISTORY_H
#define HISTORY_H

#include "../include/crz.h"

enum { HISTORY_ACCOUNTS = 256, HISTORY_LOTS = 256 }; /* whatever a byte can name */

/* What the table has of a lot. */
struct past {
    uint8_t last;      /* outcome of its last entry, 0 before the first */
    uint8_t last_from; /* `from` of that entry */
    uint8_t last_kind; /* the call that it answered */
    uint8_t last_account;
    uint8_t bidder;              /* `from` of the latest bid that stands or strike */
    uint8_t registrant, settler; /* `from` of the registration and of the latest settlement */
    uint64_t full, since;        /* the latest settlement, and first and part payments since */
};

struct history {
    struct past lots[HISTORY_LOTS];
    uint64_t pay_ins[HISTORY_ACCOUNTS], take_outs[HISTORY_ACCOUNTS];
    uint64_t passed[HISTORY_ACCOUNTS], received[HISTORY_ACCOUNTS]; /* transfers from and to the account */
};

/* The sentences that are held against a zone, and what every entry must have: a lot, and an outcome that is known. */
enum sentence {
    SENTENCE_NONE,
    SENTENCE_BOOKS,
    SENTENCE_FROZEN,
    SENTENCE_OWNER,
    SENTENCE_STRIKE,
    SENTENCE_LOT,
    SENTENCE_OUTCOME
};

struct finding {
    enum sentence sentence; /* SENTENCE_NONE where all hold */
    unsigned number;        /* the account, the lot or the outcome that it does not hold for */
};

void history_start(struct history *history);

/*
 * Takes an accepted call with its answer. Finds a lot that was struck for another account than the bidder, and an entry
 * that can be put to no lot; the table leaves that one out.
 */
struct finding history_feed(struct history *history, const uint8_t *call, const uint8_t *answer);

/* Holds the table against the image after those calls. */
struct finding history_hold(const struct history *history, const uint8_t *image);

void finding_words(const struct finding *finding, char *words, size_t length);

#endif
