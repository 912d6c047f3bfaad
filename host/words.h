/* Calls in words: "limit-bid account 7 receipt 12 yuan 15000". */
#ifndef WORDS_H
#define WORDS_H

#include <stdio.h>

#include "../include/crz_records.h"
#include "nearest.h"

enum field {
    FIELD_ACCOUNT,
    FIELD_RECEIPT,
    FIELD_CONTRACT,
    FIELD_DAYS,
    FIELD_FEN,
    FIELD_YUAN,
    FIELD_BASIS,
    FIELD_KILOGRAMS,
    FIELD_PREMIUM,
    FIELDS
};

struct field_words {
    const char *word;
    const char *name;                /* in JSON */
    unsigned offset, width;          /* in the call record */
    int64_t holds_least, holds_most; /* what the record's field can hold */
    int64_t least, most, step;       /* what the library takes; a step of 1 where every number is taken */
};

/* Who may make a call. */
enum party { PARTY_ANYONE, PARTY_OWNER, PARTY_SELLER, PARTY_BUYER, PARTY_NOT_SELLER, PARTY_HOST };

enum { STATES = 8, MOST_WORDS = 32 };

struct kind_words {
    const char *word;
    uint8_t kind;
    unsigned takes; /* a bit for each field; the premium may be left out, and is 0 then */
    enum party party;
    unsigned states; /* a bit for each state that it takes a lot from; 0 where it asks for no state */
    const char *what;
};

extern const struct field_words fields[FIELDS];
extern const char *const state_words[STATES];

/* NULL where there is no such kind. */
const struct kind_words *kind_of(uint32_t kind);
const struct kind_words *kind_named(const char *word);

/* Tries every kind as the word that a user meant. */
void nearest_kind(struct nearest *nearest);

const char *party_words(enum party party);

/*
 * Turns the words of one call into its record. Returns 0, or -1 with a message that names the word at fault.
 * Numbers that fit their field are passed on: whether they are in range is for the library to say.
 */
int call_from_words(uint8_t call[CRZ_CALL_LENGTH], char **words, int count, char *message, size_t message_length);

/* What stands in a field of a call record. */
int64_t call_field(const uint8_t call[CRZ_CALL_LENGTH], enum field field);

/* A call record in words, as call_from_words takes them. */
void print_call(const uint8_t call[CRZ_CALL_LENGTH]);

/* A kind, or all of them, with the fields that it takes, who may make it and what it does. */
void print_kind(const struct kind_words *kind);
void print_kinds(void);

/* The ranges of fields, a bit for each. */
void print_ranges(unsigned takes);

#endif
