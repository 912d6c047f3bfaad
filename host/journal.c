#define _POSIX_C_SOURCE 200809L

#include "journal.h"

#include <stdio.h>
#include <time.h>

#include <openssl/evp.h>

#include "report.h"

/* ── Entries ───────────────────────────────────────────────────────────────────────────────────── */

#define ENTRY(name, lines, ...) const struct entry entry_##name = {"crz_" #name, lines};
#include "../include/entries.h"
const struct entry entry_import = {"import", LINE_START};

static const struct entry *const entries[] = {
#define ENTRY(name, lines, ...) &entry_##name,
#include "../include/entries.h"
    &entry_import,
};

enum { ENTRIES = sizeof entries / sizeof entries[0] };

int line_names(const struct line *line, const struct entry *entry)
{
    return strcmp(line->entry, entry->name) == 0;
}

enum line_kind line_kind(const struct line *line)
{
    for (size_t i = 0; i < ENTRIES; i++)
        if (line_names(line, entries[i]))
            return entries[i]->lines;
    return LINE_NONE;
}

int line_in_table(const struct line *line)
{
    return line_kind(line) == LINE_IN_TABLE;
}

/* ── Hashes ────────────────────────────────────────────────────────────────────────────────────── */

/* The bytes that a line's hash is over. */
struct text {
    uint8_t bytes[HASH_LENGTH + 8 + 4 + 6 * 5 + TIME_LENGTH + ENTRY_LENGTH + CRZ_CALL_LENGTH + CRZ_ANSWER_LENGTH
                  + FURTHER_LENGTH + HASH_LENGTH];
    size_t length;
};

static void add_bytes(struct text *text, const void *bytes, size_t length)
{
    memcpy(text->bytes + text->length, bytes, length);
    text->length += length;
}

static void add_number(struct text *text, unsigned width, uint64_t number)
{
    crz_put_bytes(text->bytes + text->length, width, number);
    text->length += width;
}

static void add_field(struct text *text, int is_there, const void *bytes, size_t length)
{
    add_number(text, 1, is_there ? 1 : 0);
    if (!is_there)
        return;
    add_number(text, 4, length);
    add_bytes(text, bytes, length);
}

static int hash_bytes(const uint8_t *bytes, size_t length, struct hash *hash)
{
    if (EVP_Digest(bytes, length, hash->bytes, NULL, EVP_sha256(), NULL) == 1)
        return 0;
    return report(NULL, "libcrypto cannot make a SHA-256");
}

int hash_image(const uint8_t image[CRZ_IMAGE_LENGTH], struct hash *hash)
{
    return hash_bytes(image, CRZ_IMAGE_LENGTH, hash);
}

int hash_line(const struct hash *before, const struct line *line, struct hash *hash)
{
    struct text text = {.length = 0};
    add_bytes(&text, before->bytes, sizeof before->bytes);
    add_number(&text, 8, line->sequence);
    add_number(&text, 4, line->number);
    add_field(&text, 1, line->time, strlen(line->time));
    add_field(&text, 1, line->entry, strlen(line->entry));
    add_field(&text, 1, line->call, line->call_length);
    add_field(&text, 1, line->answer, line->answer_length);
    add_field(&text, line->has_further, line->further, line->further_length);
    add_field(&text, line->has_image_hash, line->image_hash.bytes, sizeof line->image_hash.bytes);
    return hash_bytes(text.bytes, text.length, hash);
}

int hash_same(const struct hash *a, const struct hash *b)
{
    return memcmp(a->bytes, b->bytes, sizeof a->bytes) == 0;
}

void hash_words(const struct hash *hash, char words[HASH_DIGITS + 1])
{
    for (size_t i = 0; i < HASH_LENGTH; i++)
        snprintf(words + 2 * i, 3, "%02x", hash->bytes[i]);
}

/* ── Lines ─────────────────────────────────────────────────────────────────────────────────────── */

static void put_time(char time[TIME_LENGTH + 1])
{
    struct timespec now = {0};
    struct tm utc;
    char seconds[TIME_LENGTH];
    clock_gettime(CLOCK_REALTIME, &now);
    gmtime_r(&now.tv_sec, &utc);
    strftime(seconds, sizeof seconds, "%Y-%m-%dT%H:%M:%S", &utc);
    snprintf(time, TIME_LENGTH + 1, "%.19s.%03dZ", seconds, (int)(now.tv_nsec / 1000000));
}

void line_start(struct line *line, const uint8_t *imported)
{
    memset(line, 0, sizeof *line);
    put_time(line->time);
    strcpy(line->entry, imported == NULL ? entry_fresh.name : entry_import.name);
    if (imported == NULL)
        return;
    line->has_further = 1;
    line->further_length = CRZ_IMAGE_LENGTH;
    memcpy(line->further, imported, CRZ_IMAGE_LENGTH);
}

/* A refusal fills one byte of its answer, an accepted call its head and entries. */
static size_t filled_length(uint32_t number, const uint8_t *answer)
{
    if (number != CRZ_NUMBER_ACCEPTED)
        return 1;
    return CRZ_ANSWER_ENTRIES + (size_t)CRZ_ENTRY_LENGTH * crz_get_answer(answer).count;
}

/* All of a call's line but its time and entry. */
static void put_call(struct line *line, uint64_t sequence, const uint8_t *call, uint32_t number, const uint8_t *answer)
{
    memset(line, 0, sizeof *line);
    line->sequence = sequence;
    line->call_length = CRZ_CALL_LENGTH;
    memcpy(line->call, call, CRZ_CALL_LENGTH);
    line->number = number;
    line->answer_length = filled_length(number, answer);
    memcpy(line->answer, answer, CRZ_ANSWER_LENGTH);
}

void line_call(struct line *line, uint64_t sequence, const uint8_t *call, uint32_t number, const uint8_t *answer)
{
    put_call(line, sequence, call, number, answer);
    put_time(line->time);
    strcpy(line->entry, entry_call.name);
}

/* What a call of a table returned by itself stands in its answer alone. */
void line_table(struct line *lines, uint64_t sequence, const uint8_t *calls, const uint8_t *answers, size_t count)
{
    char now[TIME_LENGTH + 1];
    put_time(now);
    for (size_t i = 0; i < count; i++) {
        const uint8_t *answer = answers + crz_answer_offset(i);
        put_call(&lines[i], sequence + i, calls + crz_call_offset(i), answer[CRZ_ANSWER_NUMBER], answer);
        strcpy(lines[i].time, now);
        strcpy(lines[i].entry, entry_table.name);
    }
}
