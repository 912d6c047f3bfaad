#include "zone.h"

#include <inttypes.h>
#include <stdio.h>

#include "file.h"
#include "image.h"

/* ── New zones ─────────────────────────────────────────────────────────────────────────────────── */

static enum status create(const char *path, const uint8_t *image, struct line *start)
{
    const struct hash nothing = {{0}};
    start->has_image_hash = 1;
    if (hash_image(image, &start->image_hash) != 0 || hash_line(&nothing, start, &start->hash) != 0
        || store_create(path, image, start) != 0)
        return STATUS_NOTHING_DONE;
    return STATUS_ACCEPTED;
}

enum status zone_new(const char *path)
{
    uint8_t image[CRZ_IMAGE_LENGTH];
    struct line start;
    crz_fresh(image, sizeof image);
    line_start(&start, NULL);
    return create(path, image, &start);
}

enum status zone_import(const char *path, const char *image_path, const struct layout **older)
{
    uint8_t image[CRZ_IMAGE_LENGTH];
    struct line start;
    if (file_read_image(image_path, image, older) != 0)
        return STATUS_NOTHING_DONE;
    if (!image_valid(image)) {
        image_report(image_path, image, *older);
        return STATUS_NOTHING_DONE;
    }
    line_start(&start, image);
    return create(path, image, &start);
}

/* ── Reading ───────────────────────────────────────────────────────────────────────────────────── */

static const char *fault_of(const struct newest *newest, const struct hash *line, const struct hash *image)
{
    if (!hash_same(line, &newest->last.hash))
        return "the last line of the journal does not fit its hash";
    if (!hash_same(&newest->kept.last_hash, &newest->last.hash))
        return "the journal does not end with the line that the image was kept with";
    if (!newest->last.has_image_hash || !hash_same(image, &newest->last.image_hash))
        return "the image does not fit its hash in the last line of the journal";
    return image_valid(newest->kept.image) ? NULL : "the image is not valid";
}

static int judge(const char *path, const struct newest *newest)
{
    struct hash line, image;
    if (hash_line(&newest->before, &newest->last, &line) != 0 || hash_image(newest->kept.image, &image) != 0)
        return -1;
    const char *fault = fault_of(newest, &line, &image);
    return fault == NULL ? 0 : store_damaged(path, STORE_READ, fault);
}

int zone_read(struct store *store, struct newest *newest)
{
    return store_read(store, newest) == 0 ? judge(store_path(store), newest) : -1;
}

/* ── Calls ─────────────────────────────────────────────────────────────────────────────────────── */

static int expected(const char *path, const struct expect *expect, const struct line *last)
{
    if (!expect->given || expect->sequence == last->sequence)
        return 1;
    report(path, "the journal's last sequence number is %" PRIu64 ", not %" PRIu64 " as --expect asks", last->sequence,
        expect->sequence);
    return 0;
}

/* Keeps others out and reads the newest state. Returns 0, or -1 after a message, and then nobody is kept out. */
static int begin(struct store *store, const struct expect *expect, struct newest *newest)
{
    if (store_begin(store) != 0)
        return -1;
    if (zone_read(store, newest) == 0 && expected(store_path(store), expect, &newest->last))
        return 0;
    store_cancel(store);
    return -1;
}

/* Binds the lines to the journal, each to the one before it and the last one also to the image. */
static int bind_lines(struct made *made, const struct hash *before, const uint8_t *image)
{
    struct line *last = &made->lines[made->count - 1];
    last->has_image_hash = 1;
    int bad = hash_image(image, &last->image_hash);
    for (size_t i = 0; i < made->count && !bad; i++) {
        bad = hash_line(before, &made->lines[i], &made->lines[i].hash);
        before = &made->lines[i].hash;
    }
    return bad;
}

static int any_refused(const struct made *made)
{
    int refused = 0;
    for (size_t i = 0; i < made->count; i++)
        refused |= made->lines[i].number != CRZ_NUMBER_ACCEPTED;
    return refused;
}

static void report_unsure(const char *path, const struct made *made)
{
    uint64_t first = made->lines[0].sequence;
    if (made->count == 1)
        report(path, "the disk failed while call %" PRIu64 " was kept; 'crz log %s --last 1' shows whether it was made",
            first, path);
    else
        report(path,
            "the disk failed while calls %" PRIu64 " to %" PRIu64 " were kept, all or none of them; 'crz log %s --last "
            "%zu' shows whether they were made",
            first, first + made->count - 1, path, made->count);
}

/* Commits what was made on the state that was read. */
static enum status keep(struct store *store, const struct newest *newest, const uint8_t *image, struct made *made)
{
    memcpy(made->found, newest->kept.image, sizeof made->found);
    if (bind_lines(made, &newest->last.hash, image) != 0) {
        store_cancel(store);
        return STATUS_NOTHING_DONE;
    }
    switch (store_commit(store, image, made->lines, made->count)) {
    case COMMIT_DONE: return any_refused(made) ? STATUS_REFUSED : STATUS_ACCEPTED;
    case COMMIT_NOT_DONE: return STATUS_NOTHING_DONE;
    default: report_unsure(store_path(store), made); return STATUS_NOT_SHOWN;
    }
}

enum status zone_call(
    struct store *store, const uint8_t call[CRZ_CALL_LENGTH], const struct expect *expect, struct made *made)
{
    struct newest newest;
    uint8_t image[CRZ_IMAGE_LENGTH], answer[CRZ_ANSWER_LENGTH];
    if (begin(store, expect, &newest) != 0)
        return STATUS_NOTHING_DONE;
    memcpy(image, newest.kept.image, sizeof image);
    uint32_t number = crz_call(image, sizeof image, call, CRZ_CALL_LENGTH, answer, sizeof answer);
    line_call(&made->lines[0], newest.last.sequence + 1, call, number, answer);
    made->count = 1;
    return keep(store, &newest, image, made);
}

/* ── Tables ────────────────────────────────────────────────────────────────────────────────────── */

/* The answers of a table's calls. */
struct answers {
    uint8_t bytes[CRZ_TABLE_COUNT * CRZ_ANSWER_LENGTH];
};

static int make_table(uint8_t *image, const uint8_t *calls, size_t count, struct answers *answers)
{
    uint32_t number =
        crz_table(image, CRZ_IMAGE_LENGTH, calls, crz_call_offset(count), answers->bytes, sizeof answers->bytes);
    return number == CRZ_NUMBER_ACCEPTED
               ? 0
               : report(NULL, "the library returns %" PRIu32 " to a table of %zu calls", number, count);
}

/* Calls up to the first refused one and with it; all of them where none is. */
static size_t up_to_refused(const struct answers *answers, size_t count)
{
    size_t length = 1;
    while (length < count && answers->bytes[crz_answer_offset(length - 1) + CRZ_ANSWER_NUMBER] == CRZ_NUMBER_ACCEPTED)
        length++;
    return length;
}

/*
 * Makes the table on the image. One that is to end with its first refused call is made on a copy before that: which
 * call it is, the answers tell.
 */
static int make_calls(const struct table *table, uint8_t *image, struct answers *answers, size_t *count)
{
    uint8_t copy[CRZ_IMAGE_LENGTH];
    *count = table->count;
    if (table->stop) {
        memcpy(copy, image, sizeof copy);
        if (make_table(copy, table->calls, *count, answers) != 0)
            return -1;
        *count = up_to_refused(answers, *count);
    }
    return make_table(image, table->calls, *count, answers);
}

enum status zone_table(struct store *store, const struct table *table, const struct expect *expect, struct made *made)
{
    struct newest newest;
    uint8_t image[CRZ_IMAGE_LENGTH];
    struct answers answers;
    if (begin(store, expect, &newest) != 0)
        return STATUS_NOTHING_DONE;
    memcpy(image, newest.kept.image, sizeof image);
    if (make_calls(table, image, &answers, &made->count) != 0) {
        store_cancel(store);
        return STATUS_NOTHING_DONE;
    }
    line_table(made->lines, newest.last.sequence + 1, table->calls, answers.bytes, made->count);
    return keep(store, &newest, image, made);
}
