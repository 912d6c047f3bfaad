#include "verify.h"

#include <inttypes.h>
#include <stdio.h>

#include "digits.h"
#include "history.h"
#include "image.h"
#include "progress.h"
#include "zone.h"

/* A replay of the journal up to some line. */
struct replay {
    const char *path;
    uint64_t next;                   /* sequence number of the next line */
    struct hash before;              /* hash of the line before it */
    uint8_t image[CRZ_IMAGE_LENGTH]; /* after that line */
    uint64_t accepted, refused;
    uint64_t tables, in_tables; /* tables, and the calls in them */
    int from_fresh;             /* whether the history table can be held against the image */
    struct history history;
    struct finding finding; /* the first strike that was for another account than the bidder */
    uint64_t found_at;
    struct progress progress;
    int named; /* whether a bad line was named */
};

static int bad_line(struct replay *replay, uint64_t sequence, const char *what)
{
    char words[160];
    replay->named = 1;
    snprintf(words, sizeof words, "line %" PRIu64 " of the journal is the first bad one: %s", sequence, what);
    return store_damaged(replay->path, STORE_VERIFY, words);
}

/* Line 0: how the zone began. */
static int replay_start(struct replay *replay, const struct line *line)
{
    replay->from_fresh = line_names(line, &entry_fresh);
    if (line->call_length != 0 || line->answer_length != 0 || line->number != 0)
        return bad_line(replay, 0, "it is no start");
    if (replay->from_fresh && !line->has_further) {
        crz_fresh(replay->image, sizeof replay->image);
        return 0;
    }
    if (!line_names(line, &entry_import) || !line->has_further || line->further_length != CRZ_IMAGE_LENGTH)
        return bad_line(replay, 0, "it is no start");
    memcpy(replay->image, line->further, CRZ_IMAGE_LENGTH);
    return image_valid(replay->image) ? 0 : bad_line(replay, 0, "the imported image is not valid");
}

static void feed(struct replay *replay, const struct line *line)
{
    struct finding finding = history_feed(&replay->history, line->call, line->answer);
    if (replay->finding.sentence != SENTENCE_NONE || finding.sentence == SENTENCE_NONE)
        return;
    replay->finding = finding;
    replay->found_at = line->sequence;
}

/* Of a call made again, number and answer must come out as they stand. */
static int compare(struct replay *replay, const struct line *line, uint32_t number, const uint8_t *answer)
{
    if (number != line->number)
        return bad_line(replay, line->sequence, "the library returns another number");
    if (memcmp(answer, line->answer, CRZ_ANSWER_LENGTH) != 0)
        return bad_line(replay, line->sequence, "the library gives another answer");
    if (number == CRZ_NUMBER_ACCEPTED)
        feed(replay, line);
    ++*(number == CRZ_NUMBER_ACCEPTED ? &replay->accepted : &replay->refused);
    return 0;
}

static int replay_call(struct replay *replay, const struct line *line)
{
    uint8_t answer[CRZ_ANSWER_LENGTH];
    uint32_t number = crz_call(replay->image, CRZ_IMAGE_LENGTH, line->call, line->call_length, answer, sizeof answer);
    return compare(replay, line, number, answer);
}

static void put_calls(uint8_t *calls, const struct line *lines, size_t count)
{
    for (size_t i = 0; i < count; i++)
        memcpy(calls + crz_call_offset(i), lines[i].call, CRZ_CALL_LENGTH);
}

/* All calls of the table at once, as they were made. */
static int replay_table(struct replay *replay, const struct line *lines, size_t count)
{
    uint8_t calls[CRZ_TABLE_COUNT * CRZ_CALL_LENGTH] = {0}, answers[CRZ_TABLE_COUNT * CRZ_ANSWER_LENGTH];
    int bad = 0;
    put_calls(calls, lines, count);
    if (crz_table(replay->image, CRZ_IMAGE_LENGTH, calls, crz_call_offset(count), answers, sizeof answers)
        != CRZ_NUMBER_ACCEPTED)
        return bad_line(replay, lines[0].sequence, "the library does not take the table that begins with it");
    for (size_t i = 0; i < count && !bad; i++) {
        const uint8_t *answer = answers + crz_answer_offset(i);
        bad = compare(replay, &lines[i], answer[CRZ_ANSWER_NUMBER], answer);
    }
    replay->tables++;
    replay->in_tables += count;
    return bad;
}

/* ── Commits ───────────────────────────────────────────────────────────────────────────────────── */

/* A fault of the journal, and the line that it is named by. */
struct fault {
    const char *what; /* NULL where there is none */
    uint64_t sequence;
};

/* A line of a table: the lines before it are of the same one. */
static struct fault fault_in_table(const struct line *lines, size_t place)
{
    const struct line *line = &lines[place];
    if (place >= CRZ_TABLE_COUNT)
        return (struct fault){"its table has more calls than a table can have", line->sequence};
    if (strcmp(line->time, lines[0].time) != 0)
        return (struct fault){"it has another time than the table that it stands in", line->sequence};
    if (line->call_length != CRZ_CALL_LENGTH)
        return (struct fault){"its call record has another length than those of a table", line->sequence};
    return (struct fault){NULL, 0};
}

/* A commit is one line with an image hash, or the lines of a table, of which the last one has it. */
static struct fault fault_in_commit(const struct line *lines, size_t place)
{
    const struct line *line = &lines[place];
    if (line->sequence != 0 && line_in_table(line))
        return fault_in_table(lines, place);
    if (line->sequence != 0 && line_kind(line) != LINE_CALL)
        return (struct fault){"it went through an entry that this program does not know", line->sequence};
    if (!line->has_image_hash)
        return (struct fault){"it has no hash of the image", line->sequence};
    if (place > 0)
        return (struct fault){"its table ends with it, but it has no hash of the image", line->sequence - 1};
    return (struct fault){NULL, 0};
}

/* The next line of a commit, bound to those before it. */
static struct fault judge_line(struct replay *replay, const struct line *lines, size_t place)
{
    const struct line *line = &lines[place];
    struct hash hash;
    if (line->sequence != replay->next)
        return (struct fault){"it is missing", replay->next};
    if (hash_line(&replay->before, line, &hash) != 0)
        return (struct fault){"its hash cannot be made again", line->sequence};
    if (!hash_same(&hash, &line->hash))
        return (struct fault){"it does not fit its hash", line->sequence};
    replay->before = line->hash;
    replay->next = line->sequence + 1;
    return fault_in_commit(lines, place);
}

/* Lines of one commit that have no fault so far. */
static int replay_lines(struct replay *replay, const struct line *lines, size_t count)
{
    if (count == 0)
        return 0;
    if (lines[0].sequence == 0)
        return replay_start(replay, &lines[0]);
    return line_in_table(&lines[0]) ? replay_table(replay, lines, count) : replay_call(replay, &lines[0]);
}

static int image_fits(struct replay *replay, const struct line *line)
{
    struct hash hash;
    if (!line->has_image_hash)
        return 0;
    if (hash_image(replay->image, &hash) != 0)
        return -1;
    return hash_same(&hash, &line->image_hash) ? 0 : bad_line(replay, line->sequence, "the image after it is another");
}

/* The lines before a fault are made again too: one of them may be a bad line, and then it is the first. */
static int replay_commit(void *context, const struct line *lines, size_t count)
{
    struct replay *replay = context;
    struct fault fault = {NULL, 0};
    size_t good = 0;
    while (good < count && (fault = judge_line(replay, lines, good)).what == NULL)
        good++;
    if (replay_lines(replay, lines, good) != 0)
        return -1;
    if (fault.what != NULL)
        return bad_line(replay, fault.sequence, fault.what);
    progress_show(&replay->progress, lines[count - 1].sequence);
    return image_fits(replay, &lines[count - 1]);
}

static int end_fits(struct replay *replay, const struct newest *newest)
{
    if (replay->next != newest->last.sequence + 1)
        return bad_line(replay, replay->next, "it is missing");
    if (!newest->last.has_image_hash)
        return bad_line(replay, newest->last.sequence, "it has no hash of the image");
    if (!hash_same(&replay->before, &newest->kept.last_hash))
        return bad_line(replay, newest->last.sequence, "the image was kept with another last line");
    if (memcmp(replay->image, newest->kept.image, CRZ_IMAGE_LENGTH) != 0)
        return store_damaged(replay->path, STORE_VERIFY, "every line is good, but the image is not the one after them");
    return 0;
}

static int history_fits(const struct replay *replay)
{
    struct finding finding = replay->finding;
    char words[128];
    if (!replay->from_fresh) {
        puts(
            "history: not held against the image: its sentences need a start from a fresh zone, this one was imported");
        return 0;
    }
    if (finding.sentence == SENTENCE_NONE)
        finding = history_hold(&replay->history, replay->image);
    if (finding.sentence == SENTENCE_NONE) {
        printf("history: the books and frozen money of %d accounts, the owners of %d receipts and every strike hold\n",
            CRZ_ACCOUNT_COUNT, CRZ_RECEIPT_COUNT);
        return 0;
    }
    finding_words(&finding, words, sizeof words);
    return report(replay->path, "the history does not hold: %s", words);
}

static void say_compared(const struct replay *replay)
{
    uint64_t calls = replay->accepted + replay->refused;
    char hash[HASH_DIGITS + 1];
    hash_words(&replay->before, hash);
    printf("journal: %s line%s, each bound to the one before it; last hash %s\n", grouped(replay->next).text,
        plural(replay->next), hash);
    printf("replay: %s call%s compared", grouped(calls).text, plural(calls));
    if (replay->tables > 0)
        printf(", %s of them in %s table%s", grouped(replay->in_tables).text, grouped(replay->tables).text,
            plural(replay->tables));
    printf(", %s accepted and %s refused; every number, every answer and the image agree\n",
        grouped(replay->accepted).text, grouped(replay->refused).text);
}

/* All lines, up to the last one where that could be read; the first bad one is named. */
static int walk(struct store *store, struct replay *replay, const struct newest *newest)
{
    uint64_t last = newest == NULL ? INT64_MAX : newest->last.sequence;
    replay->progress = progress_start("verify", newest == NULL ? 0 : last);
    int bad = store_walk(store, 0, last, replay_commit, replay);
    progress_clear();
    if (bad != 0 && !replay->named)
        bad_line(replay, replay->next, "it cannot be read");
    return bad;
}

enum status verify(struct store *store)
{
    static struct newest newest;
    static struct replay replay;
    replay = (struct replay){.path = store_path(store)};
    int sound = store_judge(store) == 0, known = store_read(store, &newest) == 0;
    if (walk(store, &replay, known ? &newest : NULL) != 0 || !known || end_fits(&replay, &newest) != 0)
        return STATUS_NOTHING_DONE;
    say_compared(&replay);
    return history_fits(&replay) == 0 && sound ? STATUS_ACCEPTED : STATUS_NOTHING_DONE;
}
