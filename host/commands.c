#define _POSIX_C_SOURCE 200809L

#include "commands.h"

#include <errno.h>
#include <inttypes.h>
#include <stdio.h>
#include <stdlib.h>
#include <unistd.h>

#include "digits.h"
#include "due.h"
#include "file.h"
#include "json.h"
#include "print.h"
#include "progress.h"
#include "script.h"
#include "signals.h"
#include "statement.h"
#include "verify.h"

enum { LONGEST_MESSAGE = 256 };

/* Whether all that was printed so far has gone out. */
static int shown(void)
{
    return fflush(stdout) == 0 && !ferror(stdout);
}

/* ── Calls ─────────────────────────────────────────────────────────────────────────────────────── */

/* The calls of a commit: NULL where it is no table. */
static const struct span *span_of(const struct line *lines, size_t count, struct span *span)
{
    *span = (struct span){lines[0].sequence, lines[count - 1].sequence};
    return line_in_table(&lines[0]) ? span : NULL;
}

static void print_script_call(const uint8_t *call)
{
    fputs("> ", stdout);
    print_call(call);
    putchar('\n');
}

/* A call of a table stands before its own answer. */
static void show_answer(const struct line *line, const struct span *table, const uint8_t *found, int json)
{
    if (json) {
        json_line(line, table, found);
        return;
    }
    if (table != NULL)
        print_script_call(line->call);
    print_made(line, found);
}

/* Words are made from the image that a call found. Within a table it is what the calls before it, one by one, make. */
static void show_made(const struct made *made, int json)
{
    uint8_t found[CRZ_IMAGE_LENGTH], answer[CRZ_ANSWER_LENGTH];
    struct span span;
    const struct span *table = span_of(made->lines, made->count, &span);
    memcpy(found, made->found, sizeof found);
    for (size_t i = 0; i < made->count; i++) {
        const uint8_t *call = made->lines[i].call;
        show_answer(&made->lines[i], table, found, json);
        crz_call(found, sizeof found, call, CRZ_CALL_LENGTH, answer, sizeof answer);
    }
}

static void report_not_shown(const char *path, const struct made *made, const char *why)
{
    uint64_t first = made->lines[0].sequence;
    if (made->count == 1)
        report(path, "call %" PRIu64 " was made, but its answer could not be shown: %s; 'crz log %s --last 1' shows it",
            first, why, path);
    else
        report(path,
            "calls %" PRIu64 " to %" PRIu64 " were made, but not all of their answers could be shown: %s; 'crz log %s "
            "--last %zu' shows them",
            first, first + made->count - 1, why, path, made->count);
}

/* Shows the answers of what was made, which is durable by then. */
static enum status show_answers(struct store *store, const struct made *made, enum status status, int json)
{
    if (status != STATUS_ACCEPTED && status != STATUS_REFUSED)
        return status;
    show_made(made, json);
    if (shown())
        return status;
    report_not_shown(store_path(store), made, strerror(errno));
    return STATUS_NOT_SHOWN;
}

enum status command_call(const struct request *request)
{
    static struct made made;
    const char *path = request->words[0];
    uint8_t call[CRZ_CALL_LENGTH];
    char message[LONGEST_MESSAGE];
    struct expect expect = option_expect(request);
    if (call_from_words(call, request->words + 1, request->count - 1, message, sizeof message) != 0) {
        report(NULL, "%s; 'crz help call' lists every kind with its fields", message);
        return STATUS_BAD_WORDS;
    }
    signals_catch();
    struct store *store = store_open(path, STORE_WRITE, option_wait(request));
    enum status status = STATUS_NOTHING_DONE;
    if (store != NULL)
        status = show_answers(store, &made, zone_call(store, call, &expect, &made), option_given(request, OPTION_JSON));
    store_close(store);
    if (status == STATUS_NOTHING_DONE)
        report(path, "the call was not made");
    return status;
}

/* ── Scripts ───────────────────────────────────────────────────────────────────────────────────── */

/* How far a script has been played. */
struct played {
    size_t made, accepted, refused, tables;
};

/* What a script is played with. */
struct playing {
    struct store *store;
    const struct script *script;
    struct expect expect;
    int json, stop, table;
    struct played played;
};

/* Calls of the next commit. */
static size_t next_count(const struct playing *p)
{
    size_t left = p->script->count - p->played.made, most = p->table ? CRZ_TABLE_COUNT : 1;
    return left < most ? left : most;
}

static void count_made(struct playing *p, const struct made *made)
{
    p->played.made += made->count;
    p->played.tables += p->table ? 1 : 0;
    p->expect.given = 0; /* it is asked of the first commit alone */
    for (size_t i = 0; i < made->count; i++)
        ++*(made->lines[i].number == CRZ_NUMBER_ACCEPTED ? &p->played.accepted : &p->played.refused);
}

/* Which calls of the script are made as one table: their words come with their answers. */
static void print_next_table(const struct playing *p)
{
    size_t first = p->played.made + 1, last = p->played.made + next_count(p);
    printf("call%s %s", first == last ? "" : "s", grouped(first).text);
    if (first != last)
        printf(" to %s", grouped(last).text);
    printf(" of %s, as one table%s\n", grouped(p->script->count).text,
        p->stop ? " that ends with the first refused call" : "");
}

/* What is made next comes out first: where nothing can be shown, nothing is made. */
static int print_next(const struct playing *p)
{
    if (!p->json && p->table)
        print_next_table(p);
    else if (!p->json)
        print_script_call(p->script->calls[p->played.made]);
    if (shown())
        return 0;
    return report(store_path(p->store), "standard output cannot be written: %s", strerror(errno));
}

/* Makes the next call, or the next table, in one commit. */
static enum status make_next(const struct playing *p, struct made *made)
{
    const uint8_t *calls = p->script->calls[p->played.made];
    struct table table = {calls, next_count(p), p->stop};
    return p->table ? zone_table(p->store, &table, &p->expect, made) : zone_call(p->store, calls, &p->expect, made);
}

static enum status play_next(struct playing *p)
{
    static struct made made;
    if (print_next(p) != 0)
        return STATUS_NOTHING_DONE;
    enum status status = make_next(p, &made);
    if (status != STATUS_NOTHING_DONE)
        count_made(p, &made);
    return show_answers(p->store, &made, status, p->json);
}

/* Whether the script goes on after a commit that ended with `status`. */
static int goes_on(const struct playing *p, enum status status)
{
    return p->played.made < p->script->count && status <= (p->stop ? STATUS_ACCEPTED : STATUS_REFUSED);
}

/* A refused call does not end the script unless --stop is given; trouble with the zone or the output does. */
static enum status play_calls(struct playing *p)
{
    struct progress progress = progress_start(isatty(STDOUT_FILENO) ? NULL : "play", p->script->count);
    enum status status = STATUS_ACCEPTED;
    while (goes_on(p, status) && !signals_came()) {
        status = play_next(p);
        progress_show(&progress, p->played.made);
    }
    progress_clear();
    if (goes_on(p, status)) {
        report(store_path(p->store), "the program was asked to end");
        return STATUS_NOTHING_DONE;
    }
    return status > STATUS_REFUSED ? status : p->played.refused > 0 ? STATUS_REFUSED : STATUS_ACCEPTED;
}

static void show_played(const struct playing *p)
{
    const struct played *n = &p->played;
    size_t not_made = p->script->count - n->made;
    if (!p->json) {
        printf("%s call%s", grouped(n->made).text, plural(n->made));
        if (p->table)
            printf(" in %s table%s", grouped(n->tables).text, plural(n->tables));
        printf(": %s accepted, %s refused", grouped(n->accepted).text, grouped(n->refused).text);
        if (not_made > 0)
            printf("; stopped, %s not made", grouped(not_made).text);
        putchar('\n');
        return;
    }
    json_open("played");
    json_number("calls", n->made);
    json_number("tables", n->tables);
    json_number("accepted", n->accepted);
    json_number("refused", n->refused);
    json_number("not_made", not_made);
    json_close();
}

static enum status play(struct playing *p)
{
    enum status status = play_calls(p);
    if (status <= STATUS_REFUSED) {
        show_played(p);
        if (shown() || p->played.made == 0)
            return status;
        status = STATUS_NOT_SHOWN;
    }
    report(store_path(p->store), "of the script's %s call%s %s were made", grouped(p->script->count).text,
        plural(p->script->count), grouped(p->played.made).text);
    return status;
}

static enum status play_script(const struct request *request, const struct script *script)
{
    struct playing p = {.script = script,
        .expect = option_expect(request),
        .json = option_given(request, OPTION_JSON),
        .stop = option_given(request, OPTION_STOP),
        .table = option_given(request, OPTION_TABLE)};
    signals_catch();
    p.store = store_open(request->words[0], STORE_WRITE, option_wait(request));
    if (p.store == NULL) {
        report(request->words[0], "no call was made");
        return STATUS_NOTHING_DONE;
    }
    enum status status = play(&p);
    store_close(p.store);
    return status;
}

enum status command_play(const struct request *request)
{
    struct script script;
    int bad = script_read(&script, request->words[1]);
    enum status status = bad < 0 ? STATUS_NOTHING_DONE : STATUS_BAD_WORDS;
    if (bad > 0)
        report(request->words[1], "%s bad line%s; no call was made; 'crz help call' lists every kind",
            grouped((uint64_t)bad).text, plural((uint64_t)bad));
    if (bad == 0)
        status = play_script(request, &script);
    script_free(&script);
    return status;
}

/* ── New files ─────────────────────────────────────────────────────────────────────────────────── */

/* What was made, and its sequence number: a new zone's is what --expect asks for next. */
static enum status show_file(const char *path, const char *what, uint64_t sequence)
{
    printf("%s: %s sequence %" PRIu64 "\n", path, what, sequence);
    if (shown())
        return STATUS_ACCEPTED;
    report(path, "the file was made, but that could not be shown: %s", strerror(errno));
    return STATUS_NOT_SHOWN;
}

enum status command_new(const struct request *request)
{
    const char *path = request->words[0];
    enum status status = zone_new(path);
    return status == STATUS_ACCEPTED ? show_file(path, "a fresh zone,", 0) : status;
}

enum status command_import(const struct request *request)
{
    const char *path = request->words[0];
    const struct layout *older = NULL;
    char what[128] = "a zone with that image,";
    enum status status = zone_import(path, request->words[1], &older);
    if (older != NULL)
        snprintf(what, sizeof what, "a zone with that older image, %s,", older->added);
    return status == STATUS_ACCEPTED ? show_file(path, what, 0) : status;
}

/* ── Reading ───────────────────────────────────────────────────────────────────────────────────── */

/* Opens the zone and reads its newest state; NULL after a message. */
static struct store *open_read(const struct request *request, struct newest *newest)
{
    struct store *store = store_open(request->words[0], STORE_READ, option_wait(request));
    if (store == NULL || zone_read(store, newest) == 0)
        return store;
    store_close(store);
    return NULL;
}

/* The newest state alone. */
static int read_state(const struct request *request, struct newest *newest)
{
    struct store *store = open_read(request, newest);
    if (store == NULL)
        return -1;
    store_close(store);
    return 0;
}

enum status command_show(const struct request *request)
{
    static struct newest newest;
    if (read_state(request, &newest) != 0)
        return STATUS_NOTHING_DONE;
    if (option_given(request, OPTION_JSON))
        json_zone(newest.kept.image);
    else
        print_zone(newest.kept.image);
    return STATUS_ACCEPTED;
}

enum status command_due(const struct request *request)
{
    static struct newest newest;
    if (read_state(request, &newest) != 0)
        return STATUS_NOTHING_DONE;
    return print_due(newest.kept.image, option_given(request, OPTION_JSON));
}

enum status command_export(const struct request *request)
{
    static struct newest newest;
    const char *path = request->words[1];
    if (read_state(request, &newest) != 0 || file_create(path, newest.kept.image, CRZ_IMAGE_LENGTH) != 0)
        return STATUS_NOTHING_DONE;
    return show_file(path, "the image after", newest.last.sequence);
}

enum status command_verify(const struct request *request)
{
    struct store *store = store_open(request->words[0], STORE_VERIFY, option_wait(request));
    enum status status = store == NULL ? STATUS_NOTHING_DONE : verify(store);
    store_close(store);
    return status;
}

enum status command_statement(const struct request *request)
{
    static struct newest newest;
    int64_t account;
    const char *fault = digits_read(request->words[1], &account);
    if (fault == NULL && (account < 1 || account > CRZ_ACCOUNT_COUNT))
        fault = "is not in 1 to 96";
    if (fault != NULL) {
        report(NULL, "statement: account %s %s", quoted(request->words[1]).text, fault);
        return STATUS_BAD_WORDS;
    }
    struct store *store = open_read(request, &newest);
    if (store == NULL)
        return STATUS_NOTHING_DONE;
    enum status status = print_statement(store, &newest, (uint32_t)account, option_given(request, OPTION_JSON));
    store_close(store);
    return status;
}

/* ── The log ───────────────────────────────────────────────────────────────────────────────────── */

/* Which lines are shown, and how. */
struct listing {
    uint32_t account, lot; /* 0 where every line is shown */
    int json;
    uint64_t first;      /* lines before it are left out */
    uint64_t *sequences; /* of the lines found so far */
    size_t count, room;
};

static int names(const struct listing *l, uint32_t lot, uint32_t account, uint32_t other)
{
    return (l->lot == 0 || lot == l->lot) && (l->account == 0 || account == l->account || other == l->account);
}

/* A line belongs to an account or a lot by its call record or by an entry of its answer. */
static int is_listed(const struct listing *l, const struct line *line)
{
    uint32_t count = line->number == CRZ_NUMBER_ACCEPTED ? crz_get_answer(line->answer).count : 0;
    struct crz_call_fields call = crz_get_call(line->call);
    int found = names(l, call.receipt, call.account, 0);
    for (uint32_t i = 0; i < count && !found; i++) {
        struct crz_entry_fields entry = crz_get_entry(line->answer, i);
        found = names(l, entry.lot, entry.from, entry.to);
    }
    return found;
}

static void show_line(const struct listing *l, const struct line *line, const struct span *table)
{
    if (line->sequence < l->first || !is_listed(l, line))
        return;
    if (l->json)
        json_line(line, table, NULL);
    else
        print_line(line, table);
}

static int show_lines(void *context, const struct line *lines, size_t count)
{
    struct span span;
    const struct span *table = span_of(lines, count, &span);
    for (size_t i = 0; i < count; i++)
        show_line(context, &lines[i], table);
    return ferror(stdout) ? 1 : 0;
}

static int note_line(struct listing *l, const struct line *line)
{
    if (!is_listed(l, line))
        return 0;
    if (l->count == l->room) {
        size_t room = l->room == 0 ? 1024 : 2 * l->room;
        uint64_t *sequences = realloc(l->sequences, room * sizeof *sequences);
        if (sequences == NULL)
            return report(NULL, "no memory");
        l->sequences = sequences;
        l->room = room;
    }
    l->sequences[l->count++] = line->sequence;
    return 0;
}

static int note_lines(void *context, const struct line *lines, size_t count)
{
    int bad = 0;
    for (size_t i = 0; i < count && !bad; i++)
        bad = note_line(context, &lines[i]);
    return bad;
}

/* Where the last lines begin. Lines without an account or a lot to look for need no search. */
static int find_first(struct store *store, struct listing *l, uint64_t end, uint64_t last)
{
    if (l->account == 0 && l->lot == 0) {
        l->first = last > end ? 0 : end + 1 - last;
        return 0;
    }
    int bad = store_walk(store, 0, end, note_lines, l);
    l->first = last == 0 ? end + 1 : l->count > last ? l->sequences[l->count - last] : 0;
    free(l->sequences);
    return bad;
}

static void show_head(const struct line *last, int json)
{
    char words[HASH_DIGITS + 1];
    if (!json) {
        hash_words(&last->hash, words);
        printf("sequence %" PRIu64 ", %s, hash %s\n", last->sequence, last->time, words);
        return;
    }
    json_open("head");
    json_number("sequence", last->sequence);
    json_words("time", last->time);
    json_hash("hash", &last->hash);
    json_close();
}

static int list_lines(struct store *store, const struct request *request, uint64_t end)
{
    struct listing l = {.account = (uint32_t)request->numbers[OPTION_ACCOUNT],
        .lot = (uint32_t)request->numbers[OPTION_LOT],
        .json = option_given(request, OPTION_JSON)};
    if (option_given(request, OPTION_LAST) && find_first(store, &l, end, request->numbers[OPTION_LAST]) != 0)
        return -1;
    /* the first line may be of a table that begins before it */
    uint64_t from = l.first < CRZ_TABLE_COUNT ? 0 : l.first - (CRZ_TABLE_COUNT - 1);
    return store_walk(store, from, end, show_lines, &l) < 0 ? -1 : 0;
}

/* The head is of the whole journal. */
static int head_alone(const struct request *request)
{
    int chosen = option_given(request, OPTION_ACCOUNT) || option_given(request, OPTION_LOT)
                 || option_given(request, OPTION_LAST);
    if (!option_given(request, OPTION_HEAD) || !chosen)
        return 1;
    report(NULL, "log: --head does not go together with --account, --lot or --last");
    return 0;
}

enum status command_log(const struct request *request)
{
    static struct newest newest;
    if (!head_alone(request))
        return STATUS_BAD_WORDS;
    struct store *store = open_read(request, &newest);
    int bad = store == NULL;
    if (!bad && option_given(request, OPTION_HEAD))
        show_head(&newest.last, option_given(request, OPTION_JSON));
    else if (!bad)
        bad = list_lines(store, request, newest.last.sequence);
    store_close(store);
    return bad ? STATUS_NOTHING_DONE : STATUS_ACCEPTED;
}
