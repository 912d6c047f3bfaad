/*
 * The store in a SQLite file: table zone has one row, table journal a row for each line.
 *
 * A commit goes through SQLite's rollback journal, a file FILE-journal that is there while a program writes: what a
 * kill or a power cut leaves half written, the next program to open the zone takes back. synchronous=EXTRA has every
 * commit on the disk before it returns. At rest the zone is one file.
 */
#define _XOPEN_SOURCE 700 /* realpath */

#include "store.h"

#include <errno.h>
#include <stdio.h>
#include <stdlib.h>
#include <sys/stat.h>
#include <time.h>

#include <sqlite3.h>

#include "digits.h"
#include "file.h"
#include "judge.h"
#include "report.h"
#include "signals.h"

enum { BATCH = 2 * CRZ_TABLE_COUNT }; /* lines read at once */

enum statement { BEGIN, CANCEL, COMMIT, PAGES, READ_ZONE, READ_NEWEST, READ_LINES, ADD_LINE, PUT_ZONE, STATEMENTS };

#define COLUMNS "sequence, time, entry, call, number, answer, further, image_hash, hash"

static const char *const sql[STATEMENTS] = {
    [BEGIN] = "BEGIN IMMEDIATE",
    [CANCEL] = "ROLLBACK",
    [COMMIT] = "COMMIT",
    [PAGES] = "PRAGMA page_count",
    [READ_ZONE] = "SELECT image, last_hash FROM zone WHERE place = 1",
    [READ_NEWEST] = "SELECT " COLUMNS " FROM journal ORDER BY sequence DESC LIMIT ?1",
    [READ_LINES] = "SELECT " COLUMNS " FROM journal WHERE sequence BETWEEN ?1 AND ?2 ORDER BY sequence LIMIT ?3",
    [ADD_LINE] = "INSERT INTO journal (" COLUMNS ") VALUES (?, ?, ?, ?, ?, ?, ?, ?, ?)",
    [PUT_ZONE] = "UPDATE zone SET image = ?1, last_hash = ?2 WHERE place = 1",
};

/* The tables as SQLite keeps their text: a file with another schema is no zone. */
static const char *const tables[] = {
    "CREATE TABLE zone (place INTEGER PRIMARY KEY, image BLOB NOT NULL, last_hash BLOB NOT NULL)",
    "CREATE TABLE journal (sequence INTEGER PRIMARY KEY, time TEXT NOT NULL, entry TEXT NOT NULL, call BLOB NOT NULL, "
    "number INTEGER NOT NULL, answer BLOB NOT NULL, further BLOB, image_hash BLOB, hash BLOB NOT NULL)",
};

enum { TABLES = sizeof tables / sizeof tables[0] };

struct store {
    char *name; /* as the user gave it, for messages */
    char *path; /* no link, so that all names of a zone share one rollback journal */
    sqlite3 *base;
    sqlite3_stmt *statements[STATEMENTS];
    enum store_use use;
    unsigned wait;
    struct timespec since; /* when the present wait began */
    struct timespec turn;  /* when others were last let in */
    int told;              /* that a wait goes on */
    dev_t device;
    ino_t file;
    struct hash last_hash;                 /* as it was last read */
    struct line read[CRZ_TABLE_COUNT + 1]; /* the lines of a commit and the one before them, read again */
};

const char *store_path(const struct store *store)
{
    return store->name;
}

const char *store_engine(void)
{
    static char words[32];
    snprintf(words, sizeof words, "SQLite %s", sqlite3_libversion());
    return words;
}

/* ── Messages ──────────────────────────────────────────────────────────────────────────────────── */

int store_damaged(const char *name, enum store_use use, const char *what)
{
    if (use == STORE_VERIFY)
        return report(name, "damaged: %s; go back to a copy that verifies", what);
    return report(name, "damaged: %s; 'crz verify %s' looks for the first bad line", what, name);
}

static int damaged(const struct store *store, const char *what)
{
    return store_damaged(store->name, store->use, what);
}

/* Whether the file under the zone's name is still the one that is open. */
static int in_place(const struct store *store, struct stat *is)
{
    return stat(store->path, is) == 0 && is->st_dev == store->device && is->st_ino == store->file;
}

static int moved(const struct store *store)
{
    return report(store->name, "the file was moved or replaced while in use; nothing more is done");
}

/* The lock did not come free in time. */
static int busy(const struct store *store)
{
    if (signals_came())
        return report(store->name, "in use by another program; the program was asked to end before that was over");
    return report(store->name, "in use by another program; gave up after %u second%s, --wait SECONDS waits longer",
        store->wait, plural(store->wait));
}

static int disk_failed(const struct store *store, int code, const char *words)
{
    if (code == SQLITE_IOERR_DELETE)
        return report(store->name,
            "a program was cut off while it wrote, and the file %s-journal that it left cannot be removed: %s; open "
            "the "
            "zone once as the user whose file that is",
            store->path, words);
    return report(store->name, "the disk reports an error: %s", words);
}

static int failed_at(struct store *store, int code)
{
    const char *name = store->name;
    int why = sqlite3_system_errno(store->base);
    const char *words = why != 0 ? strerror(why) : sqlite3_errmsg(store->base);
    struct stat is;
    if (store->file != 0 && !in_place(store, &is))
        return moved(store);
    switch (code & 0xff) {
    case SQLITE_BUSY: return busy(store);
    case SQLITE_FULL: return report(name, "the disk is full; make room and try again");
    case SQLITE_CORRUPT:
    case SQLITE_NOTADB: return damaged(store, "the file is not laid out as a store");
    case SQLITE_READONLY:
        return report(name, "a program was cut off while it wrote; open the zone once as a user who may write it");
    case SQLITE_CANTOPEN:
        return report(name, "it or the file %s-journal beside it cannot be opened: %s", store->path, words);
    case SQLITE_IOERR: return disk_failed(store, code, words);
    default: return report(name, "SQLite: %s", sqlite3_errmsg(store->base));
    }
}

static int failed(struct store *store)
{
    return failed_at(store, sqlite3_extended_errcode(store->base));
}

/* ── Waiting for other programs ────────────────────────────────────────────────────────────────── */

static void start_wait(struct store *store)
{
    clock_gettime(CLOCK_MONOTONIC, &store->since);
}

static double seconds_since(const struct timespec *then)
{
    struct timespec now;
    clock_gettime(CLOCK_MONOTONIC, &now);
    return (double)(now.tv_sec - then->tv_sec) + (double)(now.tv_nsec - then->tv_nsec) / 1e9;
}

/* SQLite asks this whenever a lock is taken: 1 to try again. */
static int try_again(void *context, int tries)
{
    struct store *store = context;
    double seconds = seconds_since(&store->since);
    struct timespec pause = {0, 300000 + 300000 * (tries % 5)}; /* others wait with other pauses */
    if (seconds >= store->wait || signals_came())
        return 0;
    if (seconds >= 1 && !store->told) {
        store->told = 1;
        report(store->name, "in use by another program, waiting up to %u seconds", store->wait);
    }
    nanosleep(&pause, NULL);
    return 1;
}

/* Others look for the lock every 1.5 ms or more often: who makes call after call stands back for one such look. */
static void give_way(struct store *store)
{
    const struct timespec pause = {0, 2000000};
    if (seconds_since(&store->turn) < 0.05)
        return;
    nanosleep(&pause, NULL);
    clock_gettime(CLOCK_MONOTONIC, &store->turn);
}

/* ── Statements ────────────────────────────────────────────────────────────────────────────────── */

static sqlite3_stmt *statement(struct store *store, enum statement which)
{
    sqlite3_stmt **prepared = &store->statements[which];
    if (*prepared == NULL
        && sqlite3_prepare_v3(store->base, sql[which], -1, SQLITE_PREPARE_PERSISTENT, prepared, NULL) != SQLITE_OK)
        failed(store);
    return *prepared;
}

/* A statement without a result. */
static int run(struct store *store, enum statement which)
{
    sqlite3_stmt *prepared = statement(store, which);
    if (prepared == NULL)
        return -1;
    int code = sqlite3_step(prepared);
    sqlite3_reset(prepared);
    return code == SQLITE_DONE ? 0 : failed_at(store, code);
}

/* A statement that is made once. */
static int execute(struct store *store, const char *text)
{
    return sqlite3_exec(store->base, text, NULL, NULL, NULL) == SQLITE_OK ? 0 : failed(store);
}

/* ── Rows ──────────────────────────────────────────────────────────────────────────────────────── */

/* A value's bytes, or -1 where it is of another type or too long. */
static int take(sqlite3_stmt *row, int column, int type, void *bytes, size_t most, size_t *length)
{
    if (sqlite3_column_type(row, column) != type)
        return -1;
    const void *value =
        type == SQLITE_TEXT ? (const void *)sqlite3_column_text(row, column) : sqlite3_column_blob(row, column);
    size_t has = (size_t)sqlite3_column_bytes(row, column);
    if (has > most || (has > 0 && value == NULL))
        return -1;
    if (has > 0)
        memcpy(bytes, value, has);
    *length = has;
    return 0;
}

static int take_text(sqlite3_stmt *row, int column, char *text, size_t most)
{
    size_t length;
    if (take(row, column, SQLITE_TEXT, text, most, &length) != 0)
        return -1;
    text[length] = '\0';
    return strlen(text) == length ? 0 : -1;
}

static int take_hash(sqlite3_stmt *row, int column, struct hash *hash)
{
    size_t length;
    if (take(row, column, SQLITE_BLOB, hash->bytes, sizeof hash->bytes, &length) != 0)
        return -1;
    return length == sizeof hash->bytes ? 0 : -1;
}

static int take_number(sqlite3_stmt *row, int column, uint64_t *number)
{
    if (sqlite3_column_type(row, column) != SQLITE_INTEGER)
        return -1;
    sqlite3_int64 value = sqlite3_column_int64(row, column);
    if (value < 0)
        return -1;
    *number = (uint64_t)value;
    return 0;
}

/* What a line may be without. */
static int take_optional(sqlite3_stmt *row, struct line *line)
{
    line->has_further = sqlite3_column_type(row, 6) != SQLITE_NULL;
    line->has_image_hash = sqlite3_column_type(row, 7) != SQLITE_NULL;
    if (line->has_further && take(row, 6, SQLITE_BLOB, line->further, FURTHER_LENGTH, &line->further_length) != 0)
        return -1;
    return line->has_image_hash ? take_hash(row, 7, &line->image_hash) : 0;
}

static int take_line(struct store *store, sqlite3_stmt *row, struct line *line)
{
    uint64_t number = 0;
    char what[96];
    memset(line, 0, sizeof *line);
    int bad = take_number(row, 0, &line->sequence) != 0;
    bad |= take_text(row, 1, line->time, TIME_LENGTH) != 0 || take_text(row, 2, line->entry, ENTRY_LENGTH) != 0;
    bad |= take(row, 3, SQLITE_BLOB, line->call, CRZ_CALL_LENGTH, &line->call_length) != 0;
    bad |= take_number(row, 4, &number) != 0 || number > UINT32_MAX;
    bad |= take(row, 5, SQLITE_BLOB, line->answer, CRZ_ANSWER_LENGTH, &line->answer_length) != 0;
    bad |= take_optional(row, line) != 0 || take_hash(row, 8, &line->hash) != 0;
    line->number = (uint32_t)number;
    if (!bad)
        return 0;
    snprintf(what, sizeof what, "line %llu of the journal has a field of another type or length",
        (unsigned long long)line->sequence);
    return damaged(store, what);
}

static int read_zone(struct store *store, struct kept *kept)
{
    sqlite3_stmt *row = statement(store, READ_ZONE);
    size_t length = 0;
    if (row == NULL)
        return -1;
    int code = sqlite3_step(row), bad = -1;
    if (code == SQLITE_DONE)
        damaged(store, "it has no image");
    else if (code != SQLITE_ROW)
        failed_at(store, code);
    else if (take(row, 0, SQLITE_BLOB, kept->image, CRZ_IMAGE_LENGTH, &length) != 0 || length != CRZ_IMAGE_LENGTH
             || take_hash(row, 1, &kept->last_hash) != 0)
        damaged(store, "its image has another type or length");
    else
        bad = 0;
    sqlite3_reset(row);
    return bad;
}

/* Lines of a statement, `most` at most, and how many; -1 after a message, with the lines before the bad one. */
static int read_lines(struct store *store, sqlite3_stmt *rows, struct line *lines, int most, int *count)
{
    int code = SQLITE_ROW, bad = 0;
    *count = 0;
    while (!bad && *count < most && (code = sqlite3_step(rows)) == SQLITE_ROW) {
        bad = take_line(store, rows, &lines[*count]);
        *count += bad ? 0 : 1;
    }
    sqlite3_reset(rows);
    return bad || code == SQLITE_ROW || code == SQLITE_DONE ? bad : failed_at(store, code);
}

/* The newest lines, `most` at most, the last one first; NULL after a message. */
static sqlite3_stmt *newest_rows(struct store *store, size_t most)
{
    sqlite3_stmt *rows = statement(store, READ_NEWEST);
    if (rows == NULL || sqlite3_bind_int64(rows, 1, (sqlite3_int64)most) == SQLITE_OK)
        return rows;
    failed(store);
    return NULL;
}

static int read_newest(struct store *store, struct newest *newest)
{
    struct line lines[2];
    sqlite3_stmt *rows = newest_rows(store, 2);
    if (rows == NULL || read_zone(store, &newest->kept) != 0)
        return -1;
    int count;
    if (read_lines(store, rows, lines, 2, &count) != 0)
        return -1;
    if (count == 0)
        return damaged(store, "it has no journal");
    newest->last = lines[0];
    store->last_hash = lines[0].hash;
    memset(&newest->before, 0, sizeof newest->before);
    if (count == 2)
        newest->before = lines[1].hash;
    if (count == 2 ? lines[1].sequence + 1 == lines[0].sequence : lines[0].sequence == 0)
        return 0;
    return damaged(store, "the line before the last one is missing");
}

static int bind_line(sqlite3_stmt *row, const struct line *line)
{
    int code = sqlite3_bind_int64(row, 1, (sqlite3_int64)line->sequence);
    code |= sqlite3_bind_text(row, 2, line->time, -1, SQLITE_STATIC);
    code |= sqlite3_bind_text(row, 3, line->entry, -1, SQLITE_STATIC);
    code |= sqlite3_bind_blob(row, 4, line->call, (int)line->call_length, SQLITE_STATIC);
    code |= sqlite3_bind_int64(row, 5, line->number);
    code |= sqlite3_bind_blob(row, 6, line->answer, (int)line->answer_length, SQLITE_STATIC);
    if (line->has_further)
        code |= sqlite3_bind_blob(row, 7, line->further, (int)line->further_length, SQLITE_STATIC);
    if (line->has_image_hash)
        code |= sqlite3_bind_blob(row, 8, line->image_hash.bytes, HASH_LENGTH, SQLITE_STATIC);
    code |= sqlite3_bind_blob(row, 9, line->hash.bytes, HASH_LENGTH, SQLITE_STATIC);
    return code;
}

static int add_line(struct store *store, const struct line *line)
{
    sqlite3_stmt *row = statement(store, ADD_LINE);
    if (row == NULL || sqlite3_clear_bindings(row) != SQLITE_OK)
        return -1;
    return bind_line(row, line) == SQLITE_OK ? run(store, ADD_LINE) : failed(store);
}

static int put_zone(struct store *store, const uint8_t *image, const struct hash *last_hash)
{
    sqlite3_stmt *row = statement(store, PUT_ZONE);
    if (row == NULL)
        return -1;
    if (sqlite3_bind_blob(row, 1, image, CRZ_IMAGE_LENGTH, SQLITE_STATIC) != SQLITE_OK
        || sqlite3_bind_blob(row, 2, last_hash->bytes, HASH_LENGTH, SQLITE_STATIC) != SQLITE_OK)
        return failed(store);
    return run(store, PUT_ZONE);
}

/* ── Opening and closing ───────────────────────────────────────────────────────────────────────── */

/* Rows of the schema that are one of the tables, in their order; any other row makes it -1. */
static int same_table(void *context, int columns, char **values, char **names)
{
    int *next = context;
    (void)names;
    if (columns != 1 || *next < 0 || *next >= TABLES || values[0] == NULL || strcmp(values[0], tables[*next]) != 0)
        *next = -1;
    else
        ++*next;
    return 0;
}

static int judge_schema(struct store *store)
{
    int found = 0;
    if (sqlite3_exec(store->base, "SELECT sql FROM sqlite_master ORDER BY rowid", same_table, &found, NULL)
        != SQLITE_OK)
        return failed(store);
    return found == TABLES ? 0 : damaged(store, "its tables are not those of a zone");
}

static int set_up(struct store *store)
{
    sqlite3_extended_result_codes(store->base, 1);
    sqlite3_db_config(store->base, SQLITE_DBCONFIG_DEFENSIVE, 1, NULL);
    sqlite3_db_config(store->base, SQLITE_DBCONFIG_ENABLE_TRIGGER, 0, NULL);
    sqlite3_db_config(store->base, SQLITE_DBCONFIG_ENABLE_VIEW, 0, NULL);
    sqlite3_busy_handler(store->base, try_again, store);
    start_wait(store);
    store->turn = store->since;
    if (execute(store, "PRAGMA trusted_schema = OFF") != 0 || execute(store, "PRAGMA cell_size_check = ON") != 0
        || execute(store, "PRAGMA mmap_size = 0") != 0 || execute(store, "PRAGMA temp_store = MEMORY") != 0
        || execute(store, "PRAGMA fullfsync = ON") != 0 || execute(store, "PRAGMA synchronous = EXTRA") != 0)
        return -1;
    if (store->use == STORE_WRITE && execute(store, "PRAGMA journal_mode = PERSIST") != 0)
        return -1;
    return judge_schema(store);
}

static int open_base(struct store *store)
{
    if (sqlite3_open_v2(store->path, &store->base, SQLITE_OPEN_READWRITE | SQLITE_OPEN_NOMUTEX, NULL) == SQLITE_OK)
        return set_up(store);
    return store->base == NULL ? report(store->name, "no memory") : failed(store);
}

static int open_judged(struct store *store, const char *name)
{
    struct stat is;
    if (judge_file(name, store->use, &is) != 0)
        return -1;
    store->path = realpath(name, NULL);
    if (store->path == NULL)
        return report(name, "cannot be opened: %s", strerror(errno));
    if (judge_beside(name, store->path) != 0)
        return -1;
    if (store->use == STORE_WRITE && judge_writing(name, store->path, &is) != 0)
        return -1;
    store->device = is.st_dev;
    store->file = is.st_ino;
    return open_base(store);
}

static struct store *store_named(const char *name, enum store_use use, unsigned wait)
{
    struct store *store = calloc(1, sizeof *store);
    if (store != NULL && (store->name = strdup(name)) != NULL) {
        store->use = use;
        store->wait = wait;
        return store;
    }
    report(name, "no memory");
    free(store);
    return NULL;
}

struct store *store_open(const char *name, enum store_use use, unsigned wait)
{
    struct store *store = store_named(name, use, wait);
    if (store == NULL || open_judged(store, name) == 0)
        return store;
    store_close(store);
    return NULL;
}

void store_close(struct store *store)
{
    if (store == NULL)
        return;
    for (int i = 0; i < STATEMENTS; i++)
        sqlite3_finalize(store->statements[i]);
    store->wait = 0;
    if (store->base != NULL && store->use == STORE_WRITE) /* removes the rollback file where no other program uses it */
        sqlite3_exec(store->base, "PRAGMA journal_mode = DELETE", NULL, NULL, NULL);
    sqlite3_close(store->base);
    free(store->path);
    free(store->name);
    free(store);
}

/* ── Making a store ────────────────────────────────────────────────────────────────────────────── */

static int fill(struct store *store, const uint8_t *image, const struct line *start)
{
    char ids[128];
    sqlite3_stmt *row = NULL;
    snprintf(ids, sizeof ids, "PRAGMA page_size = %d; PRAGMA application_id = %d; PRAGMA user_version = %d", JUDGE_PAGE,
        JUDGE_APPLICATION, STORE_FORMAT);
    if (execute(store, ids) != 0 || execute(store, tables[0]) != 0 || execute(store, tables[1]) != 0)
        return -1;
    int code = sqlite3_prepare_v2(store->base, "INSERT INTO zone VALUES (1, ?1, ?2)", -1, &row, NULL);
    if (code == SQLITE_OK)
        code = sqlite3_bind_blob(row, 1, image, CRZ_IMAGE_LENGTH, SQLITE_STATIC);
    if (code == SQLITE_OK)
        code = sqlite3_bind_blob(row, 2, start->hash.bytes, HASH_LENGTH, SQLITE_STATIC);
    if (code == SQLITE_OK)
        code = sqlite3_step(row);
    sqlite3_finalize(row);
    return code == SQLITE_DONE ? add_line(store, start) : failed(store);
}

/* The file's bytes, made in memory; NULL after a message. */
static unsigned char *make_bytes(struct store *store, const uint8_t *image, const struct line *start, size_t *length)
{
    sqlite3_int64 made = 0;
    if (sqlite3_open_v2(":memory:", &store->base, SQLITE_OPEN_READWRITE | SQLITE_OPEN_NOMUTEX, NULL) != SQLITE_OK
        || fill(store, image, start) != 0)
        return NULL;
    unsigned char *bytes = sqlite3_serialize(store->base, "main", &made, 0);
    if (bytes == NULL)
        report(store->name, "no memory");
    *length = (size_t)made;
    return bytes;
}

/* Written as a whole: the file is never seen half made. */
int store_create(const char *path, const uint8_t image[CRZ_IMAGE_LENGTH], const struct line *start)
{
    struct store *store = judge_name(path) == 0 ? store_named(path, STORE_READ, 0) : NULL;
    size_t length = 0;
    if (store == NULL)
        return -1;
    unsigned char *bytes = make_bytes(store, image, start, &length);
    int bad = bytes == NULL || file_create(path, bytes, length) != 0;
    sqlite3_free(bytes);
    store_close(store);
    return bad ? -1 : 0;
}

/* ── Reading and committing ────────────────────────────────────────────────────────────────────── */

/* The file is in its place, and as long as SQLite takes it to be. */
static int judge_place(struct store *store)
{
    struct stat is;
    sqlite3_stmt *row = statement(store, PAGES);
    if (row == NULL)
        return -1;
    int code = sqlite3_step(row);
    sqlite3_int64 pages = code == SQLITE_ROW ? sqlite3_column_int64(row, 0) : 0;
    sqlite3_reset(row);
    if (code != SQLITE_ROW)
        return failed_at(store, code);
    if (!in_place(store, &is))
        return moved(store);
    return is.st_size == pages * JUDGE_PAGE ? 0 : damaged(store, "it has another length than its header says");
}

void store_cancel(struct store *store)
{
    if (!sqlite3_get_autocommit(store->base))
        sqlite3_exec(store->base, sql[CANCEL], NULL, NULL, NULL);
}

int store_begin(struct store *store)
{
    give_way(store);
    start_wait(store);
    if (run(store, BEGIN) != 0)
        return -1;
    if (judge_place(store) == 0)
        return 0;
    store_cancel(store);
    return -1;
}

int store_read(struct store *store, struct newest *newest)
{
    int own = sqlite3_get_autocommit(store->base);
    start_wait(store);
    if (own && execute(store, "BEGIN") != 0)
        return -1;
    int bad = read_newest(store, newest);
    if (own)
        store_cancel(store);
    return bad;
}

static int same_bytes(const uint8_t *a, size_t a_length, const uint8_t *b, size_t b_length)
{
    return a_length == b_length && memcmp(a, b, a_length) == 0;
}

static int same_line(const struct line *a, const struct line *b)
{
    return a->sequence == b->sequence && strcmp(a->time, b->time) == 0 && strcmp(a->entry, b->entry) == 0
           && same_bytes(a->call, a->call_length, b->call, b->call_length) && a->number == b->number
           && same_bytes(a->answer, a->answer_length, b->answer, b->answer_length) && a->has_further == b->has_further
           && same_bytes(a->further, a->further_length, b->further, b->further_length)
           && a->has_image_hash == b->has_image_hash && hash_same(&a->image_hash, &b->image_hash)
           && hash_same(&a->hash, &b->hash);
}

/* Whether the newest lines, the last one first, are those of the commit. */
static int same_lines(const struct line *newest, const struct line *lines, size_t count)
{
    int same = 1;
    for (size_t i = 0; i < count && same; i++)
        same = same_line(&newest[i], &lines[count - 1 - i]);
    return same;
}

/* Read again before the commit: a page that is damaged inside could have put one line over another. */
static int stands(struct store *store, const uint8_t *image, const struct line *lines, size_t count)
{
    struct kept kept;
    struct line *read = store->read;
    int found;
    sqlite3_stmt *rows = newest_rows(store, count + 1);
    if (rows == NULL || read_zone(store, &kept) != 0 || read_lines(store, rows, read, (int)count + 1, &found) != 0)
        return -1;
    if (memcmp(kept.image, image, CRZ_IMAGE_LENGTH) == 0 && hash_same(&kept.last_hash, &lines[count - 1].hash)
        && (size_t)found == count + 1 && same_lines(read, lines, count)
        && hash_same(&read[count].hash, &store->last_hash))
        return 0;
    return damaged(store, "what was written is not what stands there");
}

/* SQLite may report an error of a commit that is on the disk all the same: what is read then decides. */
static enum commit after_error(struct store *store, const struct hash *hash)
{
    struct newest newest;
    store_cancel(store);
    if (store_read(store, &newest) != 0 || hash_same(&newest.kept.last_hash, hash))
        return COMMIT_UNSURE;
    return COMMIT_NOT_DONE;
}

/* The first table of a zone gives it the format that older programs leave alone; those behind it change nothing. */
static int put_format(struct store *store)
{
    char text[64];
    snprintf(text, sizeof text, "PRAGMA user_version = %d", STORE_FORMAT_TABLES);
    return execute(store, text);
}

enum commit store_commit(
    struct store *store, const uint8_t image[CRZ_IMAGE_LENGTH], const struct line *lines, size_t count)
{
    int bad = line_in_table(&lines[0]) && put_format(store) != 0;
    for (size_t i = 0; i < count && !bad; i++)
        bad = add_line(store, &lines[i]);
    bad = bad || put_zone(store, image, &lines[count - 1].hash) != 0 || stands(store, image, lines, count) != 0;
    if (bad) {
        store_cancel(store);
        return COMMIT_NOT_DONE;
    }
    start_wait(store);
    return run(store, COMMIT) == 0 ? COMMIT_DONE : after_error(store, &lines[count - 1].hash);
}

/* ── Walking ───────────────────────────────────────────────────────────────────────────────────── */

/* The next lines, a batch at most: a lock is held no longer than that takes. */
static int read_batch(struct store *store, uint64_t first, uint64_t last, struct line *lines, int *count)
{
    sqlite3_stmt *rows = statement(store, READ_LINES);
    start_wait(store);
    *count = 0;
    if (rows == NULL)
        return -1;
    if (sqlite3_bind_int64(rows, 1, (sqlite3_int64)first) != SQLITE_OK
        || sqlite3_bind_int64(rows, 2, (sqlite3_int64)last) != SQLITE_OK
        || sqlite3_bind_int(rows, 3, BATCH) != SQLITE_OK)
        return failed(store);
    return read_lines(store, rows, lines, BATCH, count);
}

/* Lines of the first commit: up to its image hash, or all of them where none has one. */
static int commit_length(const struct line *lines, int count)
{
    int length = 1;
    while (length < count && !lines[length - 1].has_image_hash)
        length++;
    return length;
}

/* Visits the commits of a batch. One that may go on behind it is left for the next batch, which begins with it. */
static int visit_batch(const struct line *lines, int count, int *visited, visit_commit *visit, void *context)
{
    int result = 0;
    *visited = 0;
    while (*visited < count && result == 0) {
        int length = commit_length(lines + *visited, count - *visited);
        int ends = *visited + length < count || count < BATCH || lines[count - 1].has_image_hash;
        if (!ends && *visited > 0)
            return 0;
        result = visit(context, lines + *visited, (size_t)length);
        *visited += length;
    }
    return result;
}

int store_walk(struct store *store, uint64_t first, uint64_t last, visit_commit *visit, void *context)
{
    struct line *lines = malloc(BATCH * sizeof *lines);
    int count = BATCH, visited, result = 0;
    if (lines == NULL)
        return report(store->name, "no memory");
    while (first <= last && count == BATCH && result == 0) {
        int bad = read_batch(store, first, last, lines, &count);
        result = visit_batch(lines, count, &visited, visit, context);
        result = result == 0 ? bad : result;
        if (visited > 0)
            first = lines[visited - 1].sequence + 1;
    }
    free(lines);
    return result;
}

enum { FINDING = 128 };

static int first_finding(void *context, int columns, char **values, char **names)
{
    char *finding = context;
    (void)names;
    if (columns == 1 && values[0] != NULL)
        snprintf(finding, FINDING, "%s", values[0]);
    for (char *end = strchr(finding, '\n'); end != NULL; end = strchr(finding, '\n'))
        *end = ' ';
    return 0;
}

static int quick_check(struct store *store)
{
    char finding[FINDING] = "";
    if (sqlite3_exec(store->base, "PRAGMA quick_check(1)", first_finding, finding, NULL) != SQLITE_OK)
        return failed(store);
    return strcmp(finding, "ok") == 0 ? 0 : damaged(store, finding);
}

int store_judge(struct store *store)
{
    start_wait(store);
    if (execute(store, "BEGIN") != 0)
        return -1;
    int bad = quick_check(store) != 0 || judge_place(store) != 0;
    store_cancel(store);
    return bad ? -1 : 0;
}
