#define _GNU_SOURCE /* AT_EACCESS */

#include "judge.h"

#include <errno.h>
#include <fcntl.h>
#include <stdio.h>
#include <unistd.h>

#include "file.h"
#include "report.h"

enum { HEADER = 100, LONGEST_PATH = 480 };

/* Names of SQLite's own files beside a zone; of these a zone has the first, while a program writes. */
static const char *const endings[] = {"-journal", "-wal", "-shm"};

enum { ENDINGS = sizeof endings / sizeof endings[0] };

/* ── The file ──────────────────────────────────────────────────────────────────────────────────── */

static uint32_t big_endian(const uint8_t *at)
{
    return (uint32_t)at[0] << 24 | (uint32_t)at[1] << 16 | (uint32_t)at[2] << 8 | at[3];
}

/* Fields of SQLite's header that a zone never changes: page size, legacy format, no free pages, UTF-8, zeros. */
static int header_ours(const uint8_t *header)
{
    static const uint8_t layout[] = {JUDGE_PAGE >> 8, JUDGE_PAGE & 0xff, 1, 1, 0, 64, 32, 32}, zeros[20] = {0};
    return memcmp(header + 16, layout, sizeof layout) == 0 && memcmp(header + 32, zeros, 8) == 0
           && big_endian(header + 44) == 4 && memcmp(header + 48, zeros, 8) == 0 && big_endian(header + 56) == 1
           && big_endian(header + 64) == 0 && memcmp(header + 72, zeros, 20) == 0;
}

/* What an older program exports can be imported; a newer one is to be used itself. */
static int other_format(const char *name, unsigned format)
{
    if (format > STORE_FORMAT_TABLES)
        return report(name,
            "is a zone of the newer format %u; this program knows formats %d and %d and leaves the file as it was; use "
            "the program that made it",
            format, STORE_FORMAT, STORE_FORMAT_TABLES);
    return report(name,
        "is a zone of the older format %u; this program knows formats %d and %d and leaves the file as it was; the "
        "program that made it writes its image with 'crz export %s IMAGE', and 'crz import ZONE IMAGE' here takes "
        "that, or says which trades are to be finished first",
        format, STORE_FORMAT, STORE_FORMAT_TABLES, name);
}

static int judge_header(const char *name, enum store_use use, const uint8_t *header, ssize_t has, off_t length)
{
    static const char magic[16] = "SQLite format 3";
    if (has < 0)
        return report(name, "cannot be read: %s", strerror(errno));
    if (file_may_be_image((size_t)length))
        return report(name, "is no zone; if it is a raw image, 'crz import ZONE %s' makes a zone from it", name);
    if (has < HEADER || memcmp(header, magic, sizeof magic) != 0 || big_endian(header + 68) != JUDGE_APPLICATION)
        return report(name, "is no zone; name a file that 'crz new' or 'crz import' has made");
    unsigned format = big_endian(header + 60);
    if (format != STORE_FORMAT && format != STORE_FORMAT_TABLES)
        return other_format(name, format);
    return header_ours(header) ? 0 : store_damaged(name, use, "its header is changed");
}

static int judge_kind(const char *name, int file, struct stat *is)
{
    if (fstat(file, is) != 0)
        return report(name, "cannot be read: %s", strerror(errno));
    if (S_ISDIR(is->st_mode))
        return report(name, "is a folder, not a zone");
    return S_ISREG(is->st_mode) ? 0 : report(name, "is no regular file");
}

static void silence(int stream)
{
    int nowhere = open("/dev/null", O_WRONLY | O_CLOEXEC);
    if (nowhere < 0)
        return;
    dup2(nowhere, stream);
    close(nowhere);
}

/* Whether answers or messages go into that file. They would damage what SQLite keeps there, and are held back. */
static int is_output(const struct stat *file)
{
    struct stat is;
    int found = 0;
    for (int stream = STDOUT_FILENO; stream <= STDERR_FILENO; stream++) {
        if (fstat(stream, &is) != 0 || is.st_dev != file->st_dev || is.st_ino != file->st_ino)
            continue;
        silence(stream);
        found = 1;
    }
    return found;
}

/* Closed again before SQLite opens the file: a second descriptor, closed later, would drop SQLite's locks. */
int judge_file(const char *name, enum store_use use, struct stat *is)
{
    uint8_t header[HEADER];
    int file = open(name, O_RDONLY | O_NONBLOCK | O_NOCTTY | O_CLOEXEC);
    if (file < 0 && errno == ENOENT)
        return report(name, "there is no such file; 'crz new %s' makes a zone", name);
    if (file < 0)
        return report(name, "cannot be opened: %s", strerror(errno));
    int bad = judge_kind(name, file, is);
    if (!bad && is_output(is))
        bad = report(name, "the program's output goes into the zone itself; choose another file for it");
    if (!bad)
        bad = judge_header(name, use, header, pread(file, header, HEADER, 0), is->st_size);
    close(file);
    return bad ? -1 : 0;
}

/* Whether a file is SQLite's rollback file, by its first bytes: its mark, zeros after a commit, or nothing. */
static int is_rollback_file(const char *path)
{
    static const uint8_t mark[8] = {0xd9, 0xd5, 0x05, 0xf9, 0x20, 0xa1, 0x63, 0xd7}, zeros[8] = {0};
    uint8_t first[8];
    int file = open(path, O_RDONLY | O_NONBLOCK | O_NOCTTY | O_CLOEXEC);
    if (file < 0)
        return 1; /* SQLite meets the same error and says so */
    ssize_t has = pread(file, first, sizeof first, 0);
    close(file);
    return has == 0 || (has == 8 && (memcmp(first, mark, 8) == 0 || memcmp(first, zeros, 8) == 0));
}

/* SQLite would take files with these names for its own, and change or remove them. */
int judge_beside(const char *name, const char *path)
{
    char beside[LONGEST_PATH + 16];
    struct stat is;
    if (strlen(path) > LONGEST_PATH)
        return report(name, "its whole path is longer than %d bytes", LONGEST_PATH);
    for (size_t i = 0; i < ENDINGS; i++) {
        snprintf(beside, sizeof beside, "%s%s", path, endings[i]);
        if (lstat(beside, &is) != 0)
            continue;
        if (i != 0 || !S_ISREG(is.st_mode) || is_output(&is) || !is_rollback_file(beside))
            return report(name, "%s does not belong to it; move that file away first", beside);
    }
    return 0;
}

/* SQLite makes its rollback file in the zone's folder, and makes its name durable there. */
static int judge_folder(const char *name, const char *path)
{
    int folder = file_folder(path);
    if (folder < 0)
        return -1;
    int bad = faccessat(folder, ".", W_OK | X_OK, AT_EACCESS) != 0;
    int why = errno;
    close(folder);
    if (!bad)
        return 0;
    return report(name, "its folder cannot be written: %s; SQLite keeps a file there during a call", strerror(why));
}

/* The superuser may write every file; a file that nobody may write is meant to stay as it is. */
int judge_writing(const char *name, const char *path, const struct stat *is)
{
    if ((is->st_mode & (S_IWUSR | S_IWGRP | S_IWOTH)) == 0)
        return report(
            name, "nobody may write it (mode %03o); 'chmod u+w %s' allows it", (unsigned)is->st_mode & 07777, name);
    if (is->st_nlink > 1)
        return report(name, "has %lu names (hard links), which SQLite cannot keep apart; remove the others",
            (unsigned long)is->st_nlink);
    if (faccessat(AT_FDCWD, path, W_OK, AT_EACCESS) != 0)
        return report(name, "cannot be written: %s", strerror(errno));
    return judge_folder(name, path);
}

/* ── Names of new zones ────────────────────────────────────────────────────────────────────────── */

/* SQLite takes whole paths up to a length; a zone that nobody could open is not made. */
static int path_fits(const char *path)
{
    char here[LONGEST_PATH + 1];
    if (path[0] == '/')
        return strlen(path) <= LONGEST_PATH;
    return getcwd(here, sizeof here) != NULL && strlen(here) + 1 + strlen(path) <= LONGEST_PATH;
}

/* What is left of another zone would be taken for changes of this one, and a name like that for a file of SQLite's. */
int judge_name(const char *path)
{
    char beside[LONGEST_PATH + 16];
    struct stat is;
    size_t length = strlen(path);
    if (!path_fits(path))
        return report(path, "its whole path is longer than %d bytes", LONGEST_PATH);
    for (size_t i = 0; i < ENDINGS; i++) {
        size_t end = strlen(endings[i]);
        if (length >= end && strcmp(path + length - end, endings[i]) == 0)
            return report(path, "names that end in %s are SQLite's own; choose another name", endings[i]);
        snprintf(beside, sizeof beside, "%s%s", path, endings[i]);
        if (lstat(beside, &is) == 0)
            return report(path, "%s is there, left of another zone perhaps; move that file away first", beside);
    }
    return 0;
}
