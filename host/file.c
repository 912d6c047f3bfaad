#define _GNU_SOURCE /* O_TMPFILE */

#include "file.h"

#include <errno.h>
#include <fcntl.h>
#include <stdio.h>
#include <stdlib.h>
#include <string.h>
#include <sys/stat.h>
#include <unistd.h>

#include "digits.h"
#include "report.h"

static char *folder_of(const char *path)
{
    const char *slash = strrchr(path, '/');
    if (slash == NULL)
        return strdup(".");
    return strndup(path, slash == path ? 1 : (size_t)(slash - path));
}

int file_folder(const char *path)
{
    char *folder = folder_of(path);
    if (folder == NULL)
        return report(path, "no memory");
    int opened = open(folder, O_RDONLY | O_DIRECTORY | O_CLOEXEC);
    if (opened < 0 && errno == EACCES)
        report(
            path, "its folder %s may not be read, so that a power cut could lose the file; allow reading it", folder);
    else if (opened < 0)
        report(path, "its folder %s cannot be opened: %s", folder, strerror(errno));
    free(folder);
    return opened;
}

static int write_whole(int file, const uint8_t *bytes, size_t length)
{
    while (length > 0) {
        ssize_t n = write(file, bytes, length);
        if (n < 0 && errno == EINTR)
            continue;
        if (n <= 0)
            return -1;
        bytes += n;
        length -= (size_t)n;
    }
    return fsync(file);
}

/* A name beside the path that nobody else uses, for disks that cannot make a file without a name. */
static char *passing_name(const char *path)
{
    size_t length = strlen(path) + 32;
    char *name = malloc(length);
    if (name != NULL)
        snprintf(name, length, "%s.%ld.part", path, (long)getpid());
    return name;
}

static int give_name(int file, const char *path)
{
    char own[32];
    snprintf(own, sizeof own, "/proc/self/fd/%d", file);
    return linkat(AT_FDCWD, own, AT_FDCWD, path, AT_SYMLINK_FOLLOW);
}

/* A file that has no name until it is whole: nothing is left of it where the program ends before. */
static int create_nameless(int folder, const char *path, const uint8_t *bytes, size_t length)
{
#ifdef O_TMPFILE
    int file = openat(folder, ".", O_TMPFILE | O_WRONLY | O_CLOEXEC, 0666);
    if (file < 0)
        return -1;
    int bad = write_whole(file, bytes, length) != 0 || give_name(file, path) != 0;
    int why = errno;
    close(file);
    errno = why;
    return bad ? -1 : 0;
#else
    (void)folder, (void)path, (void)bytes, (void)length;
    errno = EOPNOTSUPP;
    return -1;
#endif
}

static int create_renamed(const char *name, const char *path, const uint8_t *bytes, size_t length)
{
    int file = open(name, O_WRONLY | O_CREAT | O_EXCL | O_CLOEXEC, 0666);
    if (file < 0)
        return -1;
    int bad = write_whole(file, bytes, length) != 0 || link(name, path) != 0;
    int why = errno;
    close(file);
    unlink(name);
    errno = why;
    return bad ? -1 : 0;
}

static int create_named(const char *path, const uint8_t *bytes, size_t length)
{
    char *name = passing_name(path);
    if (name == NULL)
        return -1;
    int bad = create_renamed(name, path, bytes, length);
    free(name);
    return bad;
}

static int nameless_unknown(int why)
{
    return why == EOPNOTSUPP || why == EISDIR || why == EINVAL || why == ENOENT;
}

static int create_in(int folder, const char *path, const uint8_t *bytes, size_t length)
{
    int bad = create_nameless(folder, path, bytes, length);
    if (bad && nameless_unknown(errno))
        bad = create_named(path, bytes, length);
    if (bad && errno == EEXIST)
        return report(path, "exists already and stays as it is; choose another name");
    if (bad)
        return report(path, "cannot be made: %s", strerror(errno));
    if (fsync(folder) == 0)
        return 0;
    report(path, "cannot be made durable: %s", strerror(errno));
    unlink(path);
    return -1;
}

int file_create(const char *path, const uint8_t *bytes, size_t length)
{
    int folder = file_folder(path);
    if (folder < 0)
        return -1;
    int bad = create_in(folder, path, bytes, length);
    close(folder);
    return bad;
}

/* Bytes read, one past the image's length at most, so that a longer file shows. */
static ssize_t read_whole(int file, uint8_t *bytes)
{
    ssize_t have = 0;
    while (have <= CRZ_IMAGE_LENGTH) {
        ssize_t n = read(file, bytes + have, (size_t)(CRZ_IMAGE_LENGTH + 1 - have));
        if (n < 0 && errno == EINTR)
            continue;
        if (n <= 0)
            return n < 0 ? -1 : have;
        have += n;
    }
    return have;
}

int file_may_be_image(size_t length)
{
    return length == CRZ_IMAGE_LENGTH || older_layout(length) != NULL;
}

static int report_length(const char *path)
{
    char older[OLDER_WORDS];
    older_lengths(older);
    return report(path, "is no raw image: an image has %s bytes, one of an older program %s",
        grouped(CRZ_IMAGE_LENGTH).text, older);
}

int file_read_image(const char *path, uint8_t image[CRZ_IMAGE_LENGTH], const struct layout **older)
{
    uint8_t bytes[CRZ_IMAGE_LENGTH + 1];
    int file = open(path, O_RDONLY | O_CLOEXEC);
    if (file < 0)
        return report(path, "cannot be opened: %s", strerror(errno));
    ssize_t have = read_whole(file, bytes);
    int why = errno;
    close(file);
    if (have < 0)
        return report(path, "cannot be read: %s", strerror(why));
    if (!file_may_be_image((size_t)have))
        return report_length(path);
    *older = older_layout((size_t)have);
    if (*older != NULL)
        older_to_today(*older, bytes, image);
    else
        memcpy(image, bytes, CRZ_IMAGE_LENGTH);
    return 0;
}
