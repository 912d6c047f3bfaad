/* Put before a program's own functions: the sync with the number in FAIL_SYNC fails as a disk's would. */
#define _GNU_SOURCE

#include <dlfcn.h>
#include <errno.h>
#include <stdlib.h>

typedef int sync_function(int file);

static int fails(void)
{
    static int count;
    const char *wanted = getenv("FAIL_SYNC");
    return wanted != NULL && ++count == atoi(wanted);
}

static int sync_by(const char *name, int file)
{
    void *found = dlsym(RTLD_NEXT, name);
    sync_function *next;
    *(void **)&next = found;
    if (!fails())
        return next(file);
    errno = EIO;
    return -1;
}

int fsync(int file)
{
    return sync_by("fsync", file);
}

int fdatasync(int file)
{
    return sync_by("fdatasync", file);
}
