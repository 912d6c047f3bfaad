#define _DEFAULT_SOURCE

#include "lent.h"

#include <stdio.h>
#include <stdlib.h>
#include <string.h>
#include <sys/mman.h>
#include <unistd.h>

enum { PAINT = 0xc3, PAINTED = 64, ROOM = PAINTED + 1 + LENT_MOST + PAINTED };

/* the room's length, in whole pages */
static size_t room_length(void)
{
    size_t page = (size_t)sysconf(_SC_PAGESIZE);
    return (ROOM + page - 1) / page * page;
}

static uint8_t *make_room(void)
{
    size_t page = (size_t)sysconf(_SC_PAGESIZE), length = room_length();
    uint8_t *all = mmap(NULL, page + length + page, PROT_NONE, MAP_PRIVATE | MAP_ANONYMOUS, -1, 0);
    if (all == MAP_FAILED || mprotect(all + page, length, PROT_READ | PROT_WRITE) != 0) {
        perror("no room between two walls");
        exit(2);
    }
    return all + page;
}

static void protect(struct lent *lent, int read_only)
{
    if (mprotect(lent->room, room_length(), read_only ? PROT_READ : PROT_READ | PROT_WRITE) != 0) {
        perror("a room that is only read");
        exit(2);
    }
    lent->read_only = read_only;
}

/* painted bytes before and behind the buffer: as many as there is room for */
static size_t painted_before(const struct lent *lent)
{
    size_t there = (size_t)(lent->bytes - lent->room);
    return there < PAINTED ? there : PAINTED;
}

static size_t painted_behind(const struct lent *lent)
{
    size_t there = room_length() - (size_t)(lent->bytes - lent->room) - lent->len;
    return there < PAINTED ? there : PAINTED;
}

void lend(struct lent *lent, enum lent_place place, size_t len)
{
    if (lent->room == NULL)
        lent->room = make_room();
    if (len > LENT_MOST)
        exit(2);
    if (lent->read_only)
        protect(lent, 0);
    lent->len = len;
    switch (place) {
    case LENT_END_AT_WALL: lent->bytes = lent->room + room_length() - len; break;
    case LENT_START_AT_WALL: lent->bytes = lent->room; break;
    default: lent->bytes = lent->room + PAINTED + 1;
    }
    memset(lent->bytes - painted_before(lent), PAINT, painted_before(lent));
    memset(lent->bytes + len, PAINT, painted_behind(lent));
}

void lend_bytes(struct lent *lent, enum lent_place place, const uint8_t *bytes, size_t len)
{
    lend(lent, place, len);
    memcpy(lent->bytes, bytes, len);
}

void lend_filled(struct lent *lent, enum lent_place place, uint8_t fill, size_t len)
{
    lend(lent, place, len);
    memset(lent->bytes, fill, len);
}

void lend_for_reading(struct lent *lent)
{
    protect(lent, 1);
}

uint8_t *lend_nothing(void)
{
    static uint8_t *wall;
    if (wall == NULL)
        wall = mmap(NULL, ROOM, PROT_NONE, MAP_PRIVATE | MAP_ANONYMOUS, -1, 0);
    if (wall == MAP_FAILED) {
        perror("no wall");
        exit(2);
    }
    return wall;
}

static int all_painted(const uint8_t *bytes, size_t count)
{
    while (count-- > 0)
        if (*bytes++ != PAINT)
            return 0;
    return 1;
}

int lent_kept(const struct lent *lent)
{
    return all_painted(lent->bytes - painted_before(lent), painted_before(lent))
           && all_painted(lent->bytes + lent->len, painted_behind(lent));
}
