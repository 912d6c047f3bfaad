/*
 * The stack that the entries take, over the calls, tables and shortfalls of the vectors: each is made on a thread whose
 * stack was painted before, and what is painted no more was used. A call is also made in a full table of its like, on a
 * copy of the image, and behind one that is accepted the shortfalls are asked for. All of it is held to the bound that
 * crz.h states. Usage: stack LIST. The last line is 'N passed, M failed'; a call, a table or shortfalls that stay below
 * the bound count once.
 */
#define _XOPEN_SOURCE 700

#include "../include/crz_records.h"
#include "vector_file.h"

#include <pthread.h>
#include <stdio.h>
#include <stdlib.h>
#include <string.h>

enum { STACK = 1 << 18, PAINT = 0xa5, BOUND = 16 * 1024 };

static uint8_t image[VECTOR_MOST], answer[VECTOR_MOST];
static unsigned char *stack;
static const struct vector_step *step; /* what the thread makes */
static uint32_t number;
static size_t most[STEP_KINDS], own; /* the most by kind of step; what a thread takes that does nothing */

static void *nothing(void *none)
{
    return none;
}

static void *make_fresh(void *none)
{
    number = crz_fresh(image, step->image_len);
    return none;
}

static void *make_call(void *none)
{
    number = crz_call(image, step->image_len, step->call, step->call_len, answer, step->answer_len);
    return none;
}

static void *make_table(void *none)
{
    number = crz_table(image, step->image_len, step->call, step->call_len, answer, step->answer_len);
    return none;
}

static void *make_shortfalls(void *none)
{
    number = crz_shortfalls(image, step->image_len, answer, step->answer_len);
    return none;
}

/* the record of the step as often as a table can have it, on a copy of the image */
static void *make_full_table(void *none)
{
    static uint8_t copy[VECTOR_MOST], calls[CRZ_TABLE_COUNT * CRZ_CALL_LENGTH], answers[VECTOR_MOST];
    size_t i;
    for (i = 0; i < CRZ_TABLE_COUNT; i++)
        memcpy(calls + crz_call_offset(i), step->call, CRZ_CALL_LENGTH);
    memcpy(copy, image, sizeof copy);
    number = crz_table(copy, step->image_len, calls, sizeof calls, answers, sizeof answers);
    return none;
}

/* bytes of stack that a thread used for the work */
static size_t used(void *(*work)(void *))
{
    pthread_attr_t attr;
    pthread_t thread;
    size_t i = 0;
    memset(stack, PAINT, STACK);
    if (pthread_attr_init(&attr) || pthread_attr_setstack(&attr, stack, STACK)
        || pthread_create(&thread, &attr, work, NULL) || pthread_join(thread, NULL) || pthread_attr_destroy(&attr)) {
        fprintf(stderr, "no thread with a stack of its own\n");
        exit(2);
    }
    while (i < STACK && stack[i] == PAINT)
        i++;
    return STACK - i;
}

static int within_bound(void *(*work)(void *), enum step_kind kind, uint32_t wanted)
{
    size_t all = used(work), taken = all > own ? all - own : 0;
    if (taken > most[kind])
        most[kind] = taken;
    return number == wanted && taken < BOUND;
}

/* an accepted call has an answer that is long enough for the figures */
static int call_within_bound(void)
{
    int full = step->call_len != CRZ_CALL_LENGTH || within_bound(make_full_table, STEP_TABLE, CRZ_NUMBER_ACCEPTED);
    int made = within_bound(make_call, STEP_CALL, step->number);
    int asked = step->number != CRZ_NUMBER_ACCEPTED || within_bound(make_shortfalls, STEP_SHORTFALLS, step->number);
    return full && made && asked;
}

static int make(const struct vector_step *next)
{
    step = next;
    switch (step->kind) {
    case STEP_FRESH: return within_bound(make_fresh, STEP_FRESH, CRZ_NUMBER_ACCEPTED);
    case STEP_PATCH: patch_image(&step->patch, image); return 1;
    case STEP_LENGTH: memset(image + step->image_len, 0, sizeof image - step->image_len); return 1;
    case STEP_TABLE: return within_bound(make_table, STEP_TABLE, step->number);
    case STEP_SHORTFALLS: return within_bound(make_shortfalls, STEP_SHORTFALLS, step->number);
    default: return call_within_bound();
    }
}

int main(int argc, char **argv)
{
    struct tally tally = {0, 0};
    void *memory;
    if (argc != 2) {
        fprintf(stderr, "usage: stack LIST\n");
        return 2;
    }
    if (posix_memalign(&memory, 4096, STACK))
        return 2;
    stack = memory;
    used(nothing); /* the first thread of a program takes more */
    own = used(nothing);
    walk_vectors(argv[1], "", make, &tally);
    printf("bytes of stack at most: %lu for a fresh image, %lu for a call, %lu for a table, %lu for shortfalls\n",
        (unsigned long)most[STEP_FRESH], (unsigned long)most[STEP_CALL], (unsigned long)most[STEP_TABLE],
        (unsigned long)most[STEP_SHORTFALLS]);
    if (most[STEP_CALL] == 0 || most[STEP_TABLE] == 0 || most[STEP_SHORTFALLS] == 0)
        tally.failed++;
    return show_tally(&tally);
}
