/*
 * The vectors through the C boundary: number, image and answers of every call and table, number and figures of all
 * shortfalls, the buffers standing between painted bytes, ending at a wall and starting at one. Usage: vectors LIST.
 * The last line is 'N passed, M failed'.
 */
#include "../include/crz.h"
#include "lent.h"
#include "vector_file.h"

#include <stdio.h>
#include <string.h>

static const char *const place_names[LENT_PLACES] = {"between painted bytes", "ending at walls", "starting at walls"};

static enum lent_place place;
static struct lent image, call, answer;
static uint8_t expected[VECTOR_MOST]; /* the image that the vectors say */

static int fresh(const struct vector_step *step)
{
    lend_filled(&image, place, 0xff, step->image_len);
    return crz_fresh(image.bytes, image.len) == CRZ_NUMBER_ACCEPTED && lent_kept(&image);
}

static void set_length(size_t len)
{
    size_t kept = image.len < len ? image.len : len;
    memset(expected, 0, sizeof expected);
    memcpy(expected, image.bytes, kept);
    lend_bytes(&image, place, expected, len);
}

/* both entries have one form */
static uint32_t make(enum step_kind kind)
{
    return (kind == STEP_TABLE ? crz_table : crz_call)(
        image.bytes, image.len, call.bytes, call.len, answer.bytes, answer.len);
}

/* whichever image the call or the table leaves, the next one goes on from the one that the vectors say */
static int made_agrees(const struct vector_step *step)
{
    uint32_t number;
    int same;
    memcpy(expected, image.bytes, image.len);
    patch_image(&step->patch, expected);
    lend_bytes(&call, place, step->call, step->call_len);
    lend_filled(&answer, place, VECTOR_FILL, step->answer_len);
    number = make(step->kind);
    same = memcmp(image.bytes, expected, image.len) == 0;
    memcpy(image.bytes, expected, image.len);
    return same && number == step->number && memcmp(call.bytes, step->call, call.len) == 0
           && memcmp(answer.bytes, step->answer, answer.len) == 0 && lent_kept(&image) && lent_kept(&call)
           && lent_kept(&answer);
}

/* the image is only read */
static int shortfalls_agree(const struct vector_step *step)
{
    uint32_t number;
    memcpy(expected, image.bytes, image.len);
    lend_filled(&answer, place, VECTOR_FILL, step->answer_len);
    number = crz_shortfalls(image.bytes, image.len, answer.bytes, answer.len);
    return number == step->number && memcmp(image.bytes, expected, image.len) == 0
           && memcmp(answer.bytes, step->answer, answer.len) == 0 && lent_kept(&image) && lent_kept(&answer);
}

static int agrees(const struct vector_step *step)
{
    switch (step->kind) {
    case STEP_FRESH: return fresh(step);
    case STEP_PATCH: patch_image(&step->patch, image.bytes); return 1;
    case STEP_LENGTH: set_length(step->image_len); return 1;
    case STEP_SHORTFALLS: return shortfalls_agree(step);
    default: return made_agrees(step);
    }
}

int main(int argc, char **argv)
{
    struct tally tally = {0, 0};
    int i;
    if (argc != 2) {
        fprintf(stderr, "usage: vectors LIST\n");
        return 2;
    }
    for (i = 0; i < LENT_PLACES; i++) {
        place = (enum lent_place)i;
        printf("buffers: %s\n", place_names[i]);
        walk_vectors(argv[1], "", agrees, &tally);
    }
    return show_tally(&tally);
}
