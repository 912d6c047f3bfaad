/*
 * Numbers drawn by a test that makes up zones or tables of its own: the same in every run. C leaves the order of
 * arguments open: no expression draws twice, so that what is drawn is the same under every compiler.
 */
#ifndef DRAW_H
#define DRAW_H

#include <stdint.h>

static uint64_t random_state = UINT64_C(0x9e3779b97f4a7c15);

static uint32_t below(uint32_t n)
{
    random_state ^= random_state << 13;
    random_state ^= random_state >> 7;
    random_state ^= random_state << 17;
    return (uint32_t)((random_state >> 11) % n);
}

#endif
