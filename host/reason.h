/* Why a call was refused, in words. */
#ifndef REASON_H
#define REASON_H

#include "../include/crz.h"

enum { REASON_LENGTH = 256 };

/* What the number alone says. */
const char *reason_of(uint32_t number);

/* What can be seen of it in the call and in the image that the call found; empty where nothing more can be said. */
void reason_seen(uint32_t number, const uint8_t *call, const uint8_t *image, char words[REASON_LENGTH]);

#endif
