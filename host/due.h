/* What the next morning close works, and what each account has to pay in before today's, from the image. */
#ifndef DUE_H
#define DUE_H

#include "../include/crz_records.h"
#include "report.h"

enum status print_due(const uint8_t image[CRZ_IMAGE_LENGTH], int json);

#endif
