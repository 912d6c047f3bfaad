/* An image without a journal: the library's own verdict, and what can be said where it is not valid. */
#ifndef IMAGE_H
#define IMAGE_H

#include "older.h"

int image_valid(const uint8_t image[CRZ_IMAGE_LENGTH]);

/*
 * Messages about an image that is not valid and from which no zone was made. Where nothing is wrong but what lots have
 * as paid, they name these lots. `older` is that of file_read_image. Returns -1.
 */
int image_report(const char *path, const uint8_t image[CRZ_IMAGE_LENGTH], const struct layout *older);

#endif
