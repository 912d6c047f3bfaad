/* Files that are made whole, and images without a journal. Each returns 0, or -1 after a message. */
#ifndef FILE_H
#define FILE_H

#include "older.h"

/* Makes a file of these bytes, durably: whole or not at all. A file that exists stays as it is. */
int file_create(const char *path, const uint8_t *bytes, size_t length);

/* Opens the folder that a path lies in, for making its names durable; -1 after a message. */
int file_folder(const char *path);

/* Whether a file of this length may be a raw image, today's or an older one. */
int file_may_be_image(size_t length);

/* Reads an image. One of an older program becomes today's, and its layout is told; of today's there is none to tell. */
int file_read_image(const char *path, uint8_t image[CRZ_IMAGE_LENGTH], const struct layout **older);

#endif
