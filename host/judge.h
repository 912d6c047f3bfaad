/*
 * The place of a zone, judged before SQLite sees it: the file and its header, its folder, the names beside it. SQLite
 * never opens a file that is no zone. Each function returns 0, or -1 after a message.
 */
#ifndef JUDGE_H
#define JUDGE_H

#include <sys/stat.h>

#include "store.h"

enum { JUDGE_APPLICATION = 0x63727a66, JUDGE_PAGE = 4096 }; /* as SQLite's header has them in a zone */

int judge_file(const char *name, enum store_use use, struct stat *is);
int judge_beside(const char *name, const char *path);
int judge_writing(const char *name, const char *path, const struct stat *is);

/* Whether a zone may be made under that path. */
int judge_name(const char *path);

#endif
