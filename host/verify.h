/* The whole journal judged: its hashes, a replay through the library, and the history table against the image. */
#ifndef VERIFY_H
#define VERIFY_H

#include "report.h"
#include "store.h"

/* Says what was compared, or names the first bad line. */
enum status verify(struct store *store);

#endif
