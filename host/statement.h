/* What an account's money did, from the journal, and what its lots hold and may still be invoiced, from the image. */
#ifndef STATEMENT_H
#define STATEMENT_H

#include "report.h"
#include "store.h"

enum status print_statement(struct store *store, const struct newest *newest, uint32_t account, int json);

#endif
