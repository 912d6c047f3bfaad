/*
 * The layouts of the past in numbers of their own. None of them is taken from crz.h: they stay what they were, wherever
 * today's layout has its parts, and a row that stands is never changed. Where the layout changes, today's becomes a row
 * here, with an image in tests/older; tests/host_common.sh reads the rows too.
 */
#include "older.h"

const struct layout older_layouts[] = {
    /* before 2.0.0: receipts without a premium */
    {.length = 5696,
        .header = 32,
        .day = 6,
        .phase = 20,
        .total = 24,
        .accounts = {.count_place = 0, .start_place = 8, .start = 32, .count = 96, .record = 16},
        .asks = {.count_place = 4, .start_place = 12, .start = 1568, .count = 8, .record = 4},
        .receipts = {.count_place = 2, .start_place = 16, .start = 1600, .count = 128, .record = 32},
        .added = "every premium 0",
        .finished = "the version that made the image"},
    {.length = 0},
};
