/*
 * The library's entries, a line for each. crz.h has what they promise; the host program's journal takes their names
 * from here. Not installed: a host calls the entries by their names.
 *
 *   ENTRY(name, lines, buffers..)
 *
 *   name      what stands behind crz_
 *   lines     what its calls are in a journal (host/journal.h)
 *   buffers   what the host lends, in order: READ where the entry only reads it, else CHANGED
 *
 * ENTRY is defined before this is included, and is gone behind it.
 */
#define READ(buffer) const uint8_t *buffer, size_t buffer##_len
#define CHANGED(buffer) uint8_t *buffer, size_t buffer##_len

ENTRY(fresh, LINE_START, CHANGED(image))
ENTRY(call, LINE_CALL, CHANGED(image), READ(call), CHANGED(answer))
ENTRY(table, LINE_IN_TABLE, CHANGED(image), READ(calls), CHANGED(answers))
ENTRY(shortfalls, LINE_NONE, READ(image), CHANGED(figures))

#undef READ
#undef CHANGED
#undef ENTRY
