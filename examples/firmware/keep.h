/* Keeping a table over a loss of power: two areas of lasting memory, written in turn. Each holds a head of 8 bytes (a sequence
 * number and a check over it and the table, low byte first) and then the table's bytes. While one is written the other stands, so a
 * write cut short leaves the copy before it. docs/FIRMWARE.md says when to write.
 */
#ifndef KEEP_H
#define KEEP_H

#include <stddef.h>
#include <stdint.h>

#define KEEP_SIZE(length) (8u + (size_t)(length))

/* What to write into an area: KEEP_SIZE(length) bytes. The sequence number is one more than that of the copy before. */
void keep_copy(uint8_t *copy, uint32_t sequence, const uint8_t *table, size_t length);

/* Which of two areas has the newer whole copy, 0 or 1; -1 where neither is whole. Write the next copy into the other one. */
int keep_newer(const uint8_t *first, const uint8_t *second, size_t length);

/* The sequence number of a whole copy. */
uint32_t keep_sequence(const uint8_t *copy);

/* The table in a copy, which is as good as the copy is. */
static inline const uint8_t *keep_table(const uint8_t *copy)
{
    return copy + 8;
}

#endif
