/* The table's bytes, written out from the project's papers: nothing here is the library's. */
#ifndef TABLE_H
#define TABLE_H

#include <stddef.h>
#include <stdint.h>

#define HEAD_SIZE 16
#define ROW_SIZE 24
/* The bytes of a table of so many rows, and so the first byte of the row after them. */
#define TABLE_SIZE(rows) (HEAD_SIZE + ROW_SIZE * (size_t)(rows))

/* Where a number stands in a head or a row, low byte first: its first byte, and how many it has. */
struct field {
    size_t at;
    unsigned bytes;
};

static const struct field head_slot = {0, 2}, head_last = {2, 2}, head_next = {4, 4}, head_used = {8, 2}, head_sealed = {10, 1},
                          head_zeros = {11, 5};
static const struct field row_ticket = {0, 4}, row_due = {4, 2}, row_weight = {6, 4}, row_kind = {10, 1}, row_class = {11, 1},
                          row_zeros = {12, 12};

static inline void put(uint8_t *from, struct field field, uint32_t value)
{
    for (unsigned i = 0; i < field.bytes; i++)
        from[field.at + i] = (uint8_t)(value >> (8 * i));
}

static inline uint32_t get(const uint8_t *from, struct field field)
{
    uint32_t value = 0;

    for (unsigned i = 0; i < field.bytes; i++)
        value |= (uint32_t)from[field.at + i] << (8 * i);
    return value;
}

#endif
