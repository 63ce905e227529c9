#include "keep.h"

#include <string.h>

static uint32_t number(const uint8_t *from)
{
    return (uint32_t)from[0] | (uint32_t)from[1] << 8 | (uint32_t)from[2] << 16 | (uint32_t)from[3] << 24;
}

static void put(uint8_t *to, uint32_t value)
{
    for (int i = 0; i < 4; i++)
        to[i] = (uint8_t)(value >> (8 * i));
}

/* CRC-32 of some bytes, after what came before them. */
static uint32_t crc(uint32_t before, const uint8_t *bytes, size_t length)
{
    uint32_t value = ~before;

    for (size_t i = 0; i < length; i++) {
        value ^= bytes[i];
        for (int bit = 0; bit < 8; bit++)
            value = value >> 1 ^ (value & 1u ? 0xEDB88320u : 0u);
    }
    return ~value;
}

/* The check of a copy: of its sequence number and its table. */
static uint32_t check(const uint8_t *copy, size_t length)
{
    return crc(crc(0, copy, 4), keep_table(copy), length);
}

static int whole(const uint8_t *copy, size_t length)
{
    return number(copy + 4) == check(copy, length);
}

void keep_copy(uint8_t *copy, uint32_t sequence, const uint8_t *table, size_t length)
{
    put(copy, sequence);
    memcpy(copy + 8, table, length);
    put(copy + 4, check(copy, length));
}

uint32_t keep_sequence(const uint8_t *copy)
{
    return number(copy);
}

int keep_newer(const uint8_t *first, const uint8_t *second, size_t length)
{
    int is_first = whole(first, length), is_second = whole(second, length);

    /* The numbers of two copies differ by 1, also where they begin anew at 0. */
    if (is_first && is_second)
        return keep_sequence(second) - keep_sequence(first) < 0x80000000u;
    return is_first ? 0 : is_second ? 1 : -1;
}
