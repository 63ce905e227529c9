/* Tables to measure on, from a seed. */
#ifndef TABLES_H
#define TABLES_H

#include "../../tests/c/table.h"
#include "shapes.h"

struct table {
    size_t length;
    uint8_t bytes[TABLE_SIZE(MOST_ROWS)];
};

/* A sound table of so many rows at slot 0 of so many slots, the `kept_free` last of them not in use. */
void draw_table(struct table *table, enum shape shape, uint32_t rows, uint32_t kept_free, uint32_t slots, uint64_t seed);

/* The ticket of the heaviest row, which is in every plan; 0 where no row is in use. */
uint32_t heaviest_ticket(const struct table *table);

#endif
