#include "tables.h"

#include <string.h>

void draw_table(struct table *table, enum shape shape, uint32_t rows, uint32_t kept_free, uint32_t slots, uint64_t seed)
{
    struct row drawn_rows[MOST_ROWS];
    const uint32_t count = in_use(shape, rows);
    draw_rows(drawn_rows, shape, count, slots, seed);
    const uint32_t used = count > rows - kept_free ? rows - kept_free : count;
    table->length = TABLE_SIZE(rows);
    memset(table->bytes, 0, sizeof table->bytes);
    put(table->bytes, head_last, slots - 1);
    put(table->bytes, head_next, used + 1);
    put(table->bytes, head_used, used);
    for (uint32_t place = 0; place < used; place++) {
        uint8_t *row = table->bytes + TABLE_SIZE(place);
        put(row, row_ticket, place + 1);
        put(row, row_due, drawn_rows[place].due);
        put(row, row_weight, drawn_rows[place].weight);
        put(row, row_class, drawn_rows[place].class);
    }
}

uint32_t heaviest_ticket(const struct table *table)
{
    uint32_t heaviest = 0, ticket = 0;
    for (size_t at = TABLE_SIZE(0); at < table->length; at += ROW_SIZE) {
        const uint8_t *row = table->bytes + at;
        if (get(row, row_weight) > heaviest) {
            heaviest = get(row, row_weight);
            ticket = get(row, row_ticket);
        }
    }
    return ticket;
}
