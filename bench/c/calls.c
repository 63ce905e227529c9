#include "calls.h"

const char *const call_names[CALLS] = {"soundness", "open",   "take", "take_class", "seal",
                                       "send",      "sealed", "mark", "total",      "substitute"};

int has_shapes(enum call call)
{
    return call >= SEND;
}

/* Marks are asked over the first half of the rows' slots, which most shapes fill, or over those that are filled. */
static uint32_t mark_reach(enum shape shape, uint32_t rows)
{
    return shape == FALLRISE ? 3 * rows / 8 : rows / 2;
}

void draw_input(struct input *input, enum call call, enum shape shape, uint32_t rows, uint32_t slots, uint32_t number)
{
    draw_table(&input->table, shape, rows, call == TAKE || call == TAKE_CLASS, slots, 1000 * shape + number);
    put(input->table.bytes, head_sealed, call == SEALED);
    input->argument = call == MARK ? mark_reach(shape, rows) * (2 * number + 1) / (2 * DRAWS) : heaviest_ticket(&input->table);
}

uint64_t do_call(const struct side *side, enum call call, struct input *input)
{
    uint8_t *table = input->table.bytes;
    const size_t length = input->table.length;
    switch (call) {
    case SOUND: return side->take(0, 0, table, length);
    case OPEN: return side->open(1023, table, length);
    case TAKE: return side->take(0, 7, table, length);
    case TAKE_CLASS: return side->take_class(0, 7, 2, table, length);
    case SEAL: return side->seal(table, length);
    case SEND:
    case SEALED: return side->send(table, length);
    case MARK: return side->mark(input->argument, table, length);
    case TOTAL: return side->total(table, length);
    default: return side->substitute(input->argument, table, length);
    }
}
