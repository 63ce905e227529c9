#include "cells.h"

#include <stdio.h>

#define COUNT(array) (sizeof(array) / sizeof((array)[0]))

static const uint32_t rows_tried[] = {1, 16, 128, 1024};
static const uint32_t slots_tried[] = {1024, 4096};

/* Far rows need more slots than the others. */
static int is_quick(const struct cell *cell)
{
    return (cell->rows == 16 || cell->rows == 1024) && cell->slots == (cell->shape == FAR ? 4096 : 1024);
}

/* Full tables are one cell where the shape makes no difference. Opening does not read the table; where no row is in use,
 * there is no substitute to ask for. */
static int is_tried(const struct cell *cell)
{
    if (!is_possible(cell->shape, cell->rows, cell->slots)) {
        return 0;
    }
    if (is_partly_used(cell->shape)) {
        return cell->call != OPEN && !(cell->shape == UNUSED && cell->call == SUBSTITUTE);
    }
    return has_shapes(cell->call) || cell->shape == HALFOUT;
}

static void shapes_of(struct cell cell, int quick, void (*measure)(const struct cell *cell))
{
    for (int shape = 0; shape < SHAPES; shape++) {
        cell.shape = (enum shape)shape;
        if (is_tried(&cell) && (!quick || is_quick(&cell))) {
            measure(&cell);
        }
    }
}

void for_each_cell(int quick, void (*measure)(const struct cell *cell))
{
    for (int call = 0; call < CALLS; call++) {
        for (size_t at = 0; at < COUNT(rows_tried) * COUNT(slots_tried); at++) {
            const uint32_t rows = rows_tried[at / COUNT(slots_tried)], slots = slots_tried[at % COUNT(slots_tried)];
            shapes_of((struct cell){(enum call)call, HALFOUT, rows, slots}, quick, measure);
        }
    }
}

const char *cell_name(const struct cell *cell)
{
    static char name[80];
    const char *shape = has_shapes(cell->call) || cell->shape != HALFOUT ? shape_names[cell->shape] : "-";
    snprintf(name, sizeof name, "%s %s %u %u", call_names[cell->call], shape, cell->rows, cell->slots);
    return name;
}

void draw_cell(struct input *input, const struct cell *cell, uint32_t number)
{
    draw_input(input, cell->call, cell->shape, cell->rows, cell->slots, number);
}
