/* One cell for each call, shape, number of rows and number of slots. */
#ifndef CELLS_H
#define CELLS_H

#include "calls.h"

struct cell {
    enum call call;
    enum shape shape;
    uint32_t rows, slots;
};

/* Does it for each cell. Quick: 16 and 1,024 rows and 1,024 slots alone, 4,096 where rows are far. */
void for_each_cell(int quick, void (*measure)(const struct cell *cell));

/* "call shape rows slots", with "-" for a full table where its shape makes no difference. */
const char *cell_name(const struct cell *cell);

/* Draws the cell's input of this number. */
void draw_cell(struct input *input, const struct cell *cell, uint32_t number);

#endif
