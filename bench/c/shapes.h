/* How a table's rows in use are due and how heavy they are; README.md says it in words. */
#ifndef SHAPES_H
#define SHAPES_H

#include <stdint.h>

#define MOST_ROWS 1024

/* New shapes go last: the seeds are counted from here. */
enum shape {
    INPLAN, HALFOUT, ASC2X, FEWDUE, EQUAL, SPREAD, CHAIN, SPARSE, UNUSED,
    QUARTER, TENTH, FAR, CROWD, ALTERNATING, BEYOND, FALLRISE, WORST, CLASSES, SHAPES
};

extern const char *const shape_names[SHAPES];

/* Whether it is about rows that are not in use, which every call has to judge. */
int is_partly_used(enum shape shape);

/* Whether a table of so many rows, in a round of so many slots, can have it. */
int is_possible(enum shape shape, uint32_t rows, uint32_t slots);

/* How many of so many rows are in use. */
uint32_t in_use(enum shape shape, uint32_t rows);

struct row {
    uint32_t due, weight, class;
};

/* Draws so many rows of a round of so many slots. */
void draw_rows(struct row *drawn_rows, enum shape shape, uint32_t rows, uint32_t slots, uint64_t seed);

#endif
