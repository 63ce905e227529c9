/* The calls to measure, of either side. */
#ifndef CALLS_H
#define CALLS_H

#include "sides.h"
#include "tables.h"

/* SOUND is a taking of weight 0: refusal 6, given once the table was found sound. SEALED is a sending of the same table, sealed. */
enum call { SOUND, OPEN, TAKE, TAKE_CLASS, SEAL, SEND, SEALED, MARK, TOTAL, SUBSTITUTE, CALLS };

extern const char *const call_names[CALLS];

/* Whether its work depends on due slots and weights. */
int has_shapes(enum call call);

/* What a call works on. */
struct input {
    struct table table;
    uint32_t argument; /* the slot of a mark, the ticket of a substitute */
};

/* Tables drawn for each cell, and the number of the one drawn here. */
#define DRAWS 4
void draw_input(struct input *input, enum call call, enum shape shape, uint32_t rows, uint32_t slots, uint32_t number);

uint64_t do_call(const struct side *side, enum call call, struct input *input);

#endif
