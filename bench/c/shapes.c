#include "shapes.h"

#include "draws.h"
#include "kept.h"

#define MOST_WEIGHT (1u << 24)

const char *const shape_names[SHAPES] = {"inplan", "halfout", "asc2x",   "fewdue", "equal", "spread",
                                         "chain",  "sparse",  "unused",  "quarter", "tenth", "far",
                                         "crowd",  "alternating", "beyond", "fallrise", "worst", "classes"};

int is_partly_used(enum shape shape)
{
    return shape == SPARSE || shape == UNUSED || shape == QUARTER || shape == TENTH;
}

uint32_t in_use(enum shape shape, uint32_t rows)
{
    switch (shape) {
    case QUARTER: return rows / 4;
    case SPARSE: return rows / 8;
    case TENTH: return rows / 10;
    case UNUSED: return 0;
    default: return rows;
    }
}

int is_possible(enum shape shape, uint32_t rows, uint32_t slots)
{
    switch (shape) {
    case UNUSED: return 1;
    case CHAIN: return rows >= 4;
    case CROWD: return rows >= 4;
    case BEYOND: return rows >= 4;
    case FAR: return 2 * rows <= slots;
    case WORST: return rows == MOST_ROWS;
    default: return in_use(shape, rows) > 0;
    }
}

static uint32_t at_least_1(uint32_t number)
{
    return number > 0 ? number : 1;
}

static struct row frame(uint32_t due, uint32_t weight)
{
    return (struct row){due, weight, 0};
}

/* Falling weights, and the last row's is the substitute of all. */
static struct row chain_row(uint32_t place, uint32_t rows)
{
    if (place == 0 || place + 1 == rows) {
        return frame(place == 0 ? 0 : rows - 2, 1);
    }
    return frame(place, 1 + rows - place);
}

/* Crowded near rows, then heavier far ones. */
static struct row beyond_row(uint32_t place, uint32_t rows, uint32_t slots, uint64_t *state)
{
    const uint32_t weight = 1 + below(state, MOST_WEIGHT / 2);
    if (place < rows / 2) {
        return frame(below(state, rows / 4), weight);
    }
    return frame(slots / 2 + below(state, slots / 2), MOST_WEIGHT / 2 + weight);
}

/* All due in one slot, each lighter than the ones before until its slots are filled, then each heavier. */
static struct row fallrise_row(uint32_t place, uint32_t rows)
{
    const uint32_t slots = at_least_1(3 * rows / 8);
    const uint32_t weight = place < slots ? 1 + (rows - place) * 8000 : 9000000 + place * 5000;
    return frame(slots - 1, weight);
}

/* Two a slot, the light ones ever lighter, the heavy ones ever heavier. */
static struct row alternating_row(uint32_t place)
{
    return frame(place / 2, place % 2 ? 9000000 + place * 5000 : 5000000 - place * 4000);
}

/* One of sixteen due slots within the first half of the rows' slots. */
static uint32_t sixteenth(uint32_t rows, uint64_t *state)
{
    return (1 + below(state, 16)) * at_least_1(rows / 32) - 1;
}

/* Equals in every due slot, told apart by their classes. */
static struct row classes_row(uint32_t rows, uint64_t *state)
{
    const uint32_t due = sixteenth(rows, state);
    return (struct row){due, 1000, below(state, 4)};
}

/* The row at one place of so many, before any shuffling. */
static struct row draw_row(enum shape shape, uint32_t place, uint32_t rows, uint32_t slots, uint64_t *state)
{
    const uint32_t weight = 1 + below(state, MOST_WEIGHT);
    const uint32_t half = below(state, at_least_1(rows / 2));
    switch (shape) {
    case INPLAN: return frame(place, weight);
    case HALFOUT: return frame(half, weight);
    case ASC2X: return frame(place / 2, place + 1);
    case FEWDUE: return frame(sixteenth(rows, state), weight);
    case EQUAL: return frame(half, 1000);
    case CHAIN: return chain_row(place, rows);
    case FAR: return frame(slots / 2 + below(state, slots / 2), weight);
    case CROWD: return frame(place < rows / 4 ? 0 : place - rows / 4, weight);
    case ALTERNATING: return alternating_row(place);
    case BEYOND: return beyond_row(place, rows, slots, state);
    case FALLRISE: return fallrise_row(place, rows);
    case CLASSES: return classes_row(rows, state);
    default: return frame(below(state, rows), weight);
    }
}

static void shuffle(struct row *rows, uint32_t count, uint64_t *state)
{
    for (uint32_t left = count; left > 1; left--) {
        const uint32_t at = below(state, left);
        const struct row last = rows[left - 1];
        rows[left - 1] = rows[at];
        rows[at] = last;
    }
}

void draw_rows(struct row *drawn_rows, enum shape shape, uint32_t rows, uint32_t slots, uint64_t seed)
{
    uint64_t state = seed;
    if (shape == WORST) {
        kept_rows(drawn_rows, seed);
        return;
    }
    for (uint32_t place = 0; place < rows; place++) {
        drawn_rows[place] = draw_row(shape, place, rows, slots, &state);
    }
    if (shape == INPLAN) {
        shuffle(drawn_rows, rows, &state);
    }
}
