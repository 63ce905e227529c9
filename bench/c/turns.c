/* turns [quick]: one line for each cell, its name and the nanoseconds of a call of the library and of tuned Rust. Both
 * are measured in turns, so that a machine that is slow for a while is slow for both. */
#include "cells.h"

#include <stdio.h>
#include <stdlib.h>
#include <string.h>
#include <time.h>

#define BATCH (4 * DRAWS)
#define RUNS 9

static double now(void)
{
    struct timespec time;
    clock_gettime(CLOCK_MONOTONIC, &time);
    return (double)time.tv_sec * 1e9 + (double)time.tv_nsec;
}

static int rising(const void *a, const void *b)
{
    const double x = *(const double *)a, y = *(const double *)b;
    return (x > y) - (x < y);
}

static double median(double *runs)
{
    qsort(runs, RUNS, sizeof runs[0], rising);
    return runs[RUNS / 2];
}

/* A batch of calls on fresh copies of the cell's inputs. */
static double batch_time(const struct side *side, enum call call, const struct input *inputs)
{
    static struct input batch[BATCH];
    for (int at = 0; at < BATCH; at++) {
        batch[at] = inputs[at % DRAWS];
    }
    const double began = now();
    for (int at = 0; at < BATCH; at++) {
        do_call(side, call, &batch[at]);
    }
    return (now() - began) / BATCH;
}

static void both(const struct cell *cell)
{
    static struct input inputs[DRAWS];
    double library[RUNS], tuned[RUNS];
    for (uint32_t number = 0; number < DRAWS; number++) {
        draw_cell(&inputs[number], cell, number);
    }
    for (int run = 0; run < RUNS; run++) {
        library[run] = batch_time(&linked, cell->call, inputs);
        tuned[run] = batch_time(&renamed, cell->call, inputs);
    }
    printf("%s %.0f %.0f\n", cell_name(cell), median(library), median(tuned));
}

int main(int count_of, char **words)
{
    for_each_cell(count_of > 1 && strcmp(words[1], "quick") == 0, both);
    return 0;
}
