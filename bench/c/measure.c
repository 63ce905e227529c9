/* measure count|stack [quick]: one line for each cell, its name and what was measured. */
#include "cells.h"
#include "stack.h"

#include <stdio.h>
#include <string.h>
#include <valgrind/callgrind.h>

static struct input input;

/* The replies and the tables left, as one number (FNV-1a): both sides must have the same. */
static uint64_t digested(uint64_t digest, const void *bytes, size_t length)
{
    const uint8_t *at = bytes;
    for (size_t left = length; left > 0; left--) {
        digest = (digest ^ *at++) * 0x100000001B3u;
    }
    return digest;
}

/* Under callgrind, which counts inside the calls alone: a dump named by the cell has the sum over its inputs. Prints
 * the digest and the number of inputs. */
static void count(const struct cell *cell)
{
    uint64_t digest = 0xCBF29CE484222325u;
    for (uint32_t number = 0; number < DRAWS; number++) {
        draw_cell(&input, cell, number);
        const uint64_t reply = do_call(&linked, cell->call, &input);
        digest = digested(digest, &reply, sizeof reply);
        digest = digested(digest, input.table.bytes, input.table.length);
    }
    CALLGRIND_DUMP_STATS_AT(cell_name(cell));
    printf("%s %016llx %d\n", cell_name(cell), (unsigned long long)digest, DRAWS);
}

/* Bytes of stack: the most over the cell's inputs. */
static void stack(const struct cell *cell)
{
    size_t most = 0;
    for (uint32_t number = 0; number < DRAWS; number++) {
        draw_cell(&input, cell, number);
        const size_t bytes = stack_of(cell->call, &input);
        most = bytes > most ? bytes : most;
    }
    printf("%s %zu\n", cell_name(cell), most);
}

int main(int count_of, char **words)
{
    const char *mode = count_of > 1 ? words[1] : "";
    const int quick = count_of > 2 && strcmp(words[2], "quick") == 0;
    if (strcmp(mode, "count") == 0) {
        for_each_cell(quick, count);
    } else if (strcmp(mode, "stack") == 0) {
        for_each_cell(1, stack);
    } else {
        fputs("measure count|stack [quick]\n", stderr);
        return 2;
    }
    return 0;
}
