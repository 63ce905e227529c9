#include "stack.h"

#include <string.h>
#include <ucontext.h>

#define SIZE (512 * 1024)

static _Alignas(64) uint8_t area[SIZE];
static ucontext_t here, there;
static struct input copy;
static enum call to_do;
static int does_it;

/* Runs on the painted area; with `does_it` 0 it shows what the way in costs by itself. */
static void run(void)
{
    if (does_it) {
        do_call(&linked, to_do, &copy);
    }
}

/* Bytes from the deepest changed one to the area's end. */
static size_t painted_over(uint8_t paint)
{
    memset(area, paint, SIZE);
    getcontext(&there);
    there.uc_stack.ss_sp = area;
    there.uc_stack.ss_size = SIZE;
    there.uc_link = &here;
    makecontext(&there, run, 0);
    swapcontext(&here, &there);
    size_t at = 0;
    while (at < SIZE && area[at] == paint) {
        at++;
    }
    return SIZE - at;
}

/* Two paints, so that no byte written passes for an untouched one. */
static size_t deepest(int with_call, const struct input *input)
{
    size_t most = 0;
    const uint8_t paints[] = {0xA5, 0x5A};
    for (int paint = 0; paint < 2; paint++) {
        copy = *input;
        does_it = with_call;
        const size_t bytes = painted_over(paints[paint]);
        most = bytes > most ? bytes : most;
    }
    return most;
}

size_t stack_of(enum call call, const struct input *input)
{
    to_do = call;
    return deepest(1, input) - deepest(0, input);
}
