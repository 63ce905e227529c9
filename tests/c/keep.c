/* examples/firmware/keep.c: the power is cut after every byte of every write of a round, from either end, and what is found then is
 * the table before the write or after it, never a mixture. Once more with each single byte of a copy changed.
 */
#include "../../examples/firmware/keep.h"
#include "lirvedd.h"

#include <stdio.h>
#include <string.h>

enum { LENGTH = LIRVEDD_TABLE_SIZE(4), SIZE = KEEP_SIZE(LENGTH), WRITES = 12 };

static uint8_t table[LENGTH], area[2][SIZE];
static unsigned passed, failed;

static void note(int holds, const char *fact)
{
    holds ? passed++ : failed++;
    if (!holds)
        printf("tests/c/keep.c: FAILED: %s\n", fact);
}

/* An area as it is when the power is cut after so many bytes, written from its start or from its end. */
static void cut(uint8_t *to, const uint8_t *copy, size_t bytes, int from_end)
{
    size_t skip = from_end ? SIZE - bytes : 0;
    memcpy(to + skip, copy + skip, bytes);
}

/* Whether what is found in the areas is this table. */
static int found(const uint8_t *wanted)
{
    int at = keep_newer(area[0], area[1], LENGTH);
    return at >= 0 && memcmp(keep_table(area[at]), wanted, LENGTH) == 0;
}

/* Writes the table into an area after trying every cut; true if each left the table before or after. */
static int survives(uint32_t sequence, const uint8_t *before)
{
    uint8_t copy[SIZE], old[SIZE], *to = area[sequence % 2];
    int good = 1;

    keep_copy(copy, sequence, table, LENGTH);
    memcpy(old, to, SIZE);
    for (int from_end = 0; from_end < 2; from_end++)
        for (size_t bytes = 0; bytes < SIZE; bytes++) {
            memcpy(to, old, SIZE);
            cut(to, copy, bytes, from_end);
            good = good && (found(before) || found(table));
        }
    memcpy(to, copy, SIZE);
    return good && found(table) && keep_sequence(to) == sequence;
}

/* Whether the table before is found instead, whichever byte of the newer copy is changed to whatever. */
static int passes_over(uint8_t *newer, const uint8_t *before)
{
    int good = 1;

    for (size_t at = 0; at < SIZE; at++)
        for (unsigned change = 1; change < 256; change++) {
            newer[at] ^= (uint8_t)change;
            good = good && found(before);
            newer[at] ^= (uint8_t)change;
        }
    return good;
}

int main(void)
{
    uint32_t first = 0xFFFFFFFAu; /* so that the numbers begin anew on the way */

    note(keep_newer(area[0], area[1], LENGTH) < 0, "empty areas hold no copy");
    memset(area, 0xFF, sizeof area);
    note(keep_newer(area[0], area[1], LENGTH) < 0, "erased areas hold no copy");
    lirvedd_open(9, table, LENGTH);
    keep_copy(area[first % 2], first, table, LENGTH);
    note(found(table), "the first copy is found");
    for (uint32_t write = 1; write <= WRITES; write++) {
        uint8_t before[LENGTH];

        memcpy(before, table, LENGTH);
        if (write % 2 != 0)
            lirvedd_take_class(9, write * 100, write % 4, table, LENGTH);
        else
            lirvedd_send(table, LENGTH);
        note(memcmp(before, table, LENGTH) != 0, "the call was accepted");
        note(survives(first + write, before), "a write cut short leaves the table before or after");
        note(passes_over(area[(first + write) % 2], before), "a copy with a byte changed is passed over");
    }
    printf("%u passed, %u failed\n", passed, failed);
    return failed != 0;
}
