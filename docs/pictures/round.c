/* Plays the round of the picture and prints all that round.py draws, before a sending and after it:
 *
 *   round SLOT LAST                            the current and the last slot
 *   row TICKET DUE WEIGHT PLANNED SUBSTITUTE   PLANNED is 1 for a row of the plan; SUBSTITUTE a ticket, 0 for a blank
 *   mark SLOT MARK                             of each slot ahead
 *   sent TICKET                                between the two
 */
#include "../../tests/c/table.h"
#include "lirvedd.h"

#include <stdio.h>

enum { ROWS = 8, LAST = 7 };

static uint8_t table[LIRVEDD_TABLE_SIZE(ROWS)];

static void show(void)
{
    printf("round %u %u\n", (unsigned)get(table, head_slot), (unsigned)get(table, head_last));
    for (unsigned place = 0; place < get(table, head_used); place++) {
        const uint8_t *row = table + TABLE_SIZE(place);
        unsigned ticket = (unsigned)get(row, row_ticket);
        uint64_t substitute = lirvedd_substitute(ticket, table, sizeof table);

        printf("row %u %u %u %d %u\n", ticket, (unsigned)get(row, row_due), (unsigned)get(row, row_weight),
               lirvedd_refusal(substitute) != LIRVEDD_NOT_IN_PLAN, (unsigned)lirvedd_ticket(substitute));
    }
    for (uint32_t slot = get(table, head_slot); slot <= LAST; slot++)
        printf("mark %u %u\n", (unsigned)slot, (unsigned)lirvedd_amount(lirvedd_mark(slot, table, sizeof table)));
}

int main(void)
{
    static const uint32_t frames[ROWS][2] = {{1, 6}, {1, 7}, {3, 14}, {3, 8}, {5, 5}, {5, 4}, {5, 3}, {7, 2}};

    lirvedd_open(LAST, table, sizeof table);
    for (int i = 0; i < ROWS; i++)
        lirvedd_take(frames[i][0], frames[i][1], table, sizeof table);
    show();
    printf("sent %u\n", (unsigned)lirvedd_ticket(lirvedd_send(table, sizeof table)));
    show();
    return 0;
}
