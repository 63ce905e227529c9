/* A small station: it opens a round, takes frames as the price desk hands them in, shows the marks as the promotions screen
 * would, sends a slot at a time, and seals the round once the desk has no more. expected.txt has what it prints; how that follows from
 * the rules of documents 01 and 02 stands below.
 */
#include "lirvedd.h"

#include <stdio.h>

enum { ROWS = 4, LAST = 5, CLOSING = 3, PRICE = 0, PICTURE = 3 };

/* What the desk hands in: in which slot, the last slot in which it is of use, its weight, its class, and what to show. */
struct frame {
    uint32_t slot, due, weight, of_class;
    const char *text;
};

/* How expected.txt follows, slot by slot, with "due:weight" by ticket; t1 is ticket 1. A frame's taking gains the plan what its weight
 * is above its due slot's mark. A score is a weight plus 1.618.. times the substitute's weight, and the greatest goes.
 *
 * 0  0:4 1:11, and blanks fill 2 to 5: every slot is tight. Marks: 4 up to slot 1, then 0. t1 is its own substitute: 4 + 6.5. t2's
 *    is the blank due in 1: 11 + 0. t2 goes, due after the first tight slot, 0: a leap. The blank is raised to the mark of slot 1
 *    and kept: 1:4, as t2. t1 leaves, too late.
 * 1  kept 1:4, 3:7 3:5; 9 is past the last slot. Tight: 1, 3, 4, 5, so the marks up to 3 are 4. The kept blank is its own substitute:
 *    4 + 6.5; t3 and t4 have blanks: 7 and 5. The kept blank goes.
 * 2  3:7 3:5, marks 5 up to slot 3. Another 3:5 is not above that: the plan gains nothing. But of the two t5 is a price and t4 a picture, so
 *    t5 counts as heavier, and t4 is left out. 5:9 is above 0 by 9. Then every row is in use. Tight: 3, 4, 5; marks 5 up to 3. t3's
 *    substitute is t5: 7 + 8.1, t5's too: 5 + 8.1; t6 has a blank: 9. t3 goes.
 * 3  The desk closes the list: from now on the plan goes out as it stands, the earliest due first. 3:5 3:5 5:9, t4 left out. t5 goes, and
 *    t4 leaves, too late.
 * 4  A frame comes too late: the round is sealed. 5:9, and a blank fills this slot, so the marks are 0. The blank is due first: silence.
 *    (Unsealed, t6 would leap into this slot, to leave slot 5 to a frame that might still come.)
 * 5  t6 goes. Then the round is over.
 */
static const struct frame frames[] = {
    {0, 0, 4, PRICE, "milk 1.09"}, {0, 1, 11, PRICE, "bread 2.49"},
    {1, 3, 7, PRICE, "eggs 3.19"}, {1, 3, 5, PICTURE, "a tin of tea"}, {1, 9, 8, PRICE, "jam 2.79"},
    {2, 3, 5, PRICE, "rice 1.89"}, {2, 5, 9, PRICE, "coffee 5.49"},    {2, 4, 2, PRICE, "salt 0.49"},
    {4, 5, 3, PRICE, "soap 0.99"},
};

static uint8_t table[LIRVEDD_TABLE_SIZE(ROWS)];

/* The payloads stay with the station. A place is free once its ticket waits no more, so there are never too few. */
static struct {
    uint32_t ticket;
    const char *text;
} payloads[ROWS];

/* The fields of the table that are looked at here (docs/TABLE.md): the first byte of the head or row, and how many. */
struct field {
    size_t at;
    unsigned bytes;
};

static const struct field used = {8, 2}, row_ticket = {0, 4}, row_kind = {10, 1};

/* A number of the table, low byte first. */
static uint32_t number(size_t from, struct field field)
{
    uint32_t value = 0;

    for (unsigned i = 0; i < field.bytes; i++)
        value |= (uint32_t)table[from + field.at + i] << (8 * i);
    return value;
}

/* Whether the frame of a ticket still waits: a row has it, and not as a kept blank. */
static int waits(uint32_t ticket)
{
    for (uint32_t row = 0; row < number(0, used); row++) {
        size_t at = LIRVEDD_TABLE_SIZE(row);

        if (number(at, row_ticket) == ticket && number(at, row_kind) == 0)
            return 1;
    }
    return 0;
}

static void store(uint32_t ticket, const char *text)
{
    for (int i = 0; i < ROWS; i++) {
        if (payloads[i].ticket == 0 || !waits(payloads[i].ticket)) {
            payloads[i].ticket = ticket;
            payloads[i].text = text;
            return;
        }
    }
}

static const char *stored(uint32_t ticket)
{
    for (int i = 0; i < ROWS; i++)
        if (payloads[i].ticket == ticket)
            return payloads[i].text;
    return "?";
}

static unsigned total(void)
{
    return (unsigned)lirvedd_amount(lirvedd_total(table, sizeof table));
}

static void take(const struct frame *frame)
{
    unsigned before = total();
    uint64_t reply = lirvedd_take_class(frame->due, frame->weight, frame->of_class, table, sizeof table);
    const char *shown = frame->of_class == PICTURE ? ", a picture" : "";

    printf("  %s, due by slot %u, weight %u%s: ", frame->text, (unsigned)frame->due, (unsigned)frame->weight, shown);
    switch (lirvedd_refusal(reply)) {
    case LIRVEDD_ACCEPTED:
        store(lirvedd_ticket(reply), frame->text);
        printf("ticket %u, the plan gains %u\n", (unsigned)lirvedd_ticket(reply), total() - before);
        break;
    case LIRVEDD_BAD_SLOT:
        printf("refused, no such slot is left\n");
        break;
    case LIRVEDD_TABLE_FULL:
        printf("refused, the table is full\n");
        break;
    case LIRVEDD_SEALED:
        printf("refused, the list is closed\n");
        break;
    default:
        printf("refused, reason %u\n", (unsigned)lirvedd_refusal(reply));
    }
}

/* What a late price must beat, by its due slot. */
static void show_marks(uint32_t slot)
{
    printf("  the plan weighs %u; to beat from here on:", total());
    for (; slot <= LAST; slot++)
        printf(" %u", (unsigned)lirvedd_amount(lirvedd_mark(slot, table, sizeof table)));
    printf("\n");
}

static void send(void)
{
    uint64_t reply = lirvedd_send(table, sizeof table);
    unsigned ticket = (unsigned)lirvedd_ticket(reply);
    const char *step = lirvedd_is_leap(reply) ? ", by a leap" : "";

    if (lirvedd_refusal(reply) == LIRVEDD_ROUND_OVER)
        printf("the round is over\n");
    else if (lirvedd_refusal(reply) != LIRVEDD_ACCEPTED)
        printf("refused, reason %u\n", (unsigned)lirvedd_refusal(reply));
    else if (lirvedd_out(reply) == LIRVEDD_FRAME)
        printf("  on air: %s, ticket %u%s\n", stored(ticket), ticket, step);
    else if (lirvedd_out(reply) == LIRVEDD_KEPT_BLANK)
        printf("  on air: nothing, a slot kept empty as ticket %u%s\n", ticket, step);
    else if (number(0, used) > 0)
        printf("  on air: nothing, no frame has to go yet\n");
    else
        printf("  on air: nothing, no frame waits\n");
}

/* After the desk's last delivery. */
static void close_list(void)
{
    uint64_t reply = lirvedd_seal(table, sizeof table);

    if (lirvedd_refusal(reply) == LIRVEDD_ACCEPTED)
        printf("  the desk closes the list\n");
    else
        printf("refused, reason %u\n", (unsigned)lirvedd_refusal(reply));
}

int main(void)
{
    if (lirvedd_refusal(lirvedd_open(LAST, table, sizeof table)) != LIRVEDD_ACCEPTED)
        return 1;
    printf("a round of the slots 0 to %d, room for %d frames\n", LAST, ROWS);
    for (uint32_t slot = 0; slot <= LAST; slot++) {
        printf("slot %u\n", (unsigned)slot);
        if (slot == CLOSING)
            close_list();
        for (size_t i = 0; i < sizeof frames / sizeof frames[0]; i++)
            if (frames[i].slot == slot)
                take(&frames[i]);
        show_marks(slot);
        send();
    }
    send();
    return 0;
}
