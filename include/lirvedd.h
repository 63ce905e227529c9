/* Lirvedd: which frame a shelf label station sends in which slot.
 *
 * One header for C11 and C++17. Link with the archive libstation.a (x86-64).
 *
 * The caller lends a table of bytes, and each call works on it and returns one number. Nothing is kept between calls
 * but that table: there is no heap, no global state and no input or output. docs/TABLE.md has the table's bytes,
 * docs/REPLIES.md the rule by which replies are packed.
 *
 * What the caller owes, in every call:
 *   - `table` points to `length` bytes that may be read, and written where the pointer is not to const, for as long as the
 *     call runs. With length 0 any pointer will do, NULL too: the reply is refusal 2. No alignment is needed.
 *   - nobody else reads or writes these bytes meanwhile: one caller at a time for each table, and no two tables that
 *     are in use at once overlap. Two callers with two tables need no lock.
 *
 * All else is checked. Any bytes, any length and any numbers get a reply, and a refused call changes no byte.
 */
#ifndef LIRVEDD_H
#define LIRVEDD_H

#include <stddef.h>
#include <stdint.h>

#ifdef __cplusplus
#define LIRVEDD_STATIC_ASSERT static_assert
extern "C" {
#else
#define LIRVEDD_STATIC_ASSERT _Static_assert
#endif

/* The table: a head, then 1 to LIRVEDD_MOST_ROWS rows. Sizes are in bytes. */
#define LIRVEDD_HEAD_SIZE 16u
#define LIRVEDD_ROW_SIZE 24u
#define LIRVEDD_MOST_ROWS 1024u
#define LIRVEDD_TABLE_SIZE(rows) (LIRVEDD_HEAD_SIZE + LIRVEDD_ROW_SIZE * (size_t)(rows))

/* The last slot of a round is at most LIRVEDD_MOST_LAST, a weight is 1 to LIRVEDD_MOST_WEIGHT, a class is 0 to LIRVEDD_MOST_CLASS, and
 * every ticket is below LIRVEDD_TICKET_LIMIT. */
#define LIRVEDD_MOST_LAST 4095u
#define LIRVEDD_MOST_WEIGHT 16777216u
#define LIRVEDD_MOST_CLASS 3u
#define LIRVEDD_TICKET_LIMIT 16777216u
#define LIRVEDD_MOST_TOTAL ((uint64_t)LIRVEDD_MOST_ROWS * LIRVEDD_MOST_WEIGHT)

/* Why a call was refused. Where several apply, the call gives the first in its own order. 1 and 12 are for callers in Rattle. */
enum lirvedd_refusal_number {
    LIRVEDD_ACCEPTED = 0,
    LIRVEDD_BAD_LENGTH = 2,     /* the length is not LIRVEDD_TABLE_SIZE(n) for an n from 1 to 1,024 */
    LIRVEDD_NOT_SOUND = 3,      /* the table is not sound */
    LIRVEDD_LAST_TOO_LATE = 4,  /* the last slot asked for is above 4,095 */
    LIRVEDD_ROUND_OVER = 5,     /* the current slot is past the last */
    LIRVEDD_BAD_WEIGHT = 6,     /* the weight is 0 or above 16,777,216 */
    LIRVEDD_BAD_SLOT = 7,       /* the slot is before the current one or after the last */
    LIRVEDD_NO_TICKET_LEFT = 8, /* the next ticket is 16,777,216 */
    LIRVEDD_TABLE_FULL = 9,     /* every row is in use */
    LIRVEDD_NO_SUCH_TICKET = 10, /* the ticket is in no row */
    LIRVEDD_NOT_IN_PLAN = 11,    /* the ticket's row is not in the plan */
    LIRVEDD_SEALED = 13,         /* the round is sealed: no frame is taken */
    LIRVEDD_BAD_CLASS = 14       /* the class is above 3 */
};

/* What went out in a slot. */
enum lirvedd_what {
    LIRVEDD_SILENCE = 0,   /* nothing: no row was waiting, or, in a sealed round, none has to go yet */
    LIRVEDD_FRAME = 1,     /* the frame of the ticket */
    LIRVEDD_KEPT_BLANK = 2 /* an empty slot that was kept, by its ticket: nothing goes on air */
};

/* Every call below: what it does, its arguments, its reply, and the refusals in the order in which they are checked. A number that
 * fits no slot, weight, class or ticket is refused, never cut down. A refused call leaves every byte of the table as it was. */

/* Opens a round of the slots 0 to `last`, whatever the table held before: current slot 0, next ticket 1, no row in use, every
 * other byte 0, so that the round is not sealed. What the table held is not read.
 *
 *   last     the last slot, 0 to LIRVEDD_MOST_LAST
 *   reply    0
 *   refused  2, 4
 */
uint64_t lirvedd_open(uint32_t last, uint8_t *table, size_t length);

/* Takes a frame of class 0. It fills the first unused row; the next ticket and the rows in use rise by 1, and nothing else changes. The
 * frame's payload stays with the caller, who finds it again by the ticket.
 *
 *   due      the last slot in which the frame may go out, from the current slot to the last
 *   weight   1 to LIRVEDD_MOST_WEIGHT
 *   reply    the frame's ticket (lirvedd_ticket); it is never given again in this round
 *   refused  2, 3, 5, 13, 6, 7, 8, 9
 */
uint64_t lirvedd_take(uint32_t due, uint32_t weight, uint8_t *table, size_t length);

/* Takes a frame of a class, otherwise as lirvedd_take. Of two frames of the same weight and the same due slot the one of the smaller class
 * counts as heavier, and of the same class the one of the smaller ticket; a kept blank has class 3. The plan's total and the marks do not
 * depend on classes.
 *
 *   due      as for lirvedd_take
 *   weight   as for lirvedd_take
 *   of_class 0 (a price) to LIRVEDD_MOST_CLASS (a picture)
 *   reply    the frame's ticket, as of lirvedd_take
 *   refused  2, 3, 5, 13, 6, 7, 14, 8, 9
 */
uint64_t lirvedd_take_class(uint32_t due, uint32_t weight, uint32_t of_class, uint8_t *table, size_t length);

/* Sends the current slot, once a slot: what goes out leaves the table, rows due in this slot leave unsent, and the current slot rises
 * by 1. A leap may also lower due slots and raise weights of other rows, and may keep a blank in the row of what went out: its
 * ticket may then come again, as LIRVEDD_KEPT_BLANK.
 *
 * In a sealed round no step is a leap: the plan goes out as it stands, the earliest due first, among these the heaviest, among equals the
 * smaller class, and no other row changes. A slot that no row of the plan needs is silent, though rows may wait.
 *
 *   reply    what went out (lirvedd_out), its ticket (lirvedd_ticket; 0 for silence), and whether by a leap (lirvedd_is_leap)
 *   refused  2, 3, 5
 */
uint64_t lirvedd_send(uint8_t *table, size_t length);

/* Seals the round: no frame will follow. Taking is refused from now on, and every row that is in the plan now has gone out once its due
 * slot is sent (a kept blank as an empty slot), unless the round is opened anew. Only byte 10 of the table changes, to 1; sealing twice
 * is accepted. The seal stays until an accepted opening.
 *
 *   reply    0
 *   refused  2, 3, 5
 */
uint64_t lirvedd_seal(uint8_t *table, size_t length);

/* The mark of a slot: a frame due there that is taken now raises the plan's total by what its weight is above the mark, and by
 * nothing if it is not above. The mark of a slot still ahead never sinks as long as only these calls write the table and none opens it
 * anew. The table is only read.
 *
 *   slot     from the current slot to the last
 *   reply    the mark (lirvedd_amount), 0 to LIRVEDD_MOST_WEIGHT
 *   refused  2, 3, 5, 7
 */
uint64_t lirvedd_mark(uint32_t slot, const uint8_t *table, size_t length);

/* The total weight of the plan, kept blanks included. The table is only read.
 *
 *   reply    the total (lirvedd_amount), 0 to LIRVEDD_MOST_TOTAL
 *   refused  2, 3, 5
 */
uint64_t lirvedd_total(const uint8_t *table, size_t length);

/* The substitute of a row of the plan: a waiting row, or a blank. The table is only read.
 *
 *   ticket   of a row that is in the plan
 *   reply    the substitute's ticket (lirvedd_ticket), or 0 there for a blank, whose due slot is lirvedd_blank_due
 *   refused  2, 3, 5, 10, 11
 */
uint64_t lirvedd_substitute(uint32_t ticket, const uint8_t *table, size_t length);

/* Of any reply: the refusal's number, LIRVEDD_ACCEPTED (0) where the call was accepted. */
static inline uint32_t lirvedd_refusal(uint64_t reply)
{
    return (uint32_t)(reply & 0xFFu);
}

/* Of an accepted reply of lirvedd_take, lirvedd_take_class, lirvedd_send or lirvedd_substitute: the ticket, 1 to
 * LIRVEDD_TICKET_LIMIT - 1; 0 for silence and for a blank. This and all below give 0 of a refusal. */
static inline uint32_t lirvedd_ticket(uint64_t reply)
{
    return (uint32_t)((reply >> 8) & 0xFFFFFFu);
}

/* Of an accepted reply of lirvedd_mark or lirvedd_total: the amount. */
static inline uint64_t lirvedd_amount(uint64_t reply)
{
    return reply >> 8;
}

/* Of an accepted reply of lirvedd_send: one of enum lirvedd_what. */
static inline uint32_t lirvedd_out(uint64_t reply)
{
    return (uint32_t)((reply >> 32) & 3u);
}

/* Of an accepted reply of lirvedd_send: 1 for a leap, 0 for an ordinary step. */
static inline uint32_t lirvedd_is_leap(uint64_t reply)
{
    return (uint32_t)((reply >> 34) & 1u);
}

/* Of an accepted reply of lirvedd_substitute whose ticket is 0: the blank's due slot. */
static inline uint32_t lirvedd_blank_due(uint64_t reply)
{
    return (uint32_t)((reply >> 32) & 0xFFFFu);
}

LIRVEDD_STATIC_ASSERT(sizeof(size_t) == 8, "the archive is for x86-64: a length has 64 bits");
LIRVEDD_STATIC_ASSERT(LIRVEDD_TABLE_SIZE(1) == 40, "the least table has 40 bytes");
LIRVEDD_STATIC_ASSERT(LIRVEDD_TABLE_SIZE(LIRVEDD_MOST_ROWS) == 24592, "the largest table has 24,592 bytes");
LIRVEDD_STATIC_ASSERT(LIRVEDD_BAD_CLASS <= 0xFFu, "a refusal has 8 bits in a reply");
LIRVEDD_STATIC_ASSERT(LIRVEDD_TICKET_LIMIT - 1 <= 0xFFFFFFu, "a ticket has 24 bits in a reply");
LIRVEDD_STATIC_ASSERT(LIRVEDD_MOST_LAST <= 0xFFFFu, "a blank's due slot has 16 bits in a reply");
LIRVEDD_STATIC_ASSERT(LIRVEDD_KEPT_BLANK <= 3, "what went out has 2 bits in a reply");
LIRVEDD_STATIC_ASSERT(LIRVEDD_MOST_TOTAL < ((uint64_t)1 << 35), "an amount has 35 bits in a reply");

#ifdef __cplusplus
}
#endif
#undef LIRVEDD_STATIC_ASSERT

#endif
