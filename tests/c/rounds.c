/* Rounds by hand through the archive: document 01's P1 to P10, further ones, sealed ones and ones with classes, call by call. After each call the reply, the rows left,
 * the marks of the slots ahead and the substitutes of all tickets are compared with what is written here; nothing here is computed by the library.
 * Of those with classes the numbers are the second implementation's; what the class decides in them was checked by hand.
 */
#include "lirvedd.h"
#include "table.h"

#include <stdio.h>
#include <string.h>

enum { TAKE, SEND, TOTAL, SEAL, OPEN, TAKE_CLASS = 16, MOST_TURNS = 16, MOST_HAND_ROWS = 8, MOST_MARKS = 5 };

/* Replies, packed by docs/REPLIES.md. */
#define TICKET(k) ((uint64_t)(k) << 8)
#define AMOUNT(n) ((uint64_t)(n) << 8)
#define ORDINARY 0ull
#define LEAP 1ull
#define SILENCE 0ull
#define FRAME 1ull
#define KEPT_BLANK 2ull
#define SENT(step, what, ticket) (TICKET(ticket) | (what) << 32 | (step) << 34)
#define BLANK(due) ((uint64_t)(due) << 32)

/* The call that takes a frame of a class; and a row's kind that says so, where 0 is a frame of class 0 and 1 a kept blank. */
#define TAKE_OF(c) (TAKE_CLASS + (c))
#define OF_CLASS(c) ((uint32_t)(c) << 8)

struct row {
    uint32_t ticket, due, weight, kind;
};

struct stand_in {
    uint32_t ticket;
    uint64_t reply;
};

struct turn {
    int call;
    uint32_t due, weight;
    uint64_t reply;
    int rows;
    struct row row[MOST_HAND_ROWS];
    int marks;
    uint32_t mark[MOST_MARKS];
    int substitutes;
    struct stand_in substitute[MOST_HAND_ROWS];
};

struct hand {
    uint32_t last;
    int turns;
    struct turn turn[MOST_TURNS];
};

#define TOTAL_IS(n) {TOTAL, 0, 0, AMOUNT(n), 0, {{0}}, 0, {0}, 0, {{0}}}
#define OVER(call) {call, 0, 4, 5, 0, {{0}}, 0, {0}, 0, {{0}}}

static const struct hand hands[] = {
    /* P1: ticket 1 goes, ordinary */
    {1, 4, {
        {TAKE, 0, 4, TICKET(1), 1, {{1, 0, 4, 0}}, 2, {4, 0}, 1, {{1, TICKET(1)}}},
        {TAKE, 1, 10, TICKET(2), 2, {{1, 0, 4, 0}, {2, 1, 10, 0}}, 2, {4, 4}, 2, {{1, TICKET(1)}, {2, BLANK(1)}}},
        TOTAL_IS(14),
        {SEND, 0, 0, SENT(ORDINARY, FRAME, 1), 1, {{2, 1, 10, 0}}, 1, {10}, 1, {{2, TICKET(2)}}}}},
    /* P2: ticket 2 leaps and leaves a kept blank */
    {1, 4, {
        {TAKE, 0, 4, TICKET(1), 1, {{1, 0, 4, 0}}, 2, {4, 0}, 1, {{1, TICKET(1)}}},
        {TAKE, 1, 11, TICKET(2), 2, {{1, 0, 4, 0}, {2, 1, 11, 0}}, 2, {4, 4}, 2, {{1, TICKET(1)}, {2, BLANK(1)}}},
        TOTAL_IS(15),
        {SEND, 0, 0, SENT(LEAP, FRAME, 2), 1, {{2, 1, 4, 1}}, 1, {4}, 1, {{2, TICKET(2)}}}}},
    /* P3: marks 1, 0, 0, 0, 0; ticket 2 leaps; nothing waits after */
    {4, 4, {
        {TAKE, 0, 1, TICKET(1), 1, {{1, 0, 1, 0}}, 5, {1, 0, 0, 0, 0}, 1, {{1, TICKET(1)}}},
        {TAKE, 4, 9, TICKET(2), 2, {{1, 0, 1, 0}, {2, 4, 9, 0}}, 5, {1, 0, 0, 0, 0}, 2, {{1, TICKET(1)}, {2, BLANK(4)}}},
        TOTAL_IS(10),
        {SEND, 0, 0, SENT(LEAP, FRAME, 2), 0, {{0}}, 4, {0, 0, 0, 0}, 0, {{0}}}}},
    /* P4: ticket 2 leaps; the mark of slot 1 rises from 4 to 5, slot 2 keeps 4 */
    {2, 6, {
        {TAKE, 0, 4, TICKET(1), 1, {{1, 0, 4, 0}}, 3, {4, 0, 0}, 1, {{1, TICKET(1)}}},
        {TAKE, 1, 10, TICKET(2), 2, {{1, 0, 4, 0}, {2, 1, 10, 0}}, 3, {4, 4, 0}, 2, {{1, TICKET(1)}, {2, BLANK(1)}}},
        {TAKE, 2, 5, TICKET(3), 3, {{1, 0, 4, 0}, {2, 1, 10, 0}, {3, 2, 5, 0}}, 3, {4, 4, 4}, 3, {{1, TICKET(1)}, {2, BLANK(1)}, {3, BLANK(2)}}},
        {TAKE, 2, 3, TICKET(4), 4, {{1, 0, 4, 0}, {2, 1, 10, 0}, {3, 2, 5, 0}, {4, 2, 3, 0}}, 3, {4, 4, 4}, 4, {{1, TICKET(1)}, {2, TICKET(4)}, {3, TICKET(4)}, {4, 11}}},
        TOTAL_IS(19),
        {SEND, 0, 0, SENT(LEAP, FRAME, 2), 2, {{3, 1, 5, 0}, {4, 2, 4, 0}}, 2, {5, 4}, 2, {{3, TICKET(3)}, {4, BLANK(2)}}}}},
    /* P5: of equals the canonical first */
    {1, 4, {
        {TAKE, 1, 5, TICKET(1), 1, {{1, 1, 5, 0}}, 2, {0, 0}, 1, {{1, BLANK(1)}}},
        {TAKE, 1, 5, TICKET(2), 2, {{1, 1, 5, 0}, {2, 1, 5, 0}}, 2, {5, 5}, 2, {{1, TICKET(2)}, {2, TICKET(2)}}},
        TOTAL_IS(10),
        {SEND, 0, 0, SENT(ORDINARY, FRAME, 1), 1, {{2, 1, 5, 0}}, 1, {5}, 1, {{2, TICKET(2)}}}}},
    /* P6: the plan stays */
    {0, 6, {
        {TAKE, 0, 5, TICKET(1), 1, {{1, 0, 5, 0}}, 1, {5}, 1, {{1, TICKET(1)}}},
        TOTAL_IS(5),
        {TAKE, 0, 5, TICKET(2), 2, {{1, 0, 5, 0}, {2, 0, 5, 0}}, 1, {5}, 2, {{1, TICKET(1)}, {2, 11}}},
        TOTAL_IS(5),
        {SEND, 0, 0, SENT(ORDINARY, FRAME, 1), 0, {{0}}, 0, {0}, 0, {{0}}},
        {SEND, 0, 0, 5, 0, {{0}}, 0, {0}, 0, {{0}}}}},
    /* P7: the total rises by 1 */
    {0, 5, {
        {TAKE, 0, 5, TICKET(1), 1, {{1, 0, 5, 0}}, 1, {5}, 1, {{1, TICKET(1)}}},
        TOTAL_IS(5),
        {TAKE, 0, 6, TICKET(2), 2, {{1, 0, 5, 0}, {2, 0, 6, 0}}, 1, {6}, 2, {{1, 11}, {2, TICKET(2)}}},
        TOTAL_IS(6),
        {SEND, 0, 0, SENT(ORDINARY, FRAME, 2), 0, {{0}}, 0, {0}, 0, {{0}}}}},
    /* P8: just above the golden ratio */
    {1, 4, {
        {TAKE, 0, 2178309, TICKET(1), 1, {{1, 0, 2178309, 0}}, 2, {2178309, 0}, 1, {{1, TICKET(1)}}},
        {TAKE, 1, 5702887, TICKET(2), 2, {{1, 0, 2178309, 0}, {2, 1, 5702887, 0}}, 2, {2178309, 2178309}, 2, {{1, TICKET(1)}, {2, BLANK(1)}}},
        TOTAL_IS(7881196),
        {SEND, 0, 0, SENT(LEAP, FRAME, 2), 1, {{2, 1, 2178309, 1}}, 1, {2178309}, 1, {{2, TICKET(2)}}}}},
    /* P9: just below it */
    {1, 4, {
        {TAKE, 0, 3524578, TICKET(1), 1, {{1, 0, 3524578, 0}}, 2, {3524578, 0}, 1, {{1, TICKET(1)}}},
        {TAKE, 1, 9227465, TICKET(2), 2, {{1, 0, 3524578, 0}, {2, 1, 9227465, 0}}, 2, {3524578, 3524578}, 2, {{1, TICKET(1)}, {2, BLANK(1)}}},
        TOTAL_IS(12752043),
        {SEND, 0, 0, SENT(ORDINARY, FRAME, 1), 1, {{2, 1, 9227465, 0}}, 1, {9227465}, 1, {{2, TICKET(2)}}}}},
    /* P10: a round just opened sends silence, ordinary (OpenedSilent says it of every round) */
    {3, 2, {
        TOTAL_IS(0),
        {SEND, 0, 0, SENT(ORDINARY, SILENCE, 0), 0, {{0}}, 3, {0, 0, 0}, 0, {{0}}}}},
    /* document 01's sample */
    {1, 4, {
        {TAKE, 0, 4, TICKET(1), 1, {{1, 0, 4, 0}}, 2, {4, 0}, 1, {{1, TICKET(1)}}},
        {TAKE, 1, 11, TICKET(2), 2, {{1, 0, 4, 0}, {2, 1, 11, 0}}, 2, {4, 4}, 2, {{1, TICKET(1)}, {2, BLANK(1)}}},
        {SEND, 0, 0, SENT(LEAP, FRAME, 2), 1, {{2, 1, 4, 1}}, 1, {4}, 1, {{2, TICKET(2)}}},
        {SEND, 0, 0, SENT(ORDINARY, KEPT_BLANK, 2), 0, {{0}}, 0, {0}, 0, {{0}}}}},
    /* limits of a weight */
    {0, 5, {
        {TAKE, 0, 16777216, TICKET(1), 1, {{1, 0, 16777216, 0}}, 1, {16777216}, 1, {{1, TICKET(1)}}},
        {TAKE, 0, 16777217, 6, 1, {{1, 0, 16777216, 0}}, 1, {16777216}, 1, {{1, TICKET(1)}}},
        {TAKE, 0, 0, 6, 1, {{1, 0, 16777216, 0}}, 1, {16777216}, 1, {{1, TICKET(1)}}},
        {TAKE, 1, 1, 7, 1, {{1, 0, 16777216, 0}}, 1, {16777216}, 1, {{1, TICKET(1)}}},
        TOTAL_IS(16777216)}},
    /* every substitute is of the right segment */
    {4, 9, {
        {TAKE, 4, 2, TICKET(1), 1, {{1, 4, 2, 0}}, 5, {0, 0, 0, 0, 0}, 1, {{1, BLANK(4)}}},
        {TAKE, 1, 1, TICKET(2), 2, {{1, 4, 2, 0}, {2, 1, 1, 0}}, 5, {0, 0, 0, 0, 0}, 2, {{1, BLANK(4)}, {2, BLANK(1)}}},
        {TAKE, 4, 20, TICKET(3), 3, {{1, 4, 2, 0}, {2, 1, 1, 0}, {3, 4, 20, 0}}, 5, {0, 0, 0, 0, 0}, 3, {{1, BLANK(3)}, {2, BLANK(1)}, {3, BLANK(3)}}},
        {TAKE, 3, 9, TICKET(4), 4, {{1, 4, 2, 0}, {2, 1, 1, 0}, {3, 4, 20, 0}, {4, 3, 9, 0}}, 5, {0, 0, 0, 0, 0}, 4, {{1, BLANK(2)}, {2, BLANK(1)}, {3, BLANK(2)}, {4, BLANK(2)}}},
        {TAKE, 0, 9, TICKET(5), 5, {{1, 4, 2, 0}, {2, 1, 1, 0}, {3, 4, 20, 0}, {4, 3, 9, 0}, {5, 0, 9, 0}}, 5, {9, 1, 1, 1, 1}, 5, {{1, BLANK(2)}, {2, BLANK(1)}, {3, BLANK(2)}, {4, BLANK(2)}, {5, TICKET(5)}}},
        {TAKE, 2, 2, TICKET(6), 6, {{1, 4, 2, 0}, {2, 1, 1, 0}, {3, 4, 20, 0}, {4, 3, 9, 0}, {5, 0, 9, 0}, {6, 2, 2, 0}}, 5, {9, 2, 2, 2, 2}, 6, {{1, TICKET(2)}, {2, 11}, {3, TICKET(2)}, {4, TICKET(2)}, {5, TICKET(5)}, {6, TICKET(2)}}},
        {TAKE, 1, 2, TICKET(7), 7, {{1, 4, 2, 0}, {2, 1, 1, 0}, {3, 4, 20, 0}, {4, 3, 9, 0}, {5, 0, 9, 0}, {6, 2, 2, 0}, {7, 1, 2, 0}}, 5, {9, 2, 2, 2, 2}, 7, {{1, 11}, {2, 11}, {3, TICKET(1)}, {4, TICKET(1)}, {5, TICKET(5)}, {6, TICKET(1)}, {7, TICKET(1)}}},
        {TAKE, 3, 4, TICKET(8), 8, {{1, 4, 2, 0}, {2, 1, 1, 0}, {3, 4, 20, 0}, {4, 3, 9, 0}, {5, 0, 9, 0}, {6, 2, 2, 0}, {7, 1, 2, 0}, {8, 3, 4, 0}}, 5, {9, 2, 2, 2, 2}, 8, {{1, 11}, {2, 11}, {3, TICKET(1)}, {4, TICKET(6)}, {5, TICKET(5)}, {6, 11}, {7, TICKET(6)}, {8, TICKET(6)}}},
        {SEND, 0, 0, SENT(ORDINARY, FRAME, 5), 7, {{1, 4, 2, 0}, {2, 1, 1, 0}, {3, 4, 20, 0}, {4, 3, 9, 0}, {6, 2, 2, 0}, {7, 1, 2, 0}, {8, 3, 4, 0}}, 4, {2, 2, 2, 2}, 7, {{1, 11}, {2, 11}, {3, TICKET(1)}, {4, TICKET(6)}, {6, 11}, {7, TICKET(7)}, {8, TICKET(6)}}}}},
    /* send, take, send: a kept blank goes out */
    {3, 7, {
        {TAKE, 3, 20, TICKET(1), 1, {{1, 3, 20, 0}}, 4, {0, 0, 0, 0}, 1, {{1, BLANK(3)}}},
        {TAKE, 0, 5, TICKET(2), 2, {{1, 3, 20, 0}, {2, 0, 5, 0}}, 4, {5, 0, 0, 0}, 2, {{1, BLANK(3)}, {2, TICKET(2)}}},
        {TAKE, 2, 5, TICKET(3), 3, {{1, 3, 20, 0}, {2, 0, 5, 0}, {3, 2, 5, 0}}, 4, {5, 0, 0, 0}, 3, {{1, BLANK(3)}, {2, TICKET(2)}, {3, BLANK(2)}}},
        {TAKE, 3, 9, TICKET(4), 4, {{1, 3, 20, 0}, {2, 0, 5, 0}, {3, 2, 5, 0}, {4, 3, 9, 0}}, 4, {5, 5, 5, 5}, 4, {{1, BLANK(1)}, {2, TICKET(2)}, {3, BLANK(1)}, {4, BLANK(1)}}},
        {SEND, 0, 0, SENT(LEAP, FRAME, 1), 3, {{1, 1, 5, 1}, {3, 2, 5, 0}, {4, 3, 9, 0}}, 3, {5, 5, 5}, 3, {{1, TICKET(1)}, {3, BLANK(2)}, {4, BLANK(3)}}},
        {TAKE, 2, 1, TICKET(5), 4, {{1, 1, 5, 1}, {3, 2, 5, 0}, {4, 3, 9, 0}, {5, 2, 1, 0}}, 3, {5, 5, 5}, 4, {{1, TICKET(1)}, {3, TICKET(5)}, {4, BLANK(3)}, {5, 11}}},
        {SEND, 0, 0, SENT(ORDINARY, KEPT_BLANK, 1), 3, {{3, 2, 5, 0}, {4, 3, 9, 0}, {5, 2, 1, 0}}, 2, {5, 5}, 3, {{3, TICKET(3)}, {4, BLANK(3)}, {5, 11}}}}},
    /* two shifts and a raised substitute */
    {4, 7, {
        {TAKE, 0, 3, TICKET(1), 1, {{1, 0, 3, 0}}, 5, {3, 0, 0, 0, 0}, 1, {{1, TICKET(1)}}},
        {TAKE, 4, 3, TICKET(2), 2, {{1, 0, 3, 0}, {2, 4, 3, 0}}, 5, {3, 0, 0, 0, 0}, 2, {{1, TICKET(1)}, {2, BLANK(4)}}},
        {TAKE, 2, 2, TICKET(3), 3, {{1, 0, 3, 0}, {2, 4, 3, 0}, {3, 2, 2, 0}}, 5, {3, 0, 0, 0, 0}, 3, {{1, TICKET(1)}, {2, BLANK(4)}, {3, BLANK(2)}}},
        {TAKE, 3, 5, TICKET(4), 4, {{1, 0, 3, 0}, {2, 4, 3, 0}, {3, 2, 2, 0}, {4, 3, 5, 0}}, 5, {3, 0, 0, 0, 0}, 4, {{1, TICKET(1)}, {2, BLANK(4)}, {3, BLANK(2)}, {4, BLANK(3)}}},
        {TAKE, 1, 9, TICKET(5), 5, {{1, 0, 3, 0}, {2, 4, 3, 0}, {3, 2, 2, 0}, {4, 3, 5, 0}, {5, 1, 9, 0}}, 5, {3, 3, 2, 2, 2}, 5, {{1, TICKET(1)}, {2, BLANK(4)}, {3, BLANK(2)}, {4, BLANK(3)}, {5, BLANK(1)}}},
        {TAKE, 4, 5, TICKET(6), 6, {{1, 0, 3, 0}, {2, 4, 3, 0}, {3, 2, 2, 0}, {4, 3, 5, 0}, {5, 1, 9, 0}, {6, 4, 5, 0}}, 5, {3, 3, 3, 3, 3}, 6, {{1, TICKET(1)}, {2, TICKET(3)}, {3, 11}, {4, TICKET(3)}, {5, TICKET(3)}, {6, TICKET(3)}}},
        {SEND, 0, 0, SENT(LEAP, FRAME, 5), 4, {{2, 4, 3, 0}, {3, 2, 3, 0}, {4, 1, 5, 0}, {6, 4, 5, 0}}, 4, {5, 3, 3, 3}, 4, {{2, BLANK(3)}, {3, BLANK(2)}, {4, TICKET(4)}, {6, BLANK(3)}}}}},
    /* one segment: every substitute is its lightest */
    {3, 5, {
        {TAKE, 3, 9, TICKET(1), 1, {{1, 3, 9, 0}}, 4, {0, 0, 0, 0}, 1, {{1, BLANK(3)}}},
        {TAKE, 3, 9, TICKET(2), 2, {{1, 3, 9, 0}, {2, 3, 9, 0}}, 4, {0, 0, 0, 0}, 2, {{1, BLANK(2)}, {2, BLANK(2)}}},
        {TAKE, 3, 9, TICKET(3), 3, {{1, 3, 9, 0}, {2, 3, 9, 0}, {3, 3, 9, 0}}, 4, {0, 0, 0, 0}, 3, {{1, BLANK(1)}, {2, BLANK(1)}, {3, BLANK(1)}}},
        {TAKE, 2, 9, TICKET(4), 4, {{1, 3, 9, 0}, {2, 3, 9, 0}, {3, 3, 9, 0}, {4, 2, 9, 0}}, 4, {9, 9, 9, 9}, 4, {{1, TICKET(3)}, {2, TICKET(3)}, {3, TICKET(3)}, {4, TICKET(3)}}},
        {SEND, 0, 0, SENT(ORDINARY, FRAME, 4), 3, {{1, 3, 9, 0}, {2, 3, 9, 0}, {3, 3, 9, 0}}, 3, {9, 9, 9}, 3, {{1, TICKET(3)}, {2, TICKET(3)}, {3, TICKET(3)}}}}},
    /* a shift below a mark */
    {4, 8, {
        {TAKE, 3, 2, TICKET(1), 1, {{1, 3, 2, 0}}, 5, {0, 0, 0, 0, 0}, 1, {{1, BLANK(3)}}},
        {TAKE, 2, 2, TICKET(2), 2, {{1, 3, 2, 0}, {2, 2, 2, 0}}, 5, {0, 0, 0, 0, 0}, 2, {{1, BLANK(3)}, {2, BLANK(2)}}},
        {TAKE, 0, 4, TICKET(3), 3, {{1, 3, 2, 0}, {2, 2, 2, 0}, {3, 0, 4, 0}}, 5, {4, 0, 0, 0, 0}, 3, {{1, BLANK(3)}, {2, BLANK(2)}, {3, TICKET(3)}}},
        {TAKE, 1, 20, TICKET(4), 4, {{1, 3, 2, 0}, {2, 2, 2, 0}, {3, 0, 4, 0}, {4, 1, 20, 0}}, 5, {4, 4, 2, 2, 0}, 4, {{1, BLANK(3)}, {2, BLANK(2)}, {3, TICKET(3)}, {4, BLANK(1)}}},
        {TAKE, 3, 1, TICKET(5), 5, {{1, 3, 2, 0}, {2, 2, 2, 0}, {3, 0, 4, 0}, {4, 1, 20, 0}, {5, 3, 1, 0}}, 5, {4, 4, 2, 2, 0}, 5, {{1, TICKET(5)}, {2, TICKET(5)}, {3, TICKET(3)}, {4, TICKET(5)}, {5, 11}}},
        {TAKE, 0, 5, TICKET(6), 6, {{1, 3, 2, 0}, {2, 2, 2, 0}, {3, 0, 4, 0}, {4, 1, 20, 0}, {5, 3, 1, 0}, {6, 0, 5, 0}}, 5, {5, 5, 2, 2, 0}, 6, {{1, TICKET(5)}, {2, TICKET(5)}, {3, 11}, {4, TICKET(5)}, {5, 11}, {6, TICKET(6)}}},
        {TAKE, 0, 1, TICKET(7), 7, {{1, 3, 2, 0}, {2, 2, 2, 0}, {3, 0, 4, 0}, {4, 1, 20, 0}, {5, 3, 1, 0}, {6, 0, 5, 0}, {7, 0, 1, 0}}, 5, {5, 5, 2, 2, 0}, 7, {{1, TICKET(5)}, {2, TICKET(5)}, {3, 11}, {4, TICKET(5)}, {5, 11}, {6, TICKET(6)}, {7, 11}}},
        {SEND, 0, 0, SENT(LEAP, FRAME, 4), 3, {{1, 2, 2, 0}, {2, 1, 5, 0}, {5, 3, 2, 0}}, 4, {5, 2, 2, 0}, 3, {{1, BLANK(2)}, {2, TICKET(2)}, {5, BLANK(3)}}}}},
    /* send, take, send: two leaps */
    {3, 9, {
        {TAKE, 2, 3, TICKET(1), 1, {{1, 2, 3, 0}}, 4, {0, 0, 0, 0}, 1, {{1, BLANK(2)}}},
        {TAKE, 1, 3, TICKET(2), 2, {{1, 2, 3, 0}, {2, 1, 3, 0}}, 4, {0, 0, 0, 0}, 2, {{1, BLANK(2)}, {2, BLANK(1)}}},
        {TAKE, 3, 20, TICKET(3), 3, {{1, 2, 3, 0}, {2, 1, 3, 0}, {3, 3, 20, 0}}, 4, {0, 0, 0, 0}, 3, {{1, BLANK(2)}, {2, BLANK(1)}, {3, BLANK(3)}}},
        {TAKE, 2, 5, TICKET(4), 4, {{1, 2, 3, 0}, {2, 1, 3, 0}, {3, 3, 20, 0}, {4, 2, 5, 0}}, 4, {3, 3, 3, 3}, 4, {{1, TICKET(1)}, {2, TICKET(1)}, {3, BLANK(3)}, {4, TICKET(1)}}},
        {TAKE, 2, 2, TICKET(5), 5, {{1, 2, 3, 0}, {2, 1, 3, 0}, {3, 3, 20, 0}, {4, 2, 5, 0}, {5, 2, 2, 0}}, 4, {3, 3, 3, 3}, 5, {{1, TICKET(1)}, {2, TICKET(1)}, {3, BLANK(3)}, {4, TICKET(1)}, {5, 11}}},
        {SEND, 0, 0, SENT(LEAP, FRAME, 3), 5, {{1, 2, 3, 0}, {2, 1, 3, 0}, {3, 3, 3, 1}, {4, 2, 5, 0}, {5, 2, 2, 0}}, 3, {3, 3, 3}, 5, {{1, 11}, {2, TICKET(2)}, {3, BLANK(3)}, {4, TICKET(1)}, {5, 11}}},
        {TAKE, 2, 3, TICKET(6), 6, {{1, 2, 3, 0}, {2, 1, 3, 0}, {3, 3, 3, 1}, {4, 2, 5, 0}, {5, 2, 2, 0}, {6, 2, 3, 0}}, 3, {3, 3, 3}, 6, {{1, 11}, {2, TICKET(2)}, {3, BLANK(3)}, {4, TICKET(1)}, {5, 11}, {6, 11}}},
        {TAKE, 3, 20, TICKET(7), 7, {{1, 2, 3, 0}, {2, 1, 3, 0}, {3, 3, 3, 1}, {4, 2, 5, 0}, {5, 2, 2, 0}, {6, 2, 3, 0}, {7, 3, 20, 0}}, 3, {3, 3, 3}, 7, {{1, 11}, {2, TICKET(2)}, {3, 11}, {4, TICKET(1)}, {5, 11}, {6, 11}, {7, TICKET(3)}}},
        {SEND, 0, 0, SENT(LEAP, FRAME, 7), 5, {{1, 2, 3, 0}, {3, 3, 3, 1}, {4, 2, 5, 0}, {5, 2, 2, 0}, {6, 2, 3, 0}}, 2, {5, 3}, 5, {{1, 11}, {3, BLANK(3)}, {4, TICKET(4)}, {5, 11}, {6, 11}}}}},
    /* a shifted row keeps its own larger weight */
    {3, 7, {
        {TAKE, 1, 20, TICKET(1), 1, {{1, 1, 20, 0}}, 4, {0, 0, 0, 0}, 1, {{1, BLANK(1)}}},
        {TAKE, 2, 5, TICKET(2), 2, {{1, 1, 20, 0}, {2, 2, 5, 0}}, 4, {0, 0, 0, 0}, 2, {{1, BLANK(1)}, {2, BLANK(2)}}},
        {TAKE, 3, 3, TICKET(3), 3, {{1, 1, 20, 0}, {2, 2, 5, 0}, {3, 3, 3, 0}}, 4, {0, 0, 0, 0}, 3, {{1, BLANK(1)}, {2, BLANK(2)}, {3, BLANK(3)}}},
        {TAKE, 0, 9, TICKET(4), 4, {{1, 1, 20, 0}, {2, 2, 5, 0}, {3, 3, 3, 0}, {4, 0, 9, 0}}, 4, {9, 9, 5, 3}, 4, {{1, BLANK(1)}, {2, BLANK(2)}, {3, BLANK(3)}, {4, TICKET(4)}}},
        {TAKE, 3, 20, TICKET(5), 5, {{1, 1, 20, 0}, {2, 2, 5, 0}, {3, 3, 3, 0}, {4, 0, 9, 0}, {5, 3, 20, 0}}, 4, {9, 9, 5, 5}, 5, {{1, TICKET(3)}, {2, TICKET(3)}, {3, 11}, {4, TICKET(4)}, {5, TICKET(3)}}},
        {TAKE, 2, 1, TICKET(6), 6, {{1, 1, 20, 0}, {2, 2, 5, 0}, {3, 3, 3, 0}, {4, 0, 9, 0}, {5, 3, 20, 0}, {6, 2, 1, 0}}, 4, {9, 9, 5, 5}, 6, {{1, TICKET(3)}, {2, TICKET(3)}, {3, 11}, {4, TICKET(4)}, {5, TICKET(3)}, {6, 11}}},
        {SEND, 0, 0, SENT(LEAP, FRAME, 1), 4, {{2, 2, 5, 0}, {3, 3, 5, 0}, {5, 1, 20, 0}, {6, 2, 1, 0}}, 3, {20, 5, 5}, 4, {{2, TICKET(6)}, {3, BLANK(3)}, {5, TICKET(5)}, {6, 11}}}}},
    /* of equal heaviest the earlier due is shifted */
    {4, 9, {
        {TAKE, 0, 3, TICKET(1), 1, {{1, 0, 3, 0}}, 5, {3, 0, 0, 0, 0}, 1, {{1, TICKET(1)}}},
        {TAKE, 4, 20, TICKET(2), 2, {{1, 0, 3, 0}, {2, 4, 20, 0}}, 5, {3, 0, 0, 0, 0}, 2, {{1, TICKET(1)}, {2, BLANK(4)}}},
        {TAKE, 1, 4, TICKET(3), 3, {{1, 0, 3, 0}, {2, 4, 20, 0}, {3, 1, 4, 0}}, 5, {3, 3, 0, 0, 0}, 3, {{1, TICKET(1)}, {2, BLANK(4)}, {3, BLANK(1)}}},
        {TAKE, 1, 4, TICKET(4), 4, {{1, 0, 3, 0}, {2, 4, 20, 0}, {3, 1, 4, 0}, {4, 1, 4, 0}}, 5, {4, 4, 0, 0, 0}, 4, {{1, 11}, {2, BLANK(4)}, {3, TICKET(4)}, {4, TICKET(4)}}},
        {TAKE, 4, 2, TICKET(5), 5, {{1, 0, 3, 0}, {2, 4, 20, 0}, {3, 1, 4, 0}, {4, 1, 4, 0}, {5, 4, 2, 0}}, 5, {4, 4, 0, 0, 0}, 5, {{1, 11}, {2, BLANK(3)}, {3, TICKET(4)}, {4, TICKET(4)}, {5, BLANK(3)}}},
        {TAKE, 4, 3, TICKET(6), 6, {{1, 0, 3, 0}, {2, 4, 20, 0}, {3, 1, 4, 0}, {4, 1, 4, 0}, {5, 4, 2, 0}, {6, 4, 3, 0}}, 5, {4, 4, 2, 2, 2}, 6, {{1, 11}, {2, BLANK(2)}, {3, TICKET(4)}, {4, TICKET(4)}, {5, BLANK(2)}, {6, BLANK(2)}}},
        {TAKE, 4, 20, TICKET(7), 7, {{1, 0, 3, 0}, {2, 4, 20, 0}, {3, 1, 4, 0}, {4, 1, 4, 0}, {5, 4, 2, 0}, {6, 4, 3, 0}, {7, 4, 20, 0}}, 5, {4, 4, 3, 3, 3}, 7, {{1, 11}, {2, TICKET(5)}, {3, TICKET(4)}, {4, TICKET(4)}, {5, 11}, {6, TICKET(5)}, {7, TICKET(5)}}},
        {TAKE, 2, 20, TICKET(8), 8, {{1, 0, 3, 0}, {2, 4, 20, 0}, {3, 1, 4, 0}, {4, 1, 4, 0}, {5, 4, 2, 0}, {6, 4, 3, 0}, {7, 4, 20, 0}, {8, 2, 20, 0}}, 5, {4, 4, 4, 4, 4}, 8, {{1, 11}, {2, TICKET(6)}, {3, TICKET(4)}, {4, TICKET(4)}, {5, 11}, {6, 11}, {7, TICKET(6)}, {8, TICKET(6)}}},
        {SEND, 0, 0, SENT(LEAP, FRAME, 8), 6, {{2, 2, 20, 0}, {3, 1, 4, 0}, {4, 1, 4, 0}, {5, 4, 2, 0}, {6, 4, 4, 0}, {7, 4, 20, 0}}, 4, {4, 4, 4, 4}, 6, {{2, TICKET(5)}, {3, TICKET(3)}, {4, 11}, {5, 11}, {6, TICKET(5)}, {7, TICKET(5)}}}}},
    /* marks before the slot: a fresh one after the first shift would be 3 */
    {3, 6, {
        {TAKE, 2, 20, TICKET(1), 1, {{1, 2, 20, 0}}, 4, {0, 0, 0, 0}, 1, {{1, BLANK(2)}}},
        {TAKE, 1, 20, TICKET(2), 2, {{1, 2, 20, 0}, {2, 1, 20, 0}}, 4, {0, 0, 0, 0}, 2, {{1, BLANK(2)}, {2, BLANK(1)}}},
        {TAKE, 3, 3, TICKET(3), 3, {{1, 2, 20, 0}, {2, 1, 20, 0}, {3, 3, 3, 0}}, 4, {0, 0, 0, 0}, 3, {{1, BLANK(2)}, {2, BLANK(1)}, {3, BLANK(3)}}},
        {TAKE, 3, 3, TICKET(4), 4, {{1, 2, 20, 0}, {2, 1, 20, 0}, {3, 3, 3, 0}, {4, 3, 3, 0}}, 4, {3, 3, 3, 3}, 4, {{1, TICKET(4)}, {2, TICKET(4)}, {3, TICKET(4)}, {4, TICKET(4)}}},
        {TAKE, 0, 4, TICKET(5), 5, {{1, 2, 20, 0}, {2, 1, 20, 0}, {3, 3, 3, 0}, {4, 3, 3, 0}, {5, 0, 4, 0}}, 4, {4, 4, 4, 3}, 5, {{1, TICKET(4)}, {2, TICKET(4)}, {3, TICKET(4)}, {4, 11}, {5, TICKET(5)}}},
        {SEND, 0, 0, SENT(LEAP, FRAME, 2), 3, {{1, 1, 20, 0}, {3, 2, 4, 0}, {4, 3, 3, 0}}, 3, {20, 4, 3}, 3, {{1, TICKET(1)}, {3, BLANK(2)}, {4, BLANK(3)}}}}},
    /* and for the substitute it would be 1 */
    {2, 5, {
        {TAKE, 1, 20, TICKET(1), 1, {{1, 1, 20, 0}}, 3, {0, 0, 0}, 1, {{1, BLANK(1)}}},
        {TAKE, 2, 1, TICKET(2), 2, {{1, 1, 20, 0}, {2, 2, 1, 0}}, 3, {0, 0, 0}, 2, {{1, BLANK(1)}, {2, BLANK(2)}}},
        {TAKE, 2, 4, TICKET(3), 3, {{1, 1, 20, 0}, {2, 2, 1, 0}, {3, 2, 4, 0}}, 3, {1, 1, 1}, 3, {{1, TICKET(2)}, {2, TICKET(2)}, {3, TICKET(2)}}},
        {TAKE, 0, 3, TICKET(4), 4, {{1, 1, 20, 0}, {2, 2, 1, 0}, {3, 2, 4, 0}, {4, 0, 3, 0}}, 3, {3, 3, 3}, 4, {{1, TICKET(2)}, {2, 11}, {3, TICKET(2)}, {4, TICKET(4)}}},
        {SEND, 0, 0, SENT(LEAP, FRAME, 1), 2, {{2, 2, 3, 0}, {3, 1, 4, 0}}, 2, {4, 3}, 2, {{2, BLANK(2)}, {3, TICKET(3)}}}}},
    /* a blank in the first segment */
    {3, 4, {
        {TAKE, 1, 11, TICKET(1), 1, {{1, 1, 11, 0}}, 4, {0, 0, 0, 0}, 1, {{1, BLANK(1)}}},
        {TAKE, 3, 20, TICKET(2), 2, {{1, 1, 11, 0}, {2, 3, 20, 0}}, 4, {0, 0, 0, 0}, 2, {{1, BLANK(1)}, {2, BLANK(3)}}},
        {TAKE, 1, 2, TICKET(3), 3, {{1, 1, 11, 0}, {2, 3, 20, 0}, {3, 1, 2, 0}}, 4, {2, 2, 0, 0}, 3, {{1, TICKET(3)}, {2, BLANK(3)}, {3, TICKET(3)}}},
        {SEND, 0, 0, SENT(LEAP, FRAME, 2), 2, {{1, 1, 11, 0}, {3, 1, 2, 0}}, 3, {11, 0, 0}, 2, {{1, TICKET(1)}, {3, 11}}}}},
    /* an idle slot leaps */
    {3, 3, {
        {TAKE, 3, 9, TICKET(1), 1, {{1, 3, 9, 0}}, 4, {0, 0, 0, 0}, 1, {{1, BLANK(3)}}},
        {TAKE, 3, 5, TICKET(2), 2, {{1, 3, 9, 0}, {2, 3, 5, 0}}, 4, {0, 0, 0, 0}, 2, {{1, BLANK(2)}, {2, BLANK(2)}}},
        {SEND, 0, 0, SENT(LEAP, FRAME, 1), 1, {{2, 3, 5, 0}}, 3, {0, 0, 0}, 1, {{2, BLANK(3)}}}}},
    /* sealed: P2's frames both go, where PlanM would leap; takings get 13, before 6 and 7 and after 5 */
    {1, 13, {
        {TAKE, 0, 4, TICKET(1), 1, {{1, 0, 4, 0}}, 2, {4, 0}, 1, {{1, TICKET(1)}}},
        {TAKE, 1, 11, TICKET(2), 2, {{1, 0, 4, 0}, {2, 1, 11, 0}}, 2, {4, 4}, 2, {{1, TICKET(1)}, {2, BLANK(1)}}},
        {SEAL, 0, 0, 0, 2, {{1, 0, 4, 0}, {2, 1, 11, 0}}, 2, {4, 4}, 2, {{1, TICKET(1)}, {2, BLANK(1)}}},
        {TAKE, 1, 20, 13, 2, {{1, 0, 4, 0}, {2, 1, 11, 0}}, 2, {4, 4}, 2, {{1, TICKET(1)}, {2, BLANK(1)}}},
        {TAKE, 1, 0, 13, 2, {{1, 0, 4, 0}, {2, 1, 11, 0}}, 2, {4, 4}, 2, {{1, TICKET(1)}, {2, BLANK(1)}}},
        {TAKE, 9, 20, 13, 2, {{1, 0, 4, 0}, {2, 1, 11, 0}}, 2, {4, 4}, 2, {{1, TICKET(1)}, {2, BLANK(1)}}},
        TOTAL_IS(15),
        {SEND, 0, 0, SENT(ORDINARY, FRAME, 1), 1, {{2, 1, 11, 0}}, 1, {11}, 1, {{2, TICKET(2)}}},
        {TAKE, 1, 20, 13, 1, {{2, 1, 11, 0}}, 1, {11}, 1, {{2, TICKET(2)}}},
        {SEND, 0, 0, SENT(ORDINARY, FRAME, 2), 0, {{0}}, 0, {0}, 0, {{0}}},
        OVER(SEND), OVER(SEAL), OVER(TAKE)}},
    /* sealed twice: a blank is due before both frames, so the first slot is silent while they wait */
    {2, 7, {
        {TAKE, 1, 5, TICKET(1), 1, {{1, 1, 5, 0}}, 3, {0, 0, 0}, 1, {{1, BLANK(1)}}},
        {TAKE, 2, 7, TICKET(2), 2, {{1, 1, 5, 0}, {2, 2, 7, 0}}, 3, {0, 0, 0}, 2, {{1, BLANK(1)}, {2, BLANK(2)}}},
        {SEAL, 0, 0, 0, 2, {{1, 1, 5, 0}, {2, 2, 7, 0}}, 3, {0, 0, 0}, 2, {{1, BLANK(1)}, {2, BLANK(2)}}},
        {SEAL, 0, 0, 0, 2, {{1, 1, 5, 0}, {2, 2, 7, 0}}, 3, {0, 0, 0}, 2, {{1, BLANK(1)}, {2, BLANK(2)}}},
        {SEND, 0, 0, SENT(ORDINARY, SILENCE, 0), 2, {{1, 1, 5, 0}, {2, 2, 7, 0}}, 2, {5, 5}, 2, {{1, TICKET(1)}, {2, BLANK(2)}}},
        {SEND, 0, 0, SENT(ORDINARY, FRAME, 1), 1, {{2, 2, 7, 0}}, 1, {7}, 1, {{2, TICKET(2)}}},
        {SEND, 0, 0, SENT(ORDINARY, FRAME, 2), 0, {{0}}, 0, {0}, 0, {{0}}}}},
    /* sealed with a kept blank waiting: its turn comes first; a new round is not sealed */
    {3, 10, {
        {TAKE, 3, 20, TICKET(1), 1, {{1, 3, 20, 0}}, 4, {0, 0, 0, 0}, 1, {{1, BLANK(3)}}},
        {TAKE, 0, 5, TICKET(2), 2, {{1, 3, 20, 0}, {2, 0, 5, 0}}, 4, {5, 0, 0, 0}, 2, {{1, BLANK(3)}, {2, TICKET(2)}}},
        {TAKE, 2, 5, TICKET(3), 3, {{1, 3, 20, 0}, {2, 0, 5, 0}, {3, 2, 5, 0}}, 4, {5, 0, 0, 0}, 3, {{1, BLANK(3)}, {2, TICKET(2)}, {3, BLANK(2)}}},
        {TAKE, 3, 9, TICKET(4), 4, {{1, 3, 20, 0}, {2, 0, 5, 0}, {3, 2, 5, 0}, {4, 3, 9, 0}}, 4, {5, 5, 5, 5}, 4, {{1, BLANK(1)}, {2, TICKET(2)}, {3, BLANK(1)}, {4, BLANK(1)}}},
        {SEND, 0, 0, SENT(LEAP, FRAME, 1), 3, {{1, 1, 5, 1}, {3, 2, 5, 0}, {4, 3, 9, 0}}, 3, {5, 5, 5}, 3, {{1, TICKET(1)}, {3, BLANK(2)}, {4, BLANK(3)}}},
        {SEAL, 0, 0, 0, 3, {{1, 1, 5, 1}, {3, 2, 5, 0}, {4, 3, 9, 0}}, 3, {5, 5, 5}, 3, {{1, TICKET(1)}, {3, BLANK(2)}, {4, BLANK(3)}}},
        {SEND, 0, 0, SENT(ORDINARY, KEPT_BLANK, 1), 2, {{3, 2, 5, 0}, {4, 3, 9, 0}}, 2, {5, 5}, 2, {{3, TICKET(3)}, {4, BLANK(3)}}},
        {SEND, 0, 0, SENT(ORDINARY, FRAME, 3), 1, {{4, 3, 9, 0}}, 1, {9}, 1, {{4, TICKET(4)}}},
        {OPEN, 1, 0, 0, 0, {{0}}, 2, {0, 0}, 1, {{4, 10}}},
        {TAKE, 0, 4, TICKET(1), 1, {{1, 0, 4, 0}}, 2, {4, 0}, 1, {{1, TICKET(1)}}}}},
    /* sealed with a row left out: the first is the plan's, the heavier of two due in slot 1 */
    {1, 6, {
        {TAKE, 0, 4, TICKET(1), 1, {{1, 0, 4, 0}}, 2, {4, 0}, 1, {{1, TICKET(1)}}},
        {TAKE, 1, 5, TICKET(2), 2, {{1, 0, 4, 0}, {2, 1, 5, 0}}, 2, {4, 4}, 2, {{1, TICKET(1)}, {2, BLANK(1)}}},
        {TAKE, 1, 6, TICKET(3), 3, {{1, 0, 4, 0}, {2, 1, 5, 0}, {3, 1, 6, 0}}, 2, {5, 5}, 3, {{1, 11}, {2, TICKET(2)}, {3, TICKET(2)}}},
        {SEAL, 0, 0, 0, 3, {{1, 0, 4, 0}, {2, 1, 5, 0}, {3, 1, 6, 0}}, 2, {5, 5}, 3, {{1, 11}, {2, TICKET(2)}, {3, TICKET(2)}}},
        {SEND, 0, 0, SENT(ORDINARY, FRAME, 3), 1, {{2, 1, 5, 0}}, 1, {5}, 1, {{2, TICKET(2)}}},
        {SEND, 0, 0, SENT(ORDINARY, FRAME, 2), 0, {{0}}, 0, {0}, 0, {{0}}}}},
    /* of equals the smaller class is planned; without a class it is 0 */
    {0, 5, {
        {TAKE_OF(2), 0, 5, TICKET(1), 1, {{1, 0, 5, OF_CLASS(2)}}, 1, {5}, 1, {{1, TICKET(1)}}},
        {TAKE_OF(1), 0, 5, TICKET(2), 2, {{1, 0, 5, OF_CLASS(2)}, {2, 0, 5, OF_CLASS(1)}}, 1, {5}, 2, {{1, 11}, {2, TICKET(2)}}},
        {TAKE, 0, 5, TICKET(3), 3, {{1, 0, 5, OF_CLASS(2)}, {2, 0, 5, OF_CLASS(1)}, {3, 0, 5, 0}}, 1, {5}, 3, {{1, 11}, {2, 11}, {3, TICKET(3)}}},
        {TAKE_OF(3), 0, 5, TICKET(4), 4, {{1, 0, 5, OF_CLASS(2)}, {2, 0, 5, OF_CLASS(1)}, {3, 0, 5, 0}, {4, 0, 5, OF_CLASS(3)}}, 1, {5}, 4, {{1, 11}, {2, 11}, {3, TICKET(3)}, {4, 11}}},
        {SEND, 0, 0, SENT(ORDINARY, FRAME, 3), 0, {{0}}, 0, {0}, 0, {{0}}}}},
    /* the lightest of equals is the one of the larger class, whatever its ticket */
    {3, 5, {
        {TAKE, 3, 9, TICKET(1), 1, {{1, 3, 9, 0}}, 4, {0, 0, 0, 0}, 1, {{1, BLANK(3)}}},
        {TAKE_OF(3), 3, 9, TICKET(2), 2, {{1, 3, 9, 0}, {2, 3, 9, OF_CLASS(3)}}, 4, {0, 0, 0, 0}, 2, {{1, BLANK(2)}, {2, BLANK(2)}}},
        {TAKE_OF(1), 3, 9, TICKET(3), 3, {{1, 3, 9, 0}, {2, 3, 9, OF_CLASS(3)}, {3, 3, 9, OF_CLASS(1)}}, 4, {0, 0, 0, 0}, 3, {{1, BLANK(1)}, {2, BLANK(1)}, {3, BLANK(1)}}},
        {TAKE_OF(3), 2, 9, TICKET(4), 4, {{1, 3, 9, 0}, {2, 3, 9, OF_CLASS(3)}, {3, 3, 9, OF_CLASS(1)}, {4, 2, 9, OF_CLASS(3)}}, 4, {9, 9, 9, 9}, 4, {{1, TICKET(2)}, {2, TICKET(2)}, {3, TICKET(2)}, {4, TICKET(2)}}},
        {SEND, 0, 0, SENT(ORDINARY, FRAME, 4), 3, {{1, 3, 9, 0}, {2, 3, 9, OF_CLASS(3)}, {3, 3, 9, OF_CLASS(1)}}, 3, {9, 9, 9}, 3, {{1, TICKET(2)}, {2, TICKET(2)}, {3, TICKET(2)}}}}},
    /* of two equals the smaller class is shifted, the larger one of three is the substitute; they keep their classes */
    {3, 6, {
        {TAKE, 0, 6, TICKET(1), 1, {{1, 0, 6, 0}}, 4, {6, 0, 0, 0}, 1, {{1, TICKET(1)}}},
        {TAKE, 1, 10, TICKET(2), 2, {{1, 0, 6, 0}, {2, 1, 10, 0}}, 4, {6, 6, 0, 0}, 2, {{1, TICKET(1)}, {2, BLANK(1)}}},
        {TAKE_OF(2), 3, 5, TICKET(3), 3, {{1, 0, 6, 0}, {2, 1, 10, 0}, {3, 3, 5, OF_CLASS(2)}}, 4, {6, 6, 0, 0}, 3, {{1, TICKET(1)}, {2, BLANK(1)}, {3, BLANK(3)}}},
        {TAKE_OF(1), 3, 5, TICKET(4), 4, {{1, 0, 6, 0}, {2, 1, 10, 0}, {3, 3, 5, OF_CLASS(2)}, {4, 3, 5, OF_CLASS(1)}}, 4, {6, 6, 5, 5}, 4, {{1, TICKET(1)}, {2, BLANK(1)}, {3, BLANK(2)}, {4, BLANK(2)}}},
        {TAKE_OF(3), 3, 5, TICKET(5), 5, {{1, 0, 6, 0}, {2, 1, 10, 0}, {3, 3, 5, OF_CLASS(2)}, {4, 3, 5, OF_CLASS(1)}, {5, 3, 5, OF_CLASS(3)}}, 4, {6, 6, 5, 5}, 5, {{1, TICKET(1)}, {2, TICKET(5)}, {3, TICKET(5)}, {4, TICKET(5)}, {5, 11}}},
        {SEND, 0, 0, SENT(LEAP, FRAME, 2), 3, {{3, 3, 5, OF_CLASS(2)}, {4, 1, 6, OF_CLASS(1)}, {5, 3, 5, OF_CLASS(3)}}, 3, {6, 5, 5}, 3, {{3, BLANK(2)}, {4, TICKET(4)}, {5, BLANK(2)}}}}},
    /* a kept blank has class 3, whatever went out had: a frame of class 3 comes after it, one of class 2 before */
    {1, 6, {
        {TAKE, 0, 4, TICKET(1), 1, {{1, 0, 4, 0}}, 2, {4, 0}, 1, {{1, TICKET(1)}}},
        {TAKE_OF(1), 1, 11, TICKET(2), 2, {{1, 0, 4, 0}, {2, 1, 11, OF_CLASS(1)}}, 2, {4, 4}, 2, {{1, TICKET(1)}, {2, BLANK(1)}}},
        {SEND, 0, 0, SENT(LEAP, FRAME, 2), 1, {{2, 1, 4, 1}}, 1, {4}, 1, {{2, TICKET(2)}}},
        {TAKE_OF(3), 1, 4, TICKET(3), 2, {{2, 1, 4, 1}, {3, 1, 4, OF_CLASS(3)}}, 1, {4}, 2, {{2, TICKET(2)}, {3, 11}}},
        {TAKE_OF(2), 1, 4, TICKET(4), 3, {{2, 1, 4, 1}, {3, 1, 4, OF_CLASS(3)}, {4, 1, 4, OF_CLASS(2)}}, 1, {4}, 3, {{2, 11}, {3, 11}, {4, TICKET(4)}}},
        {SEND, 0, 0, SENT(ORDINARY, FRAME, 4), 0, {{0}}, 0, {0}, 0, {{0}}}}},
    /* sealed: equals go by class, then ticket */
    {2, 8, {
        {TAKE_OF(3), 2, 5, TICKET(1), 1, {{1, 2, 5, OF_CLASS(3)}}, 3, {0, 0, 0}, 1, {{1, BLANK(2)}}},
        {TAKE, 2, 5, TICKET(2), 2, {{1, 2, 5, OF_CLASS(3)}, {2, 2, 5, 0}}, 3, {0, 0, 0}, 2, {{1, BLANK(1)}, {2, BLANK(1)}}},
        {TAKE_OF(2), 2, 5, TICKET(3), 3, {{1, 2, 5, OF_CLASS(3)}, {2, 2, 5, 0}, {3, 2, 5, OF_CLASS(2)}}, 3, {5, 5, 5}, 3, {{1, TICKET(1)}, {2, TICKET(1)}, {3, TICKET(1)}}},
        {TAKE_OF(3), 2, 5, TICKET(4), 4, {{1, 2, 5, OF_CLASS(3)}, {2, 2, 5, 0}, {3, 2, 5, OF_CLASS(2)}, {4, 2, 5, OF_CLASS(3)}}, 3, {5, 5, 5}, 4, {{1, TICKET(1)}, {2, TICKET(1)}, {3, TICKET(1)}, {4, 11}}},
        {SEAL, 0, 0, 0, 4, {{1, 2, 5, OF_CLASS(3)}, {2, 2, 5, 0}, {3, 2, 5, OF_CLASS(2)}, {4, 2, 5, OF_CLASS(3)}}, 3, {5, 5, 5}, 4, {{1, TICKET(1)}, {2, TICKET(1)}, {3, TICKET(1)}, {4, 11}}},
        {SEND, 0, 0, SENT(ORDINARY, FRAME, 2), 3, {{1, 2, 5, OF_CLASS(3)}, {3, 2, 5, OF_CLASS(2)}, {4, 2, 5, OF_CLASS(3)}}, 2, {5, 5}, 3, {{1, TICKET(1)}, {3, TICKET(1)}, {4, 11}}},
        {SEND, 0, 0, SENT(ORDINARY, FRAME, 3), 2, {{1, 2, 5, OF_CLASS(3)}, {4, 2, 5, OF_CLASS(3)}}, 1, {5}, 2, {{1, TICKET(1)}, {4, 11}}},
        {SEND, 0, 0, SENT(ORDINARY, FRAME, 1), 0, {{0}}, 0, {0}, 0, {{0}}}}},
    /* a class above 3: 14 after 6, 7 and 13 */
    {1, 9, {
        {TAKE_OF(4), 1, 5, 14, 0, {{0}}, 2, {0, 0}, 0, {{0}}},
        {TAKE_OF(255), 1, 5, 14, 0, {{0}}, 2, {0, 0}, 0, {{0}}},
        {TAKE_OF(4), 1, 0, 6, 0, {{0}}, 2, {0, 0}, 0, {{0}}},
        {TAKE_OF(4), 2, 5, 7, 0, {{0}}, 2, {0, 0}, 0, {{0}}},
        {TAKE_OF(3), 1, 5, TICKET(1), 1, {{1, 1, 5, OF_CLASS(3)}}, 2, {0, 0}, 1, {{1, BLANK(1)}}},
        {TAKE_OF(2), 1, 6, TICKET(2), 2, {{1, 1, 5, OF_CLASS(3)}, {2, 1, 6, OF_CLASS(2)}}, 2, {5, 5}, 2, {{1, TICKET(1)}, {2, TICKET(1)}}},
        {TAKE_OF(0), 1, 6, TICKET(3), 3, {{1, 1, 5, OF_CLASS(3)}, {2, 1, 6, OF_CLASS(2)}, {3, 1, 6, 0}}, 2, {6, 6}, 3, {{1, 11}, {2, TICKET(2)}, {3, TICKET(2)}}},
        {SEAL, 0, 0, 0, 3, {{1, 1, 5, OF_CLASS(3)}, {2, 1, 6, OF_CLASS(2)}, {3, 1, 6, 0}}, 2, {6, 6}, 3, {{1, 11}, {2, TICKET(2)}, {3, TICKET(2)}}},
        {TAKE_OF(4), 1, 5, 13, 3, {{1, 1, 5, OF_CLASS(3)}, {2, 1, 6, OF_CLASS(2)}, {3, 1, 6, 0}}, 2, {6, 6}, 3, {{1, 11}, {2, TICKET(2)}, {3, TICKET(2)}}}}},
};

static unsigned passed, failed;
static uint8_t table[LIRVEDD_TABLE_SIZE(MOST_HAND_ROWS)];
static char place[64]; /* what is being played, for the line of a failure */

static void note(int holds, const char *what)
{
    if (holds) {
        passed++;
    } else {
        failed++;
        printf("tests/c/rounds.c: FAILED: %s: %s\n", place, what);
    }
}

/* A kept blank has class 3. */
static int same_kind(const uint8_t *row, uint32_t kind)
{
    return get(row, row_kind) == (kind & 1u) && get(row, row_class) == (kind == 1 ? 3 : kind >> 8);
}

static int same_rows(const struct turn *t)
{
    int same = get(table, head_used) == (uint32_t)t->rows;
    for (int i = 0; i < t->rows; i++) {
        const uint8_t *row = table + TABLE_SIZE(i);
        same = same && get(row, row_ticket) == t->row[i].ticket && get(row, row_due) == t->row[i].due;
        same = same && get(row, row_weight) == t->row[i].weight && same_kind(row, t->row[i].kind);
    }
    return same;
}

static int same_marks(const struct turn *t)
{
    uint32_t slot = get(table, head_slot);
    int same = 1;
    for (int i = 0; i < t->marks; i++)
        same = same && lirvedd_mark(slot + (uint32_t)i, table, sizeof table) == AMOUNT(t->mark[i]);
    return same;
}

static int same_substitutes(const struct turn *t)
{
    int same = 1;
    for (int i = 0; i < t->substitutes; i++)
        same = same && lirvedd_substitute(t->substitute[i].ticket, table, sizeof table) == t->substitute[i].reply;
    return same;
}

static uint64_t call(const struct turn *t)
{
    if (t->call == TAKE)
        return lirvedd_take(t->due, t->weight, table, sizeof table);
    if (t->call >= TAKE_CLASS)
        return lirvedd_take_class(t->due, t->weight, (uint32_t)(t->call - TAKE_CLASS), table, sizeof table);
    if (t->call == SEND)
        return lirvedd_send(table, sizeof table);
    if (t->call == SEAL)
        return lirvedd_seal(table, sizeof table);
    if (t->call == OPEN)
        return lirvedd_open(t->due, table, sizeof table);
    return lirvedd_total(table, sizeof table);
}

static void play(size_t h)
{
    snprintf(place, sizeof place, "round %zu", h + 1);
    memset(table, 7, sizeof table);
    note(lirvedd_open(hands[h].last, table, sizeof table) == 0, "opening");
    for (int i = 0; i < hands[h].turns; i++) {
        const struct turn *t = &hands[h].turn[i];
        snprintf(place, sizeof place, "round %zu, turn %d", h + 1, i + 1);
        note(call(t) == t->reply, "reply");
        if (t->call == TOTAL)
            continue;
        note(same_rows(t), "rows");
        note(same_marks(t), "marks");
        note(same_substitutes(t), "substitutes");
    }
}

/* Refusals of the five calls, in their order; none changes a byte. */
static void refused(void)
{
    static uint8_t before[sizeof table];
    strcpy(place, "refused");
    memset(table, 0, sizeof table);
    memcpy(before, table, sizeof table);
    note(lirvedd_send(NULL, 0) == 2 && lirvedd_mark(0, NULL, 0) == 2, "length 0");
    note(lirvedd_total(NULL, 0) == 2 && lirvedd_substitute(1, NULL, 0) == 2, "length 0");
    note(lirvedd_seal(NULL, 0) == 2 && lirvedd_seal(table, sizeof table - 1) == 2, "length");
    note(lirvedd_seal(table, sizeof table) == 3, "not sound");
    note(lirvedd_send(table, sizeof table) == 3 && lirvedd_mark(9, table, sizeof table) == 3, "not sound");
    note(lirvedd_total(table, sizeof table) == 3 && lirvedd_substitute(9, table, sizeof table) == 3, "not sound");
    note(memcmp(table, before, sizeof table) == 0, "unchanged");
    lirvedd_open(1, table, sizeof table);
    lirvedd_take(0, 5, table, sizeof table);
    lirvedd_take(0, 4, table, sizeof table);
    note(lirvedd_mark(2, table, sizeof table) == 7 && lirvedd_mark(65536, table, sizeof table) == 7, "a slot after the last");
    note(lirvedd_substitute(0, table, sizeof table) == 10 && lirvedd_substitute(3, table, sizeof table) == 10, "no such ticket");
    note(lirvedd_substitute(2, table, sizeof table) == 11, "not in the plan");
    lirvedd_send(table, sizeof table);
    note(lirvedd_mark(0, table, sizeof table) == 7, "a slot before the current one");
    lirvedd_send(table, sizeof table);
    memcpy(before, table, sizeof table);
    note(lirvedd_send(table, sizeof table) == 5 && lirvedd_mark(9, table, sizeof table) == 5, "over");
    note(lirvedd_total(table, sizeof table) == 5 && lirvedd_substitute(9, table, sizeof table) == 5, "over");
    note(lirvedd_seal(table, sizeof table) == 5, "over");
    note(memcmp(table, before, sizeof table) == 0, "unchanged");
}

static void unpacking(void)
{
    uint64_t leap = SENT(LEAP, KEPT_BLANK, 16777215);
    strcpy(place, "unpacking");
    note(lirvedd_refusal(leap) == 0 && lirvedd_is_leap(leap) == 1 && lirvedd_out(leap) == LIRVEDD_KEPT_BLANK, "a leap");
    note(lirvedd_ticket(leap) == 16777215, "its ticket");
    note(lirvedd_amount(AMOUNT(17179869184ull)) == 17179869184ull, "an amount");
    note(lirvedd_blank_due(BLANK(4095)) == 4095 && lirvedd_ticket(BLANK(4095)) == 0, "a blank");
}

int main(void)
{
    for (size_t h = 0; h < sizeof hands / sizeof hands[0]; h++)
        play(h);
    refused();
    unpacking();
    printf("%u passed, %u failed\n", passed, failed);
    return failed == 0 ? 0 : 1;
}
