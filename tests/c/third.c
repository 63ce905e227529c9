/* The third demand by trying every set: small rounds drawn at random, played through the archive to their end. After each call the rows
 * are read from the table's bytes, and for every set of them it is seen whether it could go out in time and what it weighs. Some rounds
 * are sealed: the rows planned then have to go out by their due slots. Frames have classes, and with every class turned round the total and
 * the marks are the same. Nothing of how a plan is computed stands here. LIRVEDD_ROUNDS sets how many rounds are played; a failure names its round's seed.
 */
#include "lirvedd.h"
#include "table.h"

#include <stdio.h>
#include <stdlib.h>
#include <string.h>

enum { MOST_SMALL_ROWS = 8, MOST_SMALL_LAST = 9, MOST_SLOTS = MOST_SMALL_LAST + 1, CALLS = 40 };

struct row {
    uint32_t ticket, due, weight;
};

/* What can be seen of a round between two calls. */
struct seen {
    uint32_t slot, last, used;
    struct row rows[MOST_SMALL_ROWS];
    uint64_t total, marks[MOST_SLOTS];
};

static uint8_t table[LIRVEDD_TABLE_SIZE(MOST_SMALL_ROWS)];
static size_t length;
static uint64_t seed, state;
static unsigned wrong; /* facts that do not hold, in all rounds so far */
static struct row promised[MOST_SMALL_ROWS]; /* of the plan when the round was sealed, and not yet gone */
static uint32_t promises;

static void note(int holds, const char *fact)
{
    if (!holds) {
        wrong++;
        printf("tests/c/third.c: FAILED in round %llu: %s\n", (unsigned long long)seed, fact);
    }
}

/* A number below n, by xorshift. */
static uint32_t draw(uint32_t n)
{
    state ^= state << 13;
    state ^= state >> 7;
    state ^= state << 17;
    return (uint32_t)((state >> 20) % n);
}

/* A set of rows, one bit each, could go out in time if no more of them are due by a slot than there are slots up to it. */
static int in_time(const struct seen *s, unsigned set)
{
    for (uint32_t by = s->slot; by <= s->last; by++) {
        uint32_t due = 0;
        for (uint32_t i = 0; i < s->used; i++)
            due += (set >> i & 1u) && s->rows[i].due <= by;
        if (due > by - s->slot + 1)
            return 0;
    }
    return 1;
}

static uint64_t weight_of(const struct seen *s, unsigned set)
{
    uint64_t weight = 0;
    for (uint32_t i = 0; i < s->used; i++)
        weight += (set >> i & 1u) ? s->rows[i].weight : 0;
    return weight;
}

/* The heaviest set that could go out in time. */
static uint64_t heaviest(const struct seen *s)
{
    uint64_t most = 0;
    for (unsigned set = 0; set < 1u << s->used; set++)
        if (weight_of(s, set) > most && in_time(s, set))
            most = weight_of(s, set);
    return most;
}

/* The rows of the plan: those whose substitute is not refused with 11. */
static unsigned planned(const struct seen *s)
{
    unsigned set = 0;
    for (uint32_t i = 0; i < s->used; i++)
        if (lirvedd_refusal(lirvedd_substitute(s->rows[i].ticket, table, length)) == LIRVEDD_ACCEPTED)
            set |= 1u << i;
    return set;
}

/* Total and marks are the same where each frame of class c has class 3 - c: they do not depend on the order among equals. */
static void other_classes(const struct seen *s)
{
    uint8_t other[sizeof table];

    memcpy(other, table, sizeof table);
    for (uint32_t i = 0; i < s->used; i++) {
        uint8_t *row = other + TABLE_SIZE(i);
        if (get(row, row_kind) == 0)
            put(row, row_class, 3 - get(row, row_class));
    }
    if (s->slot <= s->last)
        note(lirvedd_amount(lirvedd_total(other, length)) == s->total, "the total does not depend on classes");
    for (uint32_t slot = s->slot; slot <= s->last; slot++)
        note(lirvedd_mark(slot, other, length) == s->marks[slot] << 8, "no mark depends on classes");
}

static void look(struct seen *s)
{
    s->slot = get(table, head_slot);
    s->last = get(table, head_last);
    s->used = get(table, head_used);
    for (uint32_t i = 0; i < s->used; i++) {
        const uint8_t *row = table + TABLE_SIZE(i);
        s->rows[i] = (struct row){get(row, row_ticket), get(row, row_due), get(row, row_weight)};
    }
    s->total = s->slot <= s->last ? lirvedd_amount(lirvedd_total(table, length)) : 0;
    for (uint32_t slot = s->slot; slot <= s->last; slot++)
        s->marks[slot] = lirvedd_amount(lirvedd_mark(slot, table, length));
    note(in_time(s, planned(s)), "the plan can go out in time");
    note(weight_of(s, planned(s)) == s->total, "the total is the plan's weight");
    note(heaviest(s) == s->total, "nothing that could go out in time weighs more");
    other_classes(s);
}

static uint32_t draw_weight(uint32_t kind)
{
    static const uint32_t fibonacci[] = {1, 2, 3, 5, 8, 13, 21, 34, 55, 89, 144, 233};

    switch (kind) {
    case 0: return 1 + draw(4);
    case 1: return 1 + draw(100);
    case 2: return fibonacci[draw(12)];
    default: return LIRVEDD_MOST_WEIGHT - draw(3);
    }
}

static void take(const struct seen *old, uint32_t due, uint32_t weight, uint32_t class)
{
    struct seen new;
    uint64_t reply = class == 0 ? lirvedd_take(due, weight, table, length) : lirvedd_take_class(due, weight, class, table, length);
    uint64_t above = 0;

    look(&new);
    if (lirvedd_refusal(reply) == LIRVEDD_ACCEPTED && weight > old->marks[due])
        above = weight - old->marks[due];
    note(new.total == old->total + above, "a newcomer raises the total by the part of its weight above the mark");
}

static void not_sunk(const struct seen *old)
{
    struct seen new;

    look(&new);
    for (uint32_t slot = new.slot; slot <= new.last; slot++)
        note(new.marks[slot] >= old->marks[slot], "a mark of a slot ahead does not sink");
}

static void seal(const struct seen *s)
{
    note(lirvedd_seal(table, length) == LIRVEDD_ACCEPTED, "a round that is not over is sealed");
    promises = 0;
    for (uint32_t i = 0; i < s->used; i++)
        if (planned(s) >> i & 1u)
            promised[promises++] = s->rows[i];
}

/* What goes out is no longer promised; nothing that is may stay behind in its due slot. */
static void send(const struct seen *s)
{
    uint64_t reply = lirvedd_send(table, length);
    uint32_t left = 0;

    for (uint32_t i = 0; i < promises; i++)
        if (promised[i].ticket != lirvedd_ticket(reply))
            promised[left++] = promised[i];
    promises = left;
    for (uint32_t i = 0; i < promises; i++)
        note(promised[i].due > s->slot, "what was planned when the round was sealed goes out by its due slot");
}

static void play(void)
{
    uint32_t kind = draw(4), last = draw(MOST_SLOTS);
    int may_seal = draw(2) == 0;

    promises = 0;
    length = LIRVEDD_TABLE_SIZE(1 + draw(MOST_SMALL_ROWS));
    for (size_t i = 0; i < sizeof table; i++)
        table[i] = (uint8_t)draw(256);
    note(lirvedd_open(last, table, length) == LIRVEDD_ACCEPTED, "the opening is accepted, whatever the table held");
    for (unsigned call = 0; call < CALLS && get(table, head_slot) <= last; call++) {
        struct seen old;

        look(&old);
        if (draw(4) == 0)
            send(&old);
        else if (may_seal && draw(16) == 0)
            seal(&old);
        else if (draw(12) == 0)
            take(&old, last + draw(2), draw(2), 4); /* refused */
        else
            take(&old, old.slot + draw(last - old.slot + 1), draw_weight(kind), draw(4));
        not_sunk(&old);
    }
}

int main(void)
{
    const char *asked = getenv("LIRVEDD_ROUNDS");
    uint64_t rounds = asked ? strtoull(asked, NULL, 10) : 3000;
    unsigned failed = 0;

    for (seed = 1; seed <= rounds; seed++) {
        unsigned before = wrong;
        state = seed * 0x9E3779B97F4A7C15ull;
        play();
        failed += wrong != before;
    }
    printf("%llu passed, %u failed\n", (unsigned long long)(rounds - failed), failed);
    return failed == 0 && rounds > 0 ? 0 : 1;
}
