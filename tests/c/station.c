/* The calls of include/lirvedd.h through the archive. What is expected is written out here from the project's papers, by hand:
 * this file shares no code with the library. It prints one line for each check that fails, then 'N passed, M failed'.
 */
#include "lirvedd.h"
#include "table.h"

#include <stdio.h>
#include <string.h>

static unsigned passed, failed;

#define CHECK(fact) note((fact) != 0, #fact, __LINE__)

static void note(int holds, const char *fact, int line)
{
    if (holds) {
        passed++;
    } else {
        failed++;
        printf("tests/c/station.c:%d: FAILED: %s\n", line, fact);
    }
}

/* A table with room to spare behind it, so that a length may be a little too long. */
enum { MOST = TABLE_SIZE(1024), ROOM = MOST + 64 };
static uint8_t table[ROOM], before[ROOM];

static void head(uint32_t slot, uint32_t last, uint32_t next, uint32_t used)
{
    memset(table, 0, sizeof table);
    put(table, head_slot, slot);
    put(table, head_last, last);
    put(table, head_next, next);
    put(table, head_used, used);
}

/* A frame of class 0, or a kept blank, which has class 3. */
static void row(size_t index, uint32_t ticket, uint32_t due, uint32_t weight, uint32_t kind)
{
    uint8_t *at = table + TABLE_SIZE(index);
    put(at, row_ticket, ticket);
    put(at, row_due, due);
    put(at, row_weight, weight);
    put(at, row_kind, kind);
    put(at, row_class, 3 * kind);
}

static int unchanged(void)
{
    return memcmp(table, before, sizeof table) == 0;
}

/* The whole reply is the number, and no byte of the table or behind it has changed. */
static int open_refused(uint64_t number, uint32_t last, size_t length)
{
    memcpy(before, table, sizeof table);
    return lirvedd_open(last, table, length) == number && unchanged();
}

static int take_refused(uint64_t number, uint32_t due, uint32_t weight, size_t length)
{
    memcpy(before, table, sizeof table);
    return lirvedd_take(due, weight, table, length) == number && unchanged();
}

static int class_refused(uint64_t number, uint32_t due, uint32_t weight, uint32_t class, size_t length)
{
    memcpy(before, table, sizeof table);
    return lirvedd_take_class(due, weight, class, table, length) == number && unchanged();
}

/* The table is now `before` with these bytes at this place. */
static int changed_to(size_t at, const uint8_t *bytes, size_t count)
{
    memcpy(before + at, bytes, count);
    return unchanged();
}

/* `before` with this next ticket and these rows in use. */
static void counted_up(uint32_t next, uint32_t used)
{
    put(before, head_next, next);
    put(before, head_used, used);
}

static void opening(void)
{
    static const uint8_t last_4095[HEAD_SIZE] = {0, 0, 0xFF, 0x0F, 1, 0, 0, 0, 0, 0, 0, 0, 0, 0, 0, 0};
    static const uint8_t last_258[HEAD_SIZE] = {0, 0, 0x02, 0x01, 1, 0, 0, 0, 0, 0, 0, 0, 0, 0, 0, 0};

    memset(table, 0xA5, sizeof table);
    memset(before, 0xA5, sizeof before);
    memset(before, 0, TABLE_SIZE(3));
    CHECK(lirvedd_open(4095, table, TABLE_SIZE(3)) == 0);
    CHECK(changed_to(0, last_4095, HEAD_SIZE));

    memset(table, 0xFF, sizeof table);
    memset(before, 0xFF, sizeof before);
    memset(before, 0, MOST);
    CHECK(lirvedd_open(258, table, MOST) == 0);
    CHECK(changed_to(0, last_258, HEAD_SIZE));

    CHECK(lirvedd_open(0, table, TABLE_SIZE(1)) == 0);
    CHECK(get(table, head_last) == 0);
}

static void opening_refused(void)
{
    static const size_t bad[] = {0,           1,           HEAD_SIZE - 1, HEAD_SIZE, HEAD_SIZE + 1, TABLE_SIZE(1) - 1,
                                 TABLE_SIZE(1) + 1, TABLE_SIZE(2) - 1, TABLE_SIZE(2) + 1,   MOST - 1,  MOST + 1,      TABLE_SIZE(1025)};

    memset(table, 0xA5, sizeof table);
    for (size_t i = 0; i < sizeof bad / sizeof bad[0]; i++) {
        CHECK(open_refused(2, 7, bad[i]));
        CHECK(open_refused(2, 4096, bad[i])); /* 2 comes before 4 */
    }
    CHECK(open_refused(4, 4096, TABLE_SIZE(1)));
    CHECK(open_refused(4, 4097, MOST));
    CHECK(open_refused(4, 65536, TABLE_SIZE(1)));
    CHECK(open_refused(4, UINT32_MAX, TABLE_SIZE(1)));
    CHECK(lirvedd_open(1, NULL, 0) == 2);
    CHECK(lirvedd_open(4096, NULL, 0) == 2);
}

/* Tickets 1, 2, 3 in a table just opened, with the row's bytes written out. */
static void taking(void)
{
    static const uint8_t first[ROW_SIZE] = {1, 0, 0, 0, 0x34, 0x02, 0xEF, 0xCD, 0xAB, 0x00, 0};
    static const uint8_t second[ROW_SIZE] = {2, 0, 0, 0, 0xFF, 0x0F, 0x00, 0x00, 0x00, 0x01, 0};
    static const uint8_t third[ROW_SIZE] = {3, 0, 0, 0, 0, 0, 1, 0, 0, 0, 0};
    const size_t length = TABLE_SIZE(3);

    CHECK(lirvedd_open(4095, table, length) == 0);
    memcpy(before, table, sizeof table);
    CHECK(lirvedd_take(0x0234, 0x00ABCDEF, table, length) == 1 << 8);
    counted_up(2, 1);
    CHECK(changed_to(TABLE_SIZE(0), first, sizeof first));

    CHECK(lirvedd_take(4095, 16777216, table, length) == 2 << 8); /* the last slot, the most weight */
    counted_up(3, 2);
    CHECK(changed_to(TABLE_SIZE(1), second, sizeof second));

    CHECK(lirvedd_take(0, 1, table, length) == 3 << 8); /* the current slot, the least weight */
    counted_up(4, 3);
    CHECK(changed_to(TABLE_SIZE(2), third, sizeof third));

    CHECK(take_refused(9, 0, 1, length));
}

/* Each class in its byte of the row, and no other byte; the call without a class leaves what class 0 does. */
static void taking_classes(void)
{
    static const uint8_t bytes[4][ROW_SIZE] = {
        {1, 0, 0, 0, 0x34, 0x02, 0xEF, 0xCD, 0xAB, 0x00, 0, 0}, {1, 0, 0, 0, 0x34, 0x02, 0xEF, 0xCD, 0xAB, 0x00, 0, 1},
        {1, 0, 0, 0, 0x34, 0x02, 0xEF, 0xCD, 0xAB, 0x00, 0, 2}, {1, 0, 0, 0, 0x34, 0x02, 0xEF, 0xCD, 0xAB, 0x00, 0, 3},
    };
    const size_t length = TABLE_SIZE(3);

    for (uint32_t class = 0; class < 4; class++) {
        CHECK(lirvedd_open(4095, table, length) == 0);
        memcpy(before, table, sizeof table);
        CHECK(lirvedd_take_class(0x0234, 0x00ABCDEF, class, table, length) == 1 << 8);
        counted_up(2, 1);
        CHECK(changed_to(TABLE_SIZE(0), bytes[class], ROW_SIZE));
    }
    CHECK(lirvedd_open(4095, table, length) == 0);
    CHECK(lirvedd_take(0x0234, 0x00ABCDEF, table, length) == 1 << 8);
    CHECK(changed_to(TABLE_SIZE(0), bytes[0], ROW_SIZE));
}

/* A table of 300 used rows with every number of the head above 255. */
static size_t many_rows(void)
{
    head(258, 3804, 0x00123456, 300);
    for (uint32_t i = 0; i < 300; i++)
        row(i, 1000 * (i + 1), 258 + 11 * i, 16777216 - i, i % 2);
    return TABLE_SIZE(302);
}

static void taking_among_many(void)
{
    static const uint8_t now[ROW_SIZE] = {0x56, 0x34, 0x12, 0x00, 0xDC, 0x0E, 0x04, 0x03, 0x02, 0x00, 0};
    const size_t length = many_rows();

    memcpy(before, table, sizeof table);
    CHECK(lirvedd_take(3804, 0x00020304, table, length) == (uint64_t)0x00123456 << 8);
    counted_up(0x00123457, 301);
    CHECK(changed_to(TABLE_SIZE(300), now, sizeof now));
    CHECK(lirvedd_take(258, 1, table, length) == (uint64_t)0x00123457 << 8);
    CHECK(take_refused(9, 258, 1, length));
}

/* The two tables written out in docs/TABLE.md. */
static void worked_example(void)
{
    static const uint8_t given[TABLE_SIZE(2)] = {
        0x02, 0x01, 0xBC, 0x0A, 0x56, 0x34, 0x12, 0x00, 0x01, 0x00, 0x00, 0x00, 0x00, 0x00, 0x00, 0x00,
        0x45, 0x23, 0x01, 0x00, 0x05, 0x04, 0xDE, 0xBC, 0x0A, 0x00, 0x01, 0x03,
    };
    static const uint8_t left[TABLE_SIZE(2)] = {
        0x02, 0x01, 0xBC, 0x0A, 0x57, 0x34, 0x12, 0x00, 0x02, 0x00, 0x00, 0x00, 0x00, 0x00, 0x00, 0x00,
        0x45, 0x23, 0x01, 0x00, 0x05, 0x04, 0xDE, 0xBC, 0x0A, 0x00, 0x01, 0x03, 0x00, 0x00, 0x00, 0x00,
        0x00, 0x00, 0x00, 0x00, 0x00, 0x00, 0x00, 0x00, 0x56, 0x34, 0x12, 0x00, 0xBC, 0x0A, 0x00, 0x00,
        0x00, 0x01, 0x00, 0x02,
    };

    memcpy(table, given, sizeof given);
    CHECK(lirvedd_take_class(2748, 16777216, 2, table, sizeof given) == (uint64_t)1193046 << 8);
    CHECK(memcmp(table, left, sizeof left) == 0);
    CHECK(lirvedd_take(2748, 1, table, sizeof given) == 9);
}

static void taking_until_full(void)
{
    int good = lirvedd_open(9, table, MOST) == 0;

    for (uint32_t i = 1; i <= 1024; i++)
        good = good && lirvedd_take(i % 10, i, table, MOST) == (uint64_t)i << 8;
    CHECK(good);
    CHECK(get(table, head_next) == 1025 && get(table, head_used) == 1024);
    CHECK(take_refused(9, 9, 1, MOST));
}

/* A sound table of 3 rows, 2 of them used, in slot 3 of 0 to 9. */
static const size_t small = TABLE_SIZE(3);

static void sound(void)
{
    head(3, 9, 6, 2);
    row(0, 2, 3, 7, 0);
    row(1, 5, 9, 16777216, 1);
}

static void taking_refused_2(void)
{
    static const size_t bad[] = {0,           1,           HEAD_SIZE - 1, HEAD_SIZE, TABLE_SIZE(1) - 1, TABLE_SIZE(1) + 1,
                                 TABLE_SIZE(3) - 1, TABLE_SIZE(3) + 1, MOST - 1,      MOST + 1,  TABLE_SIZE(1025)};

    sound();
    table[HEAD_SIZE - 1] = 1; /* not sound either: 2 comes before 3 */
    for (size_t i = 0; i < sizeof bad / sizeof bad[0]; i++)
        CHECK(take_refused(2, 4, 1, bad[i]));
    CHECK(lirvedd_take(0, 0, NULL, 0) == 2);
    CHECK(lirvedd_take_class(0, 0, 4, NULL, 0) == 2);
    CHECK(class_refused(2, 4, 1, 0, small - 1) && class_refused(2, 4, 1, 4, small + 1));
}

/* The table is refused as not sound, and then as it was. */
static int unsound(const char *what, size_t at)
{
    int refused_as_not_sound = take_refused(3, 4, 1, small) && class_refused(3, 4, 1, 3, small);

    if (!refused_as_not_sound)
        printf("damage: %s, at byte %zu\n", what, at);
    sound();
    return refused_as_not_sound;
}

/* Each byte called zero, set alone: of the head, of the used rows and of the unused one. */
static void zeros_refused_3(void)
{
    static const size_t rows[] = {TABLE_SIZE(0), TABLE_SIZE(1)};

    sound();
    for (size_t at = head_zeros.at; at < HEAD_SIZE; at++) {
        table[at] = 1;
        CHECK(unsound("a zero of the head", at));
    }
    for (size_t i = 0; i < sizeof rows / sizeof rows[0]; i++)
        for (size_t at = row_zeros.at; at < ROW_SIZE; at++) {
            table[rows[i] + at] = 128;
            CHECK(unsound("a zero of a row", rows[i] + at));
        }
    for (size_t at = TABLE_SIZE(2); at < TABLE_SIZE(3); at++) {
        table[at] = 1;
        CHECK(unsound("a zero of the unused row", at));
    }
}

/* Each further clause of soundness broken alone, by one number. */
static void taking_refused_3(void)
{
    static const struct {
        size_t from;
        const struct field *field;
        uint32_t value;
    } damage[] = {
        {TABLE_SIZE(0), &row_kind, 2},     {TABLE_SIZE(1), &row_kind, 255},
        {TABLE_SIZE(0), &row_class, 4},    {TABLE_SIZE(0), &row_class, 255},  {TABLE_SIZE(1), &row_class, 4},
        {TABLE_SIZE(1), &row_class, 0},    {TABLE_SIZE(1), &row_class, 1},    {TABLE_SIZE(1), &row_class, 2}, /* of a kept blank */
        {TABLE_SIZE(0), &row_kind, 1},                                                            /* a kept blank of class 0 */
        {0, &head_used, 4},          {0, &head_used, 3},          {0, &head_used, 258}, /* too many, or one that is all zeros */
        {0, &head_used, 1},                                                             /* an unused row that is not zero */
        {0, &head_last, 4096},       {0, &head_last, 65535},
        {0, &head_slot, 11},         {0, &head_slot, 65535},
        {0, &head_next, 0},          {0, &head_next, 16777217},   {0, &head_next, UINT32_MAX},
        {0, &head_sealed, 2},        {0, &head_sealed, 128},      {0, &head_sealed, 255},
        {TABLE_SIZE(0), &row_ticket, 0},   {TABLE_SIZE(0), &row_ticket, 5},   {TABLE_SIZE(0), &row_ticket, 6}, /* they do not rise from 1 */
        {0, &head_next, 5},          {TABLE_SIZE(1), &row_ticket, 16777216},                       /* not below the next */
        {TABLE_SIZE(0), &row_due, 2},      {0, &head_slot, 4},                                     /* due before the current slot */
        {TABLE_SIZE(1), &row_due, 10},     {0, &head_last, 8},                                     /* due after the last */
        {TABLE_SIZE(0), &row_weight, 0},   {TABLE_SIZE(1), &row_weight, 16777217},
    };

    sound();
    for (size_t i = 0; i < sizeof damage / sizeof damage[0]; i++) {
        put(table + damage[i].from, *damage[i].field, damage[i].value);
        CHECK(unsound("a number", damage[i].from + damage[i].field->at));
    }
    head(11, 9, 1, 0); /* past the last slot by two: not sound, so 3 and not 5 */
    CHECK(take_refused(3, 4, 1, small));
    memset(table, 0, sizeof table); /* the next ticket is 0 */
    CHECK(take_refused(3, 0, 1, small));
}

static void taking_refused_5(void)
{
    head(10, 9, 6, 0);
    CHECK(take_refused(5, 9, 1, small));
    CHECK(take_refused(5, 10, 1, small));
    CHECK(take_refused(5, 9, 0, small)); /* 5 comes before 6 and 7 */
    head(4096, 4095, 16777216, 0);
    CHECK(take_refused(5, 4095, 1, small)); /* and before 8 */
    head(9, 9, 6, 0);                       /* the last slot itself is not past */
    CHECK(lirvedd_take(9, 1, table, small) == 6 << 8);
}

static void taking_refused_6_and_7(void)
{
    sound();
    CHECK(take_refused(6, 4, 0, small));
    CHECK(take_refused(6, 4, 16777217, small));
    CHECK(take_refused(6, 4, UINT32_MAX, small));
    CHECK(take_refused(6, 2, 0, small)); /* 6 comes before 7 */
    CHECK(take_refused(7, 2, 1, small));
    CHECK(take_refused(7, 0, 1, small));
    CHECK(take_refused(7, 10, 1, small));
    CHECK(take_refused(7, 65536, 1, small));
    CHECK(take_refused(7, 65536 + 4, 1, small));
    CHECK(take_refused(7, UINT32_MAX, 1, small));
    CHECK(lirvedd_take(3, 16777216, table, small) == 6 << 8);
}

static void taking_refused_8_and_9(void)
{
    sound();
    put(table, head_next, 16777216);
    CHECK(take_refused(7, 10, 1, small)); /* 7 comes before 8 */
    CHECK(take_refused(6, 4, 0, small));
    CHECK(take_refused(8, 4, 1, small));
    put(table, head_used, 3);
    row(2, 16777215, 9, 1, 0);
    CHECK(take_refused(8, 4, 1, small)); /* 8 comes before 9 */
    put(table, head_next, 16777215);
    CHECK(take_refused(3, 4, 1, small));
    row(2, 16777214, 9, 1, 0);
    CHECK(take_refused(9, 4, 1, small));
    CHECK(take_refused(7, 10, 1, small)); /* 7 comes before 9 */

    sound();
    put(table, head_next, 16777215); /* the last ticket of all */
    CHECK(lirvedd_take(9, 1, table, small) == (uint64_t)16777215 << 8);
    CHECK(get(table, head_next) == 16777216);
    CHECK(take_refused(8, 9, 1, small));
}

/* 14 comes after 7 and before 8; a frame's row may have any class up to 3. */
static void taking_refused_14(void)
{
    sound();
    CHECK(class_refused(14, 4, 1, 4, small));
    CHECK(class_refused(14, 4, 1, 255, small) && class_refused(14, 4, 1, 256, small));
    CHECK(class_refused(14, 4, 1, 65536 + 3, small) && class_refused(14, 4, 1, UINT32_MAX, small));
    CHECK(class_refused(6, 4, 0, 4, small));
    CHECK(class_refused(7, 10, 1, 4, small));
    put(table, head_next, 16777216);
    CHECK(class_refused(14, 4, 1, 4, small));
    CHECK(class_refused(8, 4, 1, 3, small));
    put(table, head_used, 3);
    row(2, 16777215, 9, 1, 0);
    CHECK(class_refused(14, 4, 1, 4, small));
    put(table, head_next, 16777215);
    row(2, 16777214, 9, 1, 0);
    CHECK(class_refused(14, 4, 1, 4, small)); /* and before 9 */
    CHECK(class_refused(9, 4, 1, 3, small));
    put(table, head_sealed, 1);
    CHECK(class_refused(13, 4, 1, 4, small));
    head(10, 9, 6, 0);
    CHECK(class_refused(5, 9, 1, 4, small));

    sound();
    for (uint32_t class = 0; class < 4; class++) {
        put(table + TABLE_SIZE(0), row_class, class);
        CHECK(lirvedd_refusal(lirvedd_total(table, small)) == 0);
    }
    CHECK(lirvedd_take_class(9, 1, 3, table, small) == 6 << 8);
}

static int seal_refused(uint64_t number, size_t length)
{
    memcpy(before, table, sizeof table);
    return lirvedd_seal(table, length) == number && unchanged();
}

/* Byte 10 becomes 1 and no other changes, once and for all until an opening. */
static void sealing(void)
{
    static const uint8_t sealed = 1;

    sound();
    memcpy(before, table, sizeof table);
    CHECK(lirvedd_seal(table, small) == 0);
    CHECK(changed_to(10, &sealed, 1));
    CHECK(lirvedd_seal(table, small) == 0 && unchanged()); /* sealing twice */
    CHECK(open_refused(4, 4096, small));
    CHECK(lirvedd_send(table, small) == ((uint64_t)2 << 8 | (uint64_t)1 << 32));
    CHECK(get(table, head_sealed) == 1 && get(table, head_slot) == 4);
    CHECK(take_refused(13, 4, 1, small)); /* still sealed */
    CHECK(lirvedd_open(9, table, small) == 0 && get(table, head_sealed) == 0);
    CHECK(lirvedd_take(9, 1, table, small) == 1 << 8);
}

static void sealing_refused(void)
{
    sound();
    CHECK(seal_refused(2, small - 1) && seal_refused(2, small + 1) && seal_refused(2, HEAD_SIZE));
    CHECK(lirvedd_seal(NULL, 0) == 2);
    table[HEAD_SIZE - 1] = 1;
    CHECK(seal_refused(3, small));
    sound();
    table[10] = 2; /* neither sealed nor not */
    CHECK(seal_refused(3, small) && take_refused(3, 4, 1, small));
    head(10, 9, 6, 0);
    CHECK(seal_refused(5, small));
    put(table, head_sealed, 1);
    CHECK(seal_refused(5, small));
    CHECK(take_refused(5, 9, 1, small)); /* 5 comes before 13 */
    head(9, 9, 6, 0);
    CHECK(lirvedd_seal(table, small) == 0); /* the last slot is not past */
}

static void taking_refused_13(void)
{
    sound();
    put(table, head_sealed, 1);
    CHECK(take_refused(13, 4, 1, small));
    CHECK(take_refused(13, 4, 0, small)); /* 13 comes before 6 */
    CHECK(take_refused(13, 10, 1, small)); /* and before 7 */
    put(table, head_next, 16777216);
    CHECK(take_refused(13, 4, 1, small)); /* and before 8 */
    put(table, head_used, 3);
    row(2, 16777215, 9, 1, 0);
    CHECK(take_refused(13, 4, 1, small));
}

static void unpacking(void)
{
    CHECK(lirvedd_refusal(0) == LIRVEDD_ACCEPTED && lirvedd_ticket(0) == 0);
    CHECK(lirvedd_refusal(9) == LIRVEDD_TABLE_FULL && lirvedd_ticket(9) == 0);
    CHECK(lirvedd_refusal(14) == LIRVEDD_BAD_CLASS && lirvedd_ticket(14) == 0 && LIRVEDD_MOST_CLASS == 3);
    CHECK(lirvedd_refusal((uint64_t)16777215 << 8) == 0 && lirvedd_ticket((uint64_t)16777215 << 8) == 16777215);
    CHECK(lirvedd_ticket((uint64_t)0x00123456 << 8) == 0x00123456);
    CHECK(LIRVEDD_TABLE_SIZE(3) == small && LIRVEDD_TABLE_SIZE(LIRVEDD_MOST_ROWS) == MOST);
}

int main(void)
{
    opening();
    opening_refused();
    taking();
    taking_classes();
    taking_among_many();
    worked_example();
    taking_until_full();
    taking_refused_2();
    zeros_refused_3();
    taking_refused_3();
    taking_refused_5();
    taking_refused_6_and_7();
    taking_refused_8_and_9();
    sealing();
    sealing_refused();
    taking_refused_13();
    taking_refused_14();
    unpacking();
    printf("%u passed, %u failed\n", passed, failed);
    return failed == 0 ? 0 : 1;
}
