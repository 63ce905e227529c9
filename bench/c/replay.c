/* replay FILE: makes the calls of a file of text lines on one table and prints stationround's replies. The lines are read
 * beforehand and the replies printed afterwards, so that callgrind can count inside the calls alone. */
#include <stdio.h>
#include <stdlib.h>
#include <string.h>

#include "lirvedd.h"

#define MOST_LINES 200000

enum kind { OPEN, TAKE, SEND, TAKE_CLASS = 4 };

struct line {
    enum kind kind;
    uint32_t slot, weight, class;
    uint64_t reply;
};

static struct line lines[MOST_LINES];
static uint8_t table[LIRVEDD_TABLE_SIZE(LIRVEDD_MOST_ROWS)];

static uint32_t number(const char *text, int at, int digits)
{
    char part[9] = {0};
    memcpy(part, text + at, (size_t)digits);
    return (uint32_t)strtoul(part, NULL, 16);
}

static size_t read_lines(FILE *file)
{
    char text[80];
    size_t count = 0;
    while (count < MOST_LINES && fgets(text, sizeof text, file) != NULL) {
        struct line *line = &lines[count++];
        line->kind = (enum kind)number(text, 0, 2);
        line->slot = line->kind == SEND ? 0 : number(text, 2, 4);
        line->weight = line->kind == TAKE || line->kind == TAKE_CLASS ? number(text, 6, 8) : 0;
        line->class = line->kind == TAKE_CLASS ? number(text, 14, 2) : 0;
    }
    return count;
}

static uint64_t called(const struct line *line)
{
    switch (line->kind) {
    case OPEN: return lirvedd_open(line->slot, table, sizeof table);
    case TAKE: return lirvedd_take(line->slot, line->weight, table, sizeof table);
    case TAKE_CLASS: return lirvedd_take_class(line->slot, line->weight, line->class, table, sizeof table);
    default: return lirvedd_send(table, sizeof table);
    }
}

static void print_reply(const struct line *line)
{
    const unsigned ticket = lirvedd_ticket(line->reply);
    if (lirvedd_refusal(line->reply) != 0) {
        printf("FF%02X\n", (unsigned)lirvedd_refusal(line->reply));
    } else if (line->kind == OPEN) {
        puts("00");
    } else if (line->kind == TAKE || line->kind == TAKE_CLASS) {
        printf("01%08X\n", ticket);
    } else {
        const unsigned out = lirvedd_out(line->reply), leap = lirvedd_is_leap(line->reply);
        printf("02%02X%02X%08X\n", out, leap, ticket);
    }
}

int main(int count_of, char **words)
{
    FILE *file = count_of == 2 ? fopen(words[1], "r") : NULL;
    if (file == NULL) {
        fputs("replay FILE\n", stderr);
        return 2;
    }
    const size_t count = read_lines(file);
    for (size_t at = 0; at < count; at++) {
        lines[at].reply = called(&lines[at]);
    }
    for (size_t at = 0; at < count; at++) {
        print_reply(&lines[at]);
    }
    return 0;
}
