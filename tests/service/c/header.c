/* The inline functions of include/stops.h, for tests/header.rs: "write" turns lines into command
   bytes, "read" turns record bytes into lines; "reasons" and "refusals" print their numbers. */
#include "stops.h"

#include <stdio.h>
#include <stdlib.h>
#include <string.h>

#define SENTINEL 0xA5

/* Of this pattern. */
static float reading(long bits)
{
    uint32_t pattern = (uint32_t)bits;
    float number;
    memcpy(&number, &pattern, sizeof number);
    return number;
}

static size_t put(uint8_t *to, size_t room, char mark, const long v[4])
{
    switch (mark) {
    case 'A': return stops_put_add(to, room, v[0], v[1], v[2]);
    case 'M': return stops_put_move(to, room, v[0], v[1], v[2]);
    case 'D': return stops_put_remove(to, room, v[0]);
    case 'L': return stops_put_list(to, room, v[0], v[1], v[2], v[3]);
    case 'S': return stops_put_stand(to, room, v[0], v[1], v[2], v[3]);
    case 'B': return stops_put_begin(to, room, v[0], v[1]);
    case 'C': return stops_put_corner(to, room, v[0], v[1]);
    case 'a': return stops_put_add_readings(to, room, v[0], reading(v[1]), reading(v[2]));
    case 'm': return stops_put_move_readings(to, room, v[0], reading(v[1]), reading(v[2]));
    default: return stops_put_print(to, room);
    }
}

static int untouched(const uint8_t *bytes, size_t from, size_t to)
{
    while (from < to)
        if (bytes[from++] != SENTINEL)
            return 0;
    return 1;
}

/* Each line: a mark and four numbers. With every room up to the longest command. */
static int write_commands(void)
{
    char mark;
    long v[4];
    uint8_t to[STOPS_LONGEST_COMMAND + 1];
    while (scanf(" %c %ld %ld %ld %ld", &mark, &v[0], &v[1], &v[2], &v[3]) == 5) {
        size_t length = put(to, sizeof to, mark, v);
        for (size_t room = 0; room <= sizeof to; room++) {
            memset(to, SENTINEL, sizeof to);
            size_t put_there = put(to, room, mark, v);
            size_t expected = room < length ? 0 : length;
            if (put_there != expected || !untouched(to, expected, sizeof to))
                return EXIT_FAILURE;
        }
        fwrite(to, 1, length, stdout);
    }
    return EXIT_SUCCESS;
}

static int read_records(void)
{
    static uint8_t bytes[1 << 20];
    size_t length = fread(bytes, 1, sizeof bytes, stdin), at = 0, used;
    struct stops_answer answer;
    struct stops_entry entry;
    while ((used = stops_read_record(bytes + at, length - at, &answer)) > 0) {
        printf("%c %u %u\n", (char)answer.kind, (unsigned)answer.refusal, (unsigned)answer.count);
        for (size_t i = 0; stops_read_entry(&answer, i, &entry); i++)
            printf("%u %lu %lu\n", (unsigned)entry.site, (unsigned long)entry.numerator,
                   (unsigned long)entry.denominator);
        if (stops_read_entry(&answer, answer.count, &entry))
            return EXIT_FAILURE;
        at += used;
    }
    printf("%lu bytes read\n", (unsigned long)at);
    return EXIT_SUCCESS;
}

static int print_reasons(void)
{
    printf("%d %d %d %d %d %d %d\n", STOPS_ALL_USED, STOPS_WRONG_LENGTH, STOPS_BROKEN_TABLE,
           STOPS_BROKEN_STANDING, STOPS_UNKNOWN_COMMAND, STOPS_CUT_COMMAND, STOPS_NO_ROOM);
    return EXIT_SUCCESS;
}

static int print_refusals(void)
{
    printf("%d %d %d %d %d %d %d %d %d\n", STOPS_NUMBER_ZERO, STOPS_OFF_GRID, STOPS_NUMBER_HELD,
           STOPS_NUMBER_NOT_HELD, STOPS_TABLE_FULL, STOPS_NO_SITE, STOPS_NO_STANDING_LEG,
           STOPS_NO_TOUR, STOPS_NOT_FINITE);
    return EXIT_SUCCESS;
}

int main(int argc, char **argv)
{
    const char *mode = argc == 2 ? argv[1] : "version";
    if (strcmp(mode, "write") == 0)
        return write_commands();
    if (strcmp(mode, "read") == 0)
        return read_records();
    if (strcmp(mode, "reasons") == 0)
        return print_reasons();
    if (strcmp(mode, "refusals") == 0)
        return print_refusals();
    printf("%s %d\n", STOPS_VERSION, STOPS_VERSION_NUMBER);
    return EXIT_SUCCESS;
}
