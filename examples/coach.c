/* A day of a coach with the stop service: some stops, a standing leg, other legs, and a stop that
   is taken out. Prints each list in words. With the library installed (make install) build it with
       cc examples/coach.c $(pkg-config --cflags --libs stops) -o coach
   and in a checkout with
       cc -Iinclude examples/coach.c target/staticlib/libhost.a -lm -o coach */
#include "stops.h"

#include <inttypes.h>
#include <stdio.h>
#include <stdlib.h>

struct position {
    int east, north;
};

struct stop {
    int number;
    struct position at;
};

static uint8_t table[STOPS_TABLE_BYTES];
static uint8_t work[STOPS_WORK_BYTES];
static uint8_t report[STOPS_LONGEST_RECORD];

static const char *const refusals[] = {
    "",
    "number 0 is no stop's",
    "it is off the grid",
    "the number is already held",
    "the number is not held",
    "the table is full",
    "no stop is held",
    "no leg is standing",
    "no tour is under way",
    "",
    "",
    "a reading is not a finite number",
};

/* One batch with one command of this length; its record. */
static struct stops_answer serve(const uint8_t *command, size_t length)
{
    struct stops_answer answer;
    size_t used = 0, written = 0;
    uint32_t reason = stops_batch(table, sizeof table, work, sizeof work, command, length, report,
                                  sizeof report, &used, &written);
    if (reason != STOPS_ALL_USED || stops_read_record(report, written, &answer) != written) {
        fprintf(stderr, "reason %" PRIu32 " after %zu bytes\n", reason, used);
        exit(EXIT_FAILURE);
    }
    return answer;
}

static void say_outcome(struct stops_answer answer)
{
    if (answer.kind == STOPS_ACCEPTED)
        printf("done\n");
    else
        printf("refused, %s\n", refusals[answer.refusal]);
}

static void say_list(struct stops_answer answer)
{
    struct stops_entry entry;
    if (answer.kind != STOPS_LISTED) {
        printf("  refused, %s\n", refusals[answer.refusal]);
        return;
    }
    for (size_t i = 0; stops_read_entry(&answer, i, &entry); i++) {
        printf("  stop %u from ", (unsigned)entry.site);
        if (entry.numerator == 0)
            printf("the start\n");
        else
            printf("%" PRIu32 "/%" PRIu32 " of the way\n", entry.numerator, entry.denominator);
    }
}

static void add(struct stop stop)
{
    uint8_t command[STOPS_LONGEST_COMMAND];
    size_t length = stops_put_add(command, sizeof command, stop.number, stop.at.east, stop.at.north);
    printf("Add stop %d at (%d,%d): ", stop.number, stop.at.east, stop.at.north);
    say_outcome(serve(command, length));
}

static void remove_stop(int number)
{
    uint8_t command[STOPS_LONGEST_COMMAND];
    size_t length = stops_put_remove(command, sizeof command, number);
    printf("Remove stop %d: ", number);
    say_outcome(serve(command, length));
}

static void stand(struct position s, struct position e)
{
    uint8_t command[STOPS_LONGEST_COMMAND];
    size_t length = stops_put_stand(command, sizeof command, s.east, s.north, e.east, e.north);
    printf("Stand on the leg (%d,%d) to (%d,%d): ", s.east, s.north, e.east, e.north);
    say_outcome(serve(command, length));
}

static void list(struct position s, struct position e)
{
    uint8_t command[STOPS_LONGEST_COMMAND];
    size_t length = stops_put_list(command, sizeof command, s.east, s.north, e.east, e.north);
    printf("The leg (%d,%d) to (%d,%d):\n", s.east, s.north, e.east, e.north);
    say_list(serve(command, length));
}

static void print(void)
{
    uint8_t command[STOPS_LONGEST_COMMAND];
    size_t length = stops_put_print(command, sizeof command);
    printf("The standing leg:\n");
    say_list(serve(command, length));
}

int main(void)
{
    static const struct stop stops[] = {
        {1, {2, 3}},   {2, {7, 1}}, {3, {9, -4}}, {4, {-60, 80}}, {5, {120, 50}},
        {6, {300, 0}}, {2, {0, 0}}, {7, {STOPS_HALF_WIDTH + 1, 0}},
        {8, {-STOPS_HALF_WIDTH, STOPS_HALF_WIDTH}},
    };
    const struct position origin = {0, 0}, ten = {10, 0}, west = {-100, 100}, east = {400, 0};
    if (stops_lay_out(table, sizeof table) != STOPS_ALL_USED)
        return EXIT_FAILURE;
    print();
    stand(origin, ten);
    print();
    for (size_t i = 0; i < sizeof stops / sizeof stops[0]; i++)
        add(stops[i]);
    print();
    list(west, east);
    list(east, east);
    remove_stop(2);
    print();
    remove_stop(2);
    return EXIT_SUCCESS;
}
