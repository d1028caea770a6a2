/* The proved rounding as a C program links it, beside the rule in whole numbers. The other tests here link it into a
 * Rust program.
 *
 * readings near   the patterns near every half and every step, and at every exponent
 * readings all    all 2^32, on two threads
 */
#include <pthread.h>
#include <stdint.h>
#include <stdio.h>
#include <string.h>

extern uint32_t probe_coordinate(uint32_t bits);

#define HALF_WIDTH 12000u
#define OFF_GRID (32767u + HALF_WIDTH)
#define NOT_FINITE 65536u
#define BESIDE 16

/* No float in here: the size is digits * 2^-down metres, and its step is (size + 50) / 100, cut. */
static uint32_t expected(uint32_t bits)
{
    uint32_t field = bits >> 23 & 255, digits = bits & 0x7fffff;
    uint64_t size, hundred, step;
    int down;
    if (field == 255)
        return NOT_FINITE;
    if (field > 150)
        return OFF_GRID; /* 2^24 m and more */
    down = 150 - (field ? (int)field : 1);
    size = field ? digits | 0x800000u : digits;
    if (down > 40)
        return HALF_WIDTH; /* less than 2^-16 m */
    hundred = (uint64_t)100 << down;
    step = (size + hundred / 2) / hundred;
    if (step > HALF_WIDTH)
        return OFF_GRID;
    return bits >> 31 ? HALF_WIDTH - (uint32_t)step : HALF_WIDTH + (uint32_t)step;
}

struct part {
    uint64_t first, step, compared, differ;
};

static void compare(struct part *part, uint32_t bits)
{
    uint32_t got = probe_coordinate(bits), want = expected(bits);
    part->compared++;
    if (got != want && part->differ++ < 20)
        printf("%08X: %u, and %u by the rule\n", (unsigned)bits, (unsigned)got, (unsigned)want);
}

static void *compare_all(void *argument)
{
    struct part *part = argument;
    uint64_t bits;
    for (bits = part->first; bits >> 32 == 0; bits += part->step)
        compare(part, (uint32_t)bits);
    return 0;
}

static void compare_near(struct part *part)
{
    uint32_t half_steps, field;
    int by;
    for (half_steps = 0; half_steps <= 2 * HALF_WIDTH + 40; half_steps++)
        for (by = -BESIDE; by <= BESIDE; by++) {
            float metres = 50.0f * (float)half_steps;
            uint32_t bits;
            memcpy(&bits, &metres, sizeof bits);
            compare(part, bits + (uint32_t)by);
            compare(part, (bits + (uint32_t)by) ^ 0x80000000u);
        }
    for (field = 0; field < 512; field++)
        for (by = -BESIDE; by <= BESIDE; by++)
            compare(part, (field << 23) + (uint32_t)by);
}

int main(int count, char **arguments)
{
    struct part parts[2] = {{0, 2, 0, 0}, {1, 2, 0, 0}};
    uint64_t compared, differ;
    if (count == 2 && strcmp(arguments[1], "near") == 0) {
        compare_near(parts);
    } else if (count == 2 && strcmp(arguments[1], "all") == 0) {
        pthread_t other;
        if (pthread_create(&other, 0, compare_all, parts + 1))
            return 2;
        compare_all(parts);
        pthread_join(other, 0);
    } else {
        return 2;
    }
    compared = parts[0].compared + parts[1].compared;
    differ = parts[0].differ + parts[1].differ;
    printf("%llu patterns compared, %llu differ\n", (unsigned long long)compared, (unsigned long long)differ);
    return differ != 0;
}
