/* The stop service: a table of sites in lent bytes, and batches of commands on it.
   docs/PROTOCOL.md says what every byte of commands and records means. */
#ifndef STOPS_H
#define STOPS_H

#define STOPS_VERSION "0.12.0"
/* 10000 times the first number, 100 times the second, and the third. */
#define STOPS_VERSION_NUMBER 1200

#include <stddef.h>
#include <stdint.h>
#include <string.h>

#ifdef __cplusplus
extern "C" {
#endif

/* The exact lengths of the table and of the work buffer, in bytes. */
#define STOPS_TABLE_BYTES 32768
#define STOPS_WORK_BYTES 2048

/* Eastings and northings on the grid run from -STOPS_HALF_WIDTH to STOPS_HALF_WIDTH, in steps of
   100 m. */
#define STOPS_HALF_WIDTH 12000
#define STOPS_MOST_SITES 512
/* No command has more bytes. */
#define STOPS_LONGEST_COMMAND 11
/* A report buffer of this length has room for any record: a list of 512 entries. */
#define STOPS_LONGEST_RECORD 5123

/* What a call returns. */
enum stops_reason {
    STOPS_ALL_USED = 0,         /* all commands were used */
    STOPS_WRONG_LENGTH = 64,    /* table or work buffer of wrong length; every buffer is left */
    STOPS_BROKEN_TABLE = 65,    /* a rule on layout, sites, tour or tree is broken in the table;
                                   table and report are left */
    STOPS_UNKNOWN_COMMAND = 66, /* an unknown command byte */
    STOPS_CUT_COMMAND = 67,     /* a known command, its operands cut short */
    STOPS_NO_ROOM = 68,         /* the next record exceeds what is left of the report buffer */
    STOPS_BROKEN_STANDING = 69  /* tested directly after 65: the standing leg or list in the table
                                   is wrong, its sites can be read; table and report are left */
};

/* Command bytes and their operands. A number is an unsigned 16-bit word, a position two signed
   ones, easting and northing; readings are those that a satellite receiver shows, easting and
   northing in metres from the grid's origin, two 32-bit IEEE 754 numbers. Each stands lowest byte
   first. A reading goes to the nearest step of 100 m, an exact half away from zero. */
enum stops_command {
    STOPS_ADD = 0x41,           /* number, position */
    STOPS_REMOVE = 0x44,        /* number */
    STOPS_MOVE = 0x4D,          /* number, position */
    STOPS_LIST = 0x4C,          /* start and end of a leg: two positions */
    STOPS_STAND = 0x53,         /* start and end of the standing leg */
    STOPS_PRINT = 0x50,         /* nothing: prints the standing list */
    STOPS_BEGIN = 0x42,         /* position: begins a tour there, also within another one; an
                                   accepted addition, removal or move of a site ends it */
    STOPS_CORNER = 0x43,        /* position: lists the leg from the tour's last corner to this one,
                                   which is the last corner then */
    STOPS_ADD_READINGS = 0x61,  /* number, readings: as STOPS_ADD with their steps */
    STOPS_MOVE_READINGS = 0x6D  /* number, readings: as STOPS_MOVE with their steps */
};

/* First bytes of the records in a report. */
enum stops_record {
    STOPS_ACCEPTED = 0x2B, /* nothing follows */
    STOPS_REFUSED = 0x21,  /* a byte follows: the refusal */
    STOPS_LISTED = 0x3D    /* a 16-bit count, then the entries: 16-bit number of the site,
                              32-bit numerator and denominator of its start, all unsigned:
                              a denominator may pass 2,147,483,647; of sites that tie along
                              the whole leg, one on its right, then the lower number.
                              STOPS_CORNER's leaves out its first entry, that from 0 on, where
                              it names the site that ended the whole list of the tour's leg
                              before; then the count may be 0. That site is still the nearest,
                              up to the first start or all along: it is the last one in the
                              tour's earlier records */
};

/* Why a command was refused; the table is left, and the batch goes on. */
enum stops_refusal {
    STOPS_NUMBER_ZERO = 1,
    STOPS_OFF_GRID = 2,
    STOPS_NUMBER_HELD = 3,
    STOPS_NUMBER_NOT_HELD = 4,
    STOPS_TABLE_FULL = 5,
    STOPS_NO_SITE = 6,
    STOPS_NO_STANDING_LEG = 7,
    STOPS_NO_TOUR = 8,    /* STOPS_CORNER, and no tour is under way */
    STOPS_NOT_FINITE = 11 /* a reading is not a finite number; tested after STOPS_NUMBER_ZERO and
                             before STOPS_OFF_GRID */
};

/* Writes an empty table without a standing leg and a tour. Returns 0, or 64 and leaves the bytes. */
uint32_t stops_lay_out(uint8_t *table, size_t table_len);

/* Carries out the commands in turn and writes their records to the report. Returns the reason.
   Every call sets *used to the number of command bytes used and *written to that of report bytes
   written. The work buffer is all zero afterwards, except after 64. Report bytes past the written
   ones are left.

   The caller sees to it that
   - each pointer leads to as many bytes as its length says, and nobody else writes them meanwhile;
   - no two of the buffers overlap;
   - used and written are not NULL, not the same, and lead into none of the buffers.

   The caller may
   - pass NULL with a length of 0, for any of the buffers;
   - lend buffers at any address: only used and written are aligned as a size_t has to be;
   - call from many threads at once, where each has a table and buffers of its own;
   - lend a table that can only be read, where the batch changes nothing: none of its commands is
     accepted and no STOPS_CORNER lists; the others list or are refused, or the call ends before. */
uint32_t stops_batch(uint8_t *table, size_t table_len,
                     uint8_t *work, size_t work_len,
                     const uint8_t *commands, size_t commands_len,
                     uint8_t *report, size_t report_len,
                     size_t *used, size_t *written);

/* Writing commands. Each of these writes one at `to`, where there is room for `room` bytes, and
   returns its length; 0, and nothing is written, where the room is too small or a number has more
   than the 16 bits of its word. Whether it is on the grid, and held, and whether a reading is
   finite, the service judges. */

static inline int stops_fits_number(int32_t number)
{
    return number >= 0 && number <= 65535;
}

static inline int stops_fits_position(int32_t east, int32_t north)
{
    return east >= -32768 && east <= 32767 && north >= -32768 && north <= 32767;
}

static inline void stops_put_word(uint8_t *to, int32_t word)
{
    to[0] = (uint8_t)((uint32_t)word & 0xFF);
    to[1] = (uint8_t)((uint32_t)word >> 8 & 0xFF);
}

static inline size_t stops_put_site(uint8_t *to, size_t room, uint8_t mark, int32_t number,
                                    int32_t east, int32_t north)
{
    if (room < 7 || !stops_fits_number(number) || !stops_fits_position(east, north))
        return 0;
    to[0] = mark;
    stops_put_word(to + 1, number);
    stops_put_word(to + 3, east);
    stops_put_word(to + 5, north);
    return 7;
}

/* Readings are sent as they are: a float has the 32 bits of the command's number. */
typedef char stops_float_has_32_bits[sizeof(float) == sizeof(uint32_t) ? 1 : -1];

static inline void stops_put_reading(uint8_t *to, float reading)
{
    uint32_t bits;
    memcpy(&bits, &reading, sizeof bits);
    stops_put_word(to, (int32_t)(bits & 0xFFFF));
    stops_put_word(to + 2, (int32_t)(bits >> 16));
}

static inline size_t stops_put_readings(uint8_t *to, size_t room, uint8_t mark, int32_t number,
                                        float east, float north)
{
    if (room < 11 || !stops_fits_number(number))
        return 0;
    to[0] = mark;
    stops_put_word(to + 1, number);
    stops_put_reading(to + 3, east);
    stops_put_reading(to + 7, north);
    return 11;
}

static inline size_t stops_put_leg(uint8_t *to, size_t room, uint8_t mark, int32_t s_east,
                                   int32_t s_north, int32_t e_east, int32_t e_north)
{
    if (room < 9 || !stops_fits_position(s_east, s_north) || !stops_fits_position(e_east, e_north))
        return 0;
    to[0] = mark;
    stops_put_word(to + 1, s_east);
    stops_put_word(to + 3, s_north);
    stops_put_word(to + 5, e_east);
    stops_put_word(to + 7, e_north);
    return 9;
}

static inline size_t stops_put_position(uint8_t *to, size_t room, uint8_t mark, int32_t east,
                                        int32_t north)
{
    if (room < 5 || !stops_fits_position(east, north))
        return 0;
    to[0] = mark;
    stops_put_word(to + 1, east);
    stops_put_word(to + 3, north);
    return 5;
}

static inline size_t stops_put_add(uint8_t *to, size_t room, int32_t number, int32_t east,
                                   int32_t north)
{
    return stops_put_site(to, room, STOPS_ADD, number, east, north);
}

static inline size_t stops_put_move(uint8_t *to, size_t room, int32_t number, int32_t east,
                                    int32_t north)
{
    return stops_put_site(to, room, STOPS_MOVE, number, east, north);
}

static inline size_t stops_put_add_readings(uint8_t *to, size_t room, int32_t number, float east,
                                            float north)
{
    return stops_put_readings(to, room, STOPS_ADD_READINGS, number, east, north);
}

static inline size_t stops_put_move_readings(uint8_t *to, size_t room, int32_t number, float east,
                                             float north)
{
    return stops_put_readings(to, room, STOPS_MOVE_READINGS, number, east, north);
}

static inline size_t stops_put_remove(uint8_t *to, size_t room, int32_t number)
{
    if (room < 3 || !stops_fits_number(number))
        return 0;
    to[0] = STOPS_REMOVE;
    stops_put_word(to + 1, number);
    return 3;
}

static inline size_t stops_put_list(uint8_t *to, size_t room, int32_t s_east, int32_t s_north,
                                    int32_t e_east, int32_t e_north)
{
    return stops_put_leg(to, room, STOPS_LIST, s_east, s_north, e_east, e_north);
}

static inline size_t stops_put_stand(uint8_t *to, size_t room, int32_t s_east, int32_t s_north,
                                     int32_t e_east, int32_t e_north)
{
    return stops_put_leg(to, room, STOPS_STAND, s_east, s_north, e_east, e_north);
}

static inline size_t stops_put_print(uint8_t *to, size_t room)
{
    if (room < 1)
        return 0;
    to[0] = STOPS_PRINT;
    return 1;
}

static inline size_t stops_put_begin(uint8_t *to, size_t room, int32_t east, int32_t north)
{
    return stops_put_position(to, room, STOPS_BEGIN, east, north);
}

static inline size_t stops_put_corner(uint8_t *to, size_t room, int32_t east, int32_t north)
{
    return stops_put_position(to, room, STOPS_CORNER, east, north);
}

/* Reading records. */

struct stops_answer {
    enum stops_record kind;
    uint8_t refusal;        /* why, where it is refused, else 0 */
    uint16_t count;         /* of a list's entries, else 0 */
    const uint8_t *entries; /* in the report, where it is a list, else NULL */
};

struct stops_entry {
    uint16_t site;
    uint32_t numerator, denominator; /* of the start */
};

static inline uint32_t stops_number_at(const uint8_t *from, int bytes)
{
    uint32_t number = 0;
    while (bytes-- > 0)
        number = number << 8 | from[bytes];
    return number;
}

/* Reads the record that the `length` bytes at `from` begin with, and returns its own length; 0, and
   *answer is left, where they begin with no whole record. */
static inline size_t stops_read_record(const uint8_t *from, size_t length,
                                       struct stops_answer *answer)
{
    struct stops_answer read = {STOPS_ACCEPTED, 0, 0, NULL};
    size_t used = 1;
    if (length == 0)
        return 0;
    if (from[0] == STOPS_REFUSED && length >= 2) {
        read.kind = STOPS_REFUSED;
        read.refusal = from[1];
        used = 2;
    } else if (from[0] == STOPS_LISTED && length >= 3) {
        read.kind = STOPS_LISTED;
        read.count = (uint16_t)stops_number_at(from + 1, 2);
        read.entries = from + 3;
        used = 3 + 10 * (size_t)read.count;
    } else if (from[0] != STOPS_ACCEPTED) {
        return 0;
    }
    if (used > length)
        return 0;
    *answer = read;
    return used;
}

/* Reads entry i of a list, from 0 on, and returns 1; 0, and *entry is left, where there is none. */
static inline int stops_read_entry(const struct stops_answer *answer, size_t i,
                                   struct stops_entry *entry)
{
    const uint8_t *from;
    if (i >= answer->count)
        return 0;
    from = answer->entries + 10 * i;
    entry->site = (uint16_t)stops_number_at(from, 2);
    entry->numerator = stops_number_at(from + 2, 4);
    entry->denominator = stops_number_at(from + 6, 4);
    return 1;
}

#ifdef __cplusplus
}
#endif

#endif
