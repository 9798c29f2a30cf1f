/* Pluckcluster's jobs for C. Link the static library of the crate `boards`: `rt lib` in its folder writes out/libboards.a.

   What holds of each call is proved of the functions in src/lib.rt and src/departure_calls.rt. Nothing checks these declarations against
   those files: they are to be changed together.

   - Every call returns a number of the table below; the first that applies is given, in the order that stands with the call.
   - A room is an address and a length in bytes. An address is never null, also where the length is 0. A room that a call may write
     overlaps no other that it is lent. A room may be longer than asked for: its excess is never written.
   - A call keeps nothing: all there is of an interpolation is its rows and its note, and both belong to the caller.
   - p is the size of a field, and a symbol is a byte below p. Symbols count modulo p where p is a prime. With p = 16 bit i of a symbol is
     the coefficient of x^i in a polynomial over 0 and 1: symbols are added by exclusive or, and multiplied modulo x^4 + x + 1.
   - `note`, `back`, `departure` and `heard` are lent rooms as any other: where one is too short the number is 9, at the place of 9 in the
     call's order. But a turn and a finish cannot read a note that is too short: there 9 comes before anything else. */
#ifndef PLUCK_H
#define PLUCK_H

#include <stddef.h>
#include <stdint.h>

#ifdef __cplusplus
extern "C" {
#endif

/* The version of the library: that of the file VERSION at the top of the repository. */
#define PLUCK_VERSION "0.3.0"

/* The limits (docs/RULES.md). Where one follows from others, it says how; PLUCK_W and the sizes stand below. */
#define PLUCK_FIELD_MOST 31        /* the largest field size, so the most points */
#define PLUCK_MULTIPLICITY_MOST 4  /* the greatest m */
#define PLUCK_HEIGHT_MOST 8        /* the greatest l */
#define PLUCK_WIDTH_MOST 240       /* the greatest W: 4 * 31 + (8 - 4) * 29 */
#define PLUCK_CURVE_MOST 2169      /* the bytes of the largest curve: 9 * 241 */
#define PLUCK_ROWS_MOST 19521      /* the bytes of the largest rows: 9 * 2169 */
#define PLUCK_WORKING_ROOM 32768   /* the bytes of the working room of a list, and of hear */
#define PLUCK_MESSAGES_MOST 240    /* the bytes of the most messages: 8 * 30 */
#define PLUCK_UPDATES_MOST 3886    /* the most updates from a start: 29 * (1 + 4 + 9 + 16) + 29 * 4 * (5 + 6 + 7 + 8) */
#define PLUCK_ALLOWANCE_MOST 65535 /* the largest allowance */

/* The numbers of a departure. C cuts a number that is too large for its type before a call sees it, so that a boat of 263 becomes 7 and is
   answered: hold such numbers against these first. */
#define PLUCK_DEPARTURE_FIELD 31   /* the field of its symbols, and so the base of its digits */
#define PLUCK_DEPARTURE_SYMBOLS 6  /* the symbols of its message */
#define PLUCK_BOAT_MOST 30         /* the largest boat */
#define PLUCK_DAY_MOST 960         /* the largest service day: 31 * 31 - 1 */
#define PLUCK_MINUTE_MOST 1799     /* the largest minute of the service day, 29:59: no minute is wrapped at 1,440 */
#define PLUCK_TIME_BYTES 5         /* the bytes of the time that it prints */

/* The numbers that a call returns. */
enum {
    PLUCK_DONE = 0,
    PLUCK_FIELD = 1,      /* p is none of 3, 5, 7, 11, 13, 16, 17, 19, 23, 29, 31 */
    PLUCK_COUNT = 2,      /* n, the count of points, is below 3 or above p */
    PLUCK_LENGTH = 3,     /* the word's length is not n */
    PLUCK_DEGREE = 4,     /* k is below 2 or above n - 1 */
    PLUCK_HEIGHTS = 5,    /* m is outside 1 to PLUCK_MULTIPLICITY_MOST, or l outside m to PLUCK_HEIGHT_MOST */
    PLUCK_SYMBOL = 6,     /* a point or symbol is p or more */
    PLUCK_REPEATED = 7,   /* two points are equal */
    PLUCK_WANTED = 8,     /* t is below 1 or above n */
    PLUCK_SHORT = 9,      /* a lent room is too short */
    PLUCK_NOTE = 10,      /* 1, 2, 4 or 5 would apply to the note, or its r is outside 1 to l + 1 */
    PLUCK_ROWS = 11,      /* the rows are not as a turn leaves them */
    PLUCK_EARLY = 12,     /* finish was asked with r below l + 1 */
    PLUCK_UNVOUCHED = 13, /* m t is not above the curve's weight: the list would not be sure to be whole */
    PLUCK_DEPARTURE = 15  /* a boat, day or minute is out of its range, or a message is no departure */
};

/* The sizes of the rooms, in bytes. W is the greatest weight: no term of a row weighs more. */
#define PLUCK_W(n, k, m, l) ((m) * (n) + ((l) - (m)) * ((k) - 1))
#define PLUCK_SLOT_BYTES(n, k, m, l) (PLUCK_W(n, k, m, l) + 1)                          /* one power of y, lowest power of x first */
#define PLUCK_CURVE_BYTES(n, k, m, l) (((l) + 1) * PLUCK_SLOT_BYTES(n, k, m, l))        /* slots by rising power of y */
#define PLUCK_ROWS_BYTES(n, k, m, l) (((l) + 1) * PLUCK_CURVE_BYTES(n, k, m, l))        /* rows 0 to l */
#define PLUCK_MESSAGES_BYTES(k, l) ((l) * (k))

/* A note: six bytes, in this order. The work is finished when r is l + 1. */
enum { PLUCK_NOTE_P, PLUCK_NOTE_N, PLUCK_NOTE_K, PLUCK_NOTE_M, PLUCK_NOTE_L, PLUCK_NOTE_R, PLUCK_NOTE_BYTES };

/* What a call hands back beside its number: five bytes, in this order. Each call that is lent `back` writes all five, zero for what it
   does not hand back. After a refusal all five are zero, but for the late 11 of a turn. A `back` that is too short for five is not
   written. */
enum { PLUCK_BACK_UPDATES_LOW, PLUCK_BACK_UPDATES_HIGH, PLUCK_BACK_WEIGHT, PLUCK_BACK_HEIGHT, PLUCK_BACK_COUNT, PLUCK_BACK_BYTES };

static inline uint16_t pluck_updates(const uint8_t *back) {
    return (uint16_t)(back[PLUCK_BACK_UPDATES_LOW] + 256 * back[PLUCK_BACK_UPDATES_HIGH]);
}

/* A departure: five bytes, in this order. */
enum {
    PLUCK_DEPARTURE_BOAT,
    PLUCK_DEPARTURE_DAY_LOW,
    PLUCK_DEPARTURE_DAY_HIGH,
    PLUCK_DEPARTURE_MINUTE_LOW,
    PLUCK_DEPARTURE_MINUTE_HIGH,
    PLUCK_DEPARTURE_BYTES
};

static inline uint16_t pluck_day(const uint8_t *departure) {
    return (uint16_t)(departure[PLUCK_DEPARTURE_DAY_LOW] + 256 * departure[PLUCK_DEPARTURE_DAY_HIGH]);
}

static inline uint16_t pluck_minute(const uint8_t *departure) {
    return (uint16_t)(departure[PLUCK_DEPARTURE_MINUTE_LOW] + 256 * departure[PLUCK_DEPARTURE_MINUTE_HIGH]);
}

/* What hear hands back beside its number: six bytes, the departure's five and then the count, which is 0 for none, 1 for one, 2 for several.
   Where the count is not 1 the departure is zeros; after a refusal all six are zero. A `heard` that is too short for six is not written. */
enum { PLUCK_HEARD_COUNT = PLUCK_DEPARTURE_BYTES, PLUCK_HEARD_BYTES };

/* Encode: byte s of the word becomes the message's value at point s. n is the count of points, k the message's length.
   Refusals: 1, 2, 4, 6, 7, 9 (the word has n bytes). Writes the first n bytes of the word; after a refusal nothing. */
uint8_t pluck_encode(uint8_t p, const uint8_t *points, size_t points_len, const uint8_t *message, size_t message_len, uint8_t *word,
                     size_t word_len);

/* Start: the rows become those that an interpolation begins with, and the note p, n, k, m, l and r = 1.
   Refusals: 1, 2, 3, 4, 5, 6, 7, 9 (rows below PLUCK_ROWS_BYTES, a note below PLUCK_NOTE_BYTES). Writes PLUCK_ROWS_BYTES of the rows and
   the six bytes of the note; after a refusal the rows are as they were and the note is six zeros. A note that is too short for six is
   not written. */
uint8_t pluck_start(uint8_t p, const uint8_t *points, size_t points_len, const uint8_t *word, size_t word_len, uint8_t k, uint8_t m, uint8_t l,
                    uint8_t *rows, size_t rows_len, uint8_t *note, size_t note_len);

/* Turn: at most `allowance` updates, from the note's row on. Hands back the updates made, and the next note in the place of the note.
   Refusals: 9 (a note below PLUCK_NOTE_BYTES), 10, 9 (rows below PLUCK_ROWS_BYTES, `back` below PLUCK_BACK_BYTES), 11. Writes
   PLUCK_ROWS_BYTES of the rows, the note's r, and `back`; after a refusal rows and note are as they were.
   A turn also gives 11, later, when an update would make a row zero: that update is not made, and rows, note and updates are
   those just before it. From a start this never happens. */
uint8_t pluck_turn(uint8_t *note, size_t note_len, uint8_t *rows, size_t rows_len, uint16_t allowance, uint8_t *back, size_t back_len);

/* Finish: the row with the smallest leading term, made monic. Hands back its weight and height.
   Refusals: 9 (a note below PLUCK_NOTE_BYTES), 10, 9 (rows below PLUCK_ROWS_BYTES, a curve below PLUCK_CURVE_BYTES, `back` below
   PLUCK_BACK_BYTES), 12, 11. Writes PLUCK_CURVE_BYTES of the curve, and `back`; after a refusal the curve is as it was. */
uint8_t pluck_finish(const uint8_t *note, size_t note_len, const uint8_t *rows, size_t rows_len, uint8_t *curve, size_t curve_len, uint8_t *back,
                     size_t back_len);

/* List: all messages that agree with the word at t places or more, k symbols each with the constant first, in ascending order. Hands back
   their count (at most l), all updates made and the curve's weight. An empty list is number 0 with count 0.
   Refusals: 1 to 9 in order (9: a room below PLUCK_WORKING_ROOM, messages below PLUCK_MESSAGES_BYTES, `back` below PLUCK_BACK_BYTES), then
   13. Leaves the first PLUCK_WORKING_ROOM of the room zero, after 0 and after 13; writes count times k bytes of the messages, and `back`.
   After 1 to 9 room and messages are as they were, after 13 the messages. */
uint8_t pluck_list(uint8_t p, const uint8_t *points, size_t points_len, const uint8_t *word, size_t word_len, uint8_t k, uint8_t m, uint8_t l,
                   uint8_t t, uint8_t *room, size_t room_len, uint8_t *messages, size_t messages_len, uint8_t *back, size_t back_len);

/* Write: the six symbols of a departure, at the front of the message: the boat, the day as two digits in base 31, high first, the minute as
   three. Encode it with p = PLUCK_DEPARTURE_FIELD.
   Refusals: 15, 9 (a message below PLUCK_DEPARTURE_SYMBOLS). Writes PLUCK_DEPARTURE_SYMBOLS bytes of the message; after a refusal nothing. */
uint8_t pluck_write_departure(uint8_t boat, uint16_t day, uint16_t minute, uint8_t *message, size_t message_len);

/* Read: the departure that a message spells.
   Refusals: 15 (a message that is not PLUCK_DEPARTURE_SYMBOLS long, has a symbol of PLUCK_DEPARTURE_FIELD or more, or spells a minute above
   PLUCK_MINUTE_MOST), 9 (`departure` below PLUCK_DEPARTURE_BYTES). Writes the five bytes of `departure`; after a refusal they are zero. A
   `departure` that is too short for five is not written. */
uint8_t pluck_read_departure(const uint8_t *message, size_t message_len, uint8_t *departure, size_t departure_len);

/* Show: the time of a departure, at the front of the text: hours, a colon, minutes, two decimal digits each and nothing after them. The hours
   are those of the service day, 00 to 29: 24:15, never 00:15.
   Refusals: 15, 9 (a text below PLUCK_TIME_BYTES). Writes PLUCK_TIME_BYTES bytes of the text; after a refusal nothing. */
uint8_t pluck_show_departure(uint8_t boat, uint16_t day, uint16_t minute, uint8_t *text, size_t text_len);

/* Hear: the departure that is alone near a word. It is the list with p = PLUCK_DEPARTURE_FIELD and k = PLUCK_DEPARTURE_SYMBOLS, its messages
   in room of the call's own. Hands back the count and, for one, the departure: none for an empty list, one for a message that is alone,
   several for two messages or more, whatever they spell.
   Refusals: 2 to 9 in order (9: a room below PLUCK_WORKING_ROOM, `heard` below PLUCK_HEARD_BYTES), then 13, then 15 (a message that is alone
   and no departure). Leaves the first PLUCK_WORKING_ROOM of the room zero, after 0, after 13 and after 15; writes `heard`. After 2 to 9 the
   room is as it was. */
uint8_t pluck_hear(const uint8_t *points, size_t points_len, const uint8_t *word, size_t word_len, uint8_t m, uint8_t l, uint8_t t, uint8_t *room,
                   size_t room_len, uint8_t *heard, size_t heard_len);

#ifdef __cplusplus
}
#endif

#endif
