/* The jobs of docs/RULES.md as a plain program does them: the baseline that the library is measured against.
   Requests are trusted: nothing is refused but by number 13, and a room is as long as it has to be. */
#ifndef PLAIN_H
#define PLAIN_H
#include <stdint.h>

typedef struct {
    uint8_t p, n, k, m, l, r;
} plain_note;

typedef struct {
    int weight, height;
} plain_finished;

typedef struct {
    int number, count, updates, weight;
} plain_listed;

/* The limits of docs/RULES.md that it needs: the largest field size, so the most points; the greatest l and W; the bytes of the largest curve
   and rows; the largest allowance. */
enum {
    PLAIN_FIELD_MOST = 31,
    PLAIN_HEIGHT_MOST = 8,
    PLAIN_WIDTH_MOST = 240,
    PLAIN_CURVE_MOST = (PLAIN_HEIGHT_MOST + 1) * (PLAIN_WIDTH_MOST + 1),
    PLAIN_ROWS_MOST = (PLAIN_HEIGHT_MOST + 1) * PLAIN_CURVE_MOST,
    PLAIN_ALLOWANCE_MOST = 65535
};

void plain_encode(int p, const uint8_t *points, int n, const uint8_t *message, int k, uint8_t *word);
plain_note plain_start(int p, const uint8_t *points, const uint8_t *word, int n, int k, int m, int l, uint8_t *rows);
/* The updates made. */
int plain_turn(plain_note *note, uint8_t *rows, int allowance);
plain_finished plain_finish(plain_note note, const uint8_t *rows, uint8_t *curve);
plain_listed plain_list(int p, const uint8_t *points, const uint8_t *word, int n, int k, int m, int l, int t, uint8_t *messages);

#endif
