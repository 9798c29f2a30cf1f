/* A board: a departure arrives with errors and is decoded in turns of 50 updates, with a redraw between any two of them.
   The script `run` beside it builds and runs it, and compares what it prints with board.out. */
#include "pluck.h"
#include <stdio.h>

/* A departure's message at all 31 points. With these m and l the list is sure to be whole at 16 agreements or more. */
enum { P = PLUCK_DEPARTURE_FIELD, K = PLUCK_DEPARTURE_SYMBOLS, N = 31, M = 4, L = 8, T = 16, TURN = 50 };

static uint8_t points[N], word[N];
static uint8_t rows[PLUCK_ROWS_BYTES(N, K, M, L)], curve[PLUCK_CURVE_BYTES(N, K, M, L)];
static uint8_t room[PLUCK_WORKING_ROOM];

static int refused(const char *job, uint8_t number) {
    if (number != PLUCK_DONE) printf("%s: number %d\n", job, number);
    return number != PLUCK_DONE;
}

static void print_word(const char *name) {
    printf("%s", name);
    for (int s = 0; s < N; s++) printf("%s%d", s == 0 ? "" : ",", word[s]);
    printf("\n");
}

/* What the radio does to the word: 12 of the 31 symbols come out wrong. */
static void disturb(void) {
    for (int s = 1; s <= 12; s++) word[2 * s] = (uint8_t)((word[2 * s] + 7 * s) % P);
}

/* The last boat of the evening of day 368: it sails at 24:15. */
static int send_departure(void) {
    uint8_t message[K];
    if (refused("write", pluck_write_departure(4, 368, 1455, message, sizeof message))) return 1;
    if (refused("encode", pluck_encode(P, points, N, message, K, word, N))) return 1;
    print_word("sent     ");
    disturb();
    print_word("received ");
    return 0;
}

/* For the next sending. */
static int waits(void) {
    printf("waits\n");
    return 0;
}

/* One departure is shown. For none and for several the board waits. */
static int show(const uint8_t *heard) {
    uint8_t boat = heard[PLUCK_DEPARTURE_BOAT], text[PLUCK_TIME_BYTES];
    uint16_t day = pluck_day(heard);
    if (heard[PLUCK_HEARD_COUNT] != 1) return waits();
    if (refused("show", pluck_show_departure(boat, day, pluck_minute(heard), text, sizeof text))) return 1;
    printf("departure boat %d, day %d, %.*s\n", boat, day, PLUCK_TIME_BYTES, (const char *)text);
    return 0;
}

int main(void) {
    uint8_t note[PLUCK_NOTE_BYTES], back[PLUCK_BACK_BYTES], heard[PLUCK_HEARD_BYTES];
    int updates = 0;

    for (int s = 0; s < N; s++) points[s] = (uint8_t)s;
    if (send_departure()) return 1;

    if (refused("start", pluck_start(P, points, N, word, N, K, M, L, rows, sizeof rows, note, sizeof note))) return 1;
    while (note[PLUCK_NOTE_R] <= L) {
        if (refused("turn", pluck_turn(note, sizeof note, rows, sizeof rows, TURN, back, sizeof back))) return 1;
        updates += pluck_updates(back);
        printf("redraw   %d updates, row %d of %d\n", updates, note[PLUCK_NOTE_R], L + 1);
    }
    if (refused("finish", pluck_finish(note, sizeof note, rows, sizeof rows, curve, sizeof curve, back, sizeof back))) return 1;
    printf("curve    weight %d, height %d\n", back[PLUCK_BACK_WEIGHT], back[PLUCK_BACK_HEIGHT]);

    /* The curve's weight says whether a list can be had at T. Hear works from the word alone and makes all updates again, in one call
       without a redraw. */
    if (M * T <= back[PLUCK_BACK_WEIGHT]) return waits();
    uint8_t number = pluck_hear(points, N, word, N, M, L, T, room, sizeof room, heard, sizeof heard);
    /* The message that is alone is no departure: the board waits, as for none and for several. */
    if (number == PLUCK_DEPARTURE) return waits();
    if (refused("hear", number)) return 1;
    return show(heard);
}
