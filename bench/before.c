/* The library against an earlier one, whose calls are linked under the second program's names (bench/before): the same bytes after every call, and
   the time of an update, of a list and of each job before and after. Words are by chance in every symbol. */
#include "programs.h"
#include "table.h"

enum { WORDS = 8, ROUNDS = 60, BEFORE = SECOND, AFTER = LIBRARY };

/* Short rows first: there the fixed costs of an update, the inverse among them, weigh most. */
static const uint8_t SETTINGS[][4] = {{7, 2, 1, 1}, {15, 4, 1, 2}, {31, 6, 1, 1}, {31, 6, 2, 4}, {31, 6, 4, 8}};

static const column COLUMNS[] = {
    {" n", 0},
    {" k", 0},
    {"m", 0},
    {"l", 0},
    {"updates", 0},
    {"row bytes", 0},
    {"ns an update, before", 1},
    {"after", 1},
    {"us a list, before", 1},
    {" after", 1},
    {"encode", 2},
    {"start", 2},
    {"update", 2},
    {"finish", 2},
    {"list", 2},
};
static const table TABLE = {NULL, sizeof COLUMNS / sizeof *COLUMNS, COLUMNS};

typedef struct {
    double of[PROGRAMS]; /* sums over the words */
} sums;

/* A turn changes its rows, so a round of it is one call; a round of another job is three. */
static void add(sums *to, int job, const request *q, const side *from) {
    times t = measure(PROGRAMS, job, q, from, ROUNDS, job == TURN ? 1 : 3);
    for (int program = 0; program < PROGRAMS; program++) to->of[program] += t.of[program];
}

static double ratio(const sums *s) { return s->of[AFTER] / s->of[BEFORE]; }

static void line(const uint8_t *s) {
    static side none, started, ended;
    sums encode = {{0}}, start = {{0}}, turn = {{0}}, finish = {{0}}, list = {{0}};
    double updates = 0;
    for (int i = 0; i < WORDS; i++) {
        request q = any_request(P, s[0], s[1], s[2], s[3], s[0], 0);
        any_word(&q);
        started = none;
        run(LIBRARY, START, &q, &started);
        ended = started;
        run(LIBRARY, TURN, &q, &ended);
        updates += pluck_updates(ended.back);
        add(&encode, ENCODE, &q, &none);
        add(&start, START, &q, &none);
        add(&turn, TURN, &q, &started);
        add(&finish, FINISH, &q, &ended);
        add(&list, LIST, &q, &none);
    }
    print_row(&TABLE, NULL,
              (double[]){s[0], s[1], s[2], s[3], updates / WORDS, PLUCK_CURVE_BYTES(s[0], s[1], s[2], s[3]), turn.of[BEFORE] / updates,
                         turn.of[AFTER] / updates, list.of[BEFORE] / WORDS / 1000, list.of[AFTER] / WORDS / 1000, ratio(&encode), ratio(&start),
                         ratio(&turn), ratio(&finish), ratio(&list)});
}

int main(void) {
    print_head(&TABLE);
    for (size_t i = 0; i < sizeof SETTINGS / sizeof *SETTINGS; i++) line(SETTINGS[i]);
    return 0;
}
