/* Requests, and three programs on them: the library by its calls for C, the plain program, and the second program by calls of the same form. */
#ifndef PROGRAMS_H
#define PROGRAMS_H
#include "pluck.h"

/* The setting of a departure: the largest field, all its points, messages of 6 symbols, the greatest m and l. */
enum { P = PLUCK_FIELD_MOST, N = P, K = 6, M = PLUCK_MULTIPLICITY_MOST, L = PLUCK_HEIGHT_MOST };

typedef struct {
    uint8_t p, n, k, m, l, t;
    uint8_t points[PLUCK_FIELD_MOST], message[PLUCK_FIELD_MOST], word[PLUCK_FIELD_MOST];
} request;

/* All that one program writes; each writes it in the same places. The plain program needs no room. */
typedef struct {
    uint8_t number;
    uint8_t word[PLUCK_FIELD_MOST], note[PLUCK_NOTE_BYTES], back[PLUCK_BACK_BYTES];
    uint8_t rows[PLUCK_ROWS_MOST], curve[PLUCK_CURVE_MOST], messages[PLUCK_MESSAGES_MOST];
    uint8_t room[PLUCK_WORKING_ROOM];
} side;

/* INTERPOLATION is start, turn and finish one after the other. A TURN has the largest allowance, more than it needs. */
enum { ENCODE, START, TURN, FINISH, INTERPOLATION, LIST, JOBS };

extern const char *const JOB[JOBS];

enum { LIBRARY, PLAIN, SECOND, PROGRAMS };

void run(int program, int job, const request *q, side *s);

/* A number below `below`; the same ones in every run. */
unsigned any(unsigned below);
/* Points in any order, any message, and its word with so many symbols changed. */
request any_request(int p, int n, int k, int m, int l, int t, int errors);
/* Every symbol by chance. */
void any_word(request *q);

/* One turn with this allowance. */
void run_turn(int program, side *s, int allowance);

/* Ends the program with status 1 if two programs have left different bytes. */
void compare(int job, const request *q, const side *one, const side *other);

/* In nanoseconds. */
double processor_time(void);

/* Nanoseconds of processor time by the call, the fastest round of each of the first `programs` programs: they go in turns, so that they meet
   the same machine. A round begins from what `before` has and makes `calls` calls. What they have left is compared. */
typedef struct {
    double of[PROGRAMS];
} times;

times measure(int programs, int job, const request *q, const side *before, int rounds, int calls);

#endif
