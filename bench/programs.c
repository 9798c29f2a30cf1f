/* Requests, and three programs on them. */
#include "programs.h"
#include "plain.h"
#include "second.h"
#include <stdio.h>
#include <stdlib.h>
#include <string.h>
#include <time.h>

/* ---- requests ---- */

unsigned any(unsigned below) {
    static uint64_t state = 2463534242u;
    state ^= state << 13;
    state ^= state >> 7;
    state ^= state << 17;
    return (unsigned)(state >> 33) % below;
}

/* The numbers below `count` in any order. */
static void shuffle(uint8_t *xs, int count) {
    for (int i = 0; i < count; i++) xs[i] = (uint8_t)i;
    for (int i = count - 1; i > 0; i--) {
        int j = (int)any((unsigned)i + 1);
        uint8_t x = xs[i];
        xs[i] = xs[j];
        xs[j] = x;
    }
}

request any_request(int p, int n, int k, int m, int l, int t, int errors) {
    request q = {(uint8_t)p, (uint8_t)n, (uint8_t)k, (uint8_t)m, (uint8_t)l, (uint8_t)t, {0}, {0}, {0}};
    uint8_t wrong[PLUCK_FIELD_MOST];
    shuffle(q.points, p);
    for (int i = 0; i < k; i++) q.message[i] = (uint8_t)any((unsigned)p);
    /* by the library: the plain program has not all fields */
    pluck_encode(q.p, q.points, q.n, q.message, q.k, q.word, sizeof q.word);
    shuffle(wrong, n);
    for (int i = 0; i < errors; i++) q.word[wrong[i]] = (uint8_t)((q.word[wrong[i]] + 1 + (int)any((unsigned)p - 1)) % p);
    return q;
}

void any_word(request *q) {
    for (int s = 0; s < q->n; s++) q->word[s] = (uint8_t)any(q->p);
}

/* ---- the library and the second program ---- */

typedef struct {
    uint8_t (*encode)(uint8_t, const uint8_t *, size_t, const uint8_t *, size_t, uint8_t *, size_t);
    uint8_t (*start)(uint8_t, const uint8_t *, size_t, const uint8_t *, size_t, uint8_t, uint8_t, uint8_t, uint8_t *, size_t, uint8_t *, size_t);
    uint8_t (*turn)(uint8_t *, size_t, uint8_t *, size_t, uint16_t, uint8_t *, size_t);
    uint8_t (*finish)(const uint8_t *, size_t, const uint8_t *, size_t, uint8_t *, size_t, uint8_t *, size_t);
    uint8_t (*list)(uint8_t, const uint8_t *, size_t, const uint8_t *, size_t, uint8_t, uint8_t, uint8_t, uint8_t, uint8_t *, size_t, uint8_t *,
                    size_t, uint8_t *, size_t);
} calls;

static const calls LIBRARY_CALLS = {pluck_encode, pluck_start, pluck_turn, pluck_finish, pluck_list};
static const calls SECOND_CALLS = {second_encode, second_start, second_turn, second_finish, second_list};

static uint8_t call_turn(const calls *c, side *s, int allowance) {
    return c->turn(s->note, sizeof s->note, s->rows, sizeof s->rows, (uint16_t)allowance, s->back, sizeof s->back);
}

static uint8_t call(const calls *c, int job, const request *q, side *s) {
    switch (job) {
    case ENCODE: return c->encode(q->p, q->points, q->n, q->message, q->k, s->word, sizeof s->word);
    case START: return c->start(q->p, q->points, q->n, q->word, q->n, q->k, q->m, q->l, s->rows, sizeof s->rows, s->note, sizeof s->note);
    case TURN: return call_turn(c, s, PLUCK_ALLOWANCE_MOST);
    case FINISH: return c->finish(s->note, sizeof s->note, s->rows, sizeof s->rows, s->curve, sizeof s->curve, s->back, sizeof s->back);
    case INTERPOLATION: return call(c, START, q, s), call(c, TURN, q, s), call(c, FINISH, q, s);
    default:
        return c->list(q->p, q->points, q->n, q->word, q->n, q->k, q->m, q->l, q->t, s->room, sizeof s->room, s->messages, sizeof s->messages,
                       s->back, sizeof s->back);
    }
}

/* ---- the plain program, its results in the library's places ---- */

static plain_note note_of(const side *s) { return (plain_note){s->note[0], s->note[1], s->note[2], s->note[3], s->note[4], s->note[5]}; }

static void keep_note(side *s, plain_note n) { memcpy(s->note, (uint8_t[]){n.p, n.n, n.k, n.m, n.l, n.r}, sizeof s->note); }

static void keep_back(side *s, int number, int updates, int weight, int height, int count) {
    uint8_t low = (uint8_t)(updates % 256), high = (uint8_t)(updates / 256);
    s->number = (uint8_t)number;
    memcpy(s->back, (uint8_t[]){low, high, (uint8_t)weight, (uint8_t)height, (uint8_t)count}, sizeof s->back);
}

static void plain_turn_of(side *s, int allowance) {
    plain_note note = note_of(s);
    keep_back(s, 0, plain_turn(&note, s->rows, allowance), 0, 0, 0);
    keep_note(s, note);
}

static void plain_finish_of(side *s) {
    plain_finished f = plain_finish(note_of(s), s->rows, s->curve);
    keep_back(s, 0, 0, f.weight, f.height, 0);
}

static void plain_list_of(const request *q, side *s) {
    plain_listed a = plain_list(q->p, q->points, q->word, q->n, q->k, q->m, q->l, q->t, s->messages);
    keep_back(s, a.number, a.updates, a.weight, 0, a.count);
}

static void plain(int job, const request *q, side *s) {
    s->number = 0;
    switch (job) {
    case ENCODE: plain_encode(q->p, q->points, q->n, q->message, q->k, s->word); break;
    case START: keep_note(s, plain_start(q->p, q->points, q->word, q->n, q->k, q->m, q->l, s->rows)); break;
    case TURN: plain_turn_of(s, PLUCK_ALLOWANCE_MOST); break;
    case FINISH: plain_finish_of(s); break;
    case INTERPOLATION: plain(START, q, s), plain(TURN, q, s), plain(FINISH, q, s); break;
    default: plain_list_of(q, s);
    }
}

/* ---- one of the three ---- */

const char *const JOB[JOBS] = {"encode", "start", "turn to the end", "finish", "start to finish", "list"};

static const calls *calls_of(int program) { return program == LIBRARY ? &LIBRARY_CALLS : &SECOND_CALLS; }

void run(int program, int job, const request *q, side *s) {
    if (program == PLAIN)
        plain(job, q, s);
    else
        s->number = call(calls_of(program), job, q, s);
}

void run_turn(int program, side *s, int allowance) {
    if (program == PLAIN)
        plain_turn_of(s, allowance);
    else
        s->number = call_turn(calls_of(program), s, allowance);
}

/* ---- comparing and measuring ---- */

static int all_zero(const uint8_t *xs, size_t count) {
    for (size_t i = 0; i < count; i++)
        if (xs[i] != 0) return 0;
    return 1;
}

/* Every room was zero at first, and a list leaves the working room zero. */
void compare(int job, const request *q, const side *one, const side *other) {
    if (memcmp(one, other, offsetof(side, room)) == 0 && all_zero(one->room, sizeof one->room) && all_zero(other->room, sizeof other->room)) return;
    printf("%s: different bytes at p=%d n=%d k=%d m=%d l=%d t=%d\n", JOB[job], q->p, q->n, q->k, q->m, q->l, q->t);
    exit(1);
}

double processor_time(void) {
    struct timespec t;
    clock_gettime(CLOCK_PROCESS_CPUTIME_ID, &t);
    return (double)t.tv_sec * 1e9 + (double)t.tv_nsec;
}

static double measure_one(int program, int job, const request *q, side *s, int calls) {
    double begin = processor_time();
    for (int i = 0; i < calls; i++) run(program, job, q, s);
    return (processor_time() - begin) / calls;
}

times measure(int programs, int job, const request *q, const side *before, int rounds, int calls) {
    static side left[PROGRAMS];
    times best = {{1e18, 1e18, 1e18}};
    for (int i = 0; i < rounds; i++)
        for (int program = 0; program < programs; program++) {
            left[program] = *before;
            double ns = measure_one(program, job, q, &left[program], calls);
            if (ns < best.of[program]) best.of[program] = ns;
        }
    for (int program = 1; program < programs; program++) compare(job, q, &left[LIBRARY], &left[program]);
    return best;
}
