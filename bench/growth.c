/* How the work of an interpolation grows: updates against the formula, time per update against l, m and the width W, time to the end against the
   allowance, and the symbols that updates rewrite in a second against a bare loop over memory. Words are by chance in every symbol. */
#include "programs.h"
#include "table.h"
#include <stdio.h>
#include <stdlib.h>
#include <string.h>

enum { WORDS = 8, ROUNDS = 15 };

/* docs/RULES.md: (n-k) times the sum of r r for r = 1 to m, plus (n-k) m times the sum of r for r = m+1 to l. */
static int formula(const request *q) {
    int sum = 0;
    for (int r = 1; r <= q->l; r++) sum += r <= q->m ? r * r : q->m * r;
    return (q->n - q->k) * sum;
}

typedef struct {
    int least, most;
    double updates, library, plain; /* sums over the words */
} grown;

static grown grow(int n, int k, int m, int l, request *q) {
    static side started, ended;
    grown g = {PLUCK_UPDATES_MOST, 0, 0, 0, 0};
    memset(&started, 0, sizeof started);
    for (int i = 0; i < WORDS; i++) {
        *q = any_request(P, n, k, m, l, 1, 0);
        any_word(q);
        run(LIBRARY, START, q, &started);
        times t = measure(2, TURN, q, &started, ROUNDS, 1);
        ended = started;
        run(LIBRARY, TURN, q, &ended);
        int updates = pluck_updates(ended.back);
        if (updates < g.least) g.least = updates;
        if (updates > g.most) g.most = updates;
        g.updates += updates, g.library += t.of[LIBRARY], g.plain += t.of[PLAIN];
    }
    if (g.most > formula(q)) printf("more updates than the formula allows\n"), exit(1);
    return g;
}

static const column GROWTH_COLUMNS[] = {
    {" n", 0},           {" k", 0},        {"m", 0},            {"l", 0},           {"  W", 0},
    {"formula", 0},      {"least", 0},     {"mean", 0},         {"most", 0},
    {"most/formula", 2}, {"row bytes", 0}, {"ns an update", 1}, {"ns a symbol", 3}, {"library/plain", 2},
};
static const table GROWTH = {NULL, sizeof GROWTH_COLUMNS / sizeof *GROWTH_COLUMNS, GROWTH_COLUMNS};

/* A row of the table; nanoseconds a symbol. */
static double line(int n, int k, int m, int l) {
    request q;
    grown g = grow(n, k, m, l, &q);
    double bound = formula(&q), bytes = PLUCK_CURVE_BYTES(n, k, m, l), update = g.library / g.updates;
    print_row(&GROWTH, NULL,
              (double[]){n, k, m, l, PLUCK_W(n, k, m, l), bound, g.least, g.updates / WORDS, g.most, g.most / bound, bytes, update, update / bytes,
                         g.library / g.plain});
    return update / bytes;
}

/* ---- short turns ---- */

/* Turns of this allowance to the end, in nanoseconds; how many there were. */
static double in_turns(const side *started, int allowance, int *turns) {
    static side s;
    double best = 1e18;
    for (int i = 0; i < ROUNDS; i++) {
        s = *started;
        *turns = 0;
        double begin = processor_time();
        while (s.note[PLUCK_NOTE_R] <= s.note[PLUCK_NOTE_L]) {
            run_turn(LIBRARY, &s, allowance);
            ++*turns;
        }
        double ns = processor_time() - begin;
        if (ns < best) best = ns;
    }
    return best;
}

/* A turn tests all rows at its entry, so many short ones cost more than a long one. */
static void by_allowance(void) {
    static const int ALLOWANCES[] = {1, 10, 50, 250, 4000};
    static const column COLUMNS[] = {{"allowance", 0}, {"turns", 0}, {"us to the end", 0}, {"us a turn", 1}};
    static const table BY_ALLOWANCE = {NULL, 4, COLUMNS};
    static side started;
    request q = any_request(P, N, K, M, L, 1, 0);
    any_word(&q);
    memset(&started, 0, sizeof started);
    run(LIBRARY, START, &q, &started);
    print_head(&BY_ALLOWANCE);
    for (size_t i = 0; i < sizeof ALLOWANCES / sizeof *ALLOWANCES; i++) {
        int turns;
        double ns = in_turns(&started, ALLOWANCES[i], &turns);
        print_row(&BY_ALLOWANCE, NULL, (double[]){ALLOWANCES[i], turns, ns / 1000, ns / 1000 / turns});
    }
}

/* ---- the bare loop ---- */

__attribute__((noinline)) static void bare(uint8_t *to, const uint8_t *from, size_t len) {
    for (size_t i = 0; i < len; i++) to[i] = (uint8_t)(to[i] + from[i]);
}

/* Nanoseconds a byte, on two rows of the departure's setting that lie one after the other. */
static double bare_loop(size_t row) {
    static uint8_t rows[2 * PLUCK_CURVE_MOST];
    enum { CALLS = 10000, TIMES = 300 };
    double best = 1e18;
    for (int i = 0; i < TIMES; i++) {
        double begin = processor_time();
        for (int j = 0; j < CALLS; j++) bare(rows, rows + row, row);
        double ns = (processor_time() - begin) / ((double)CALLS * (double)row);
        if (ns < best) best = ns;
    }
    return best;
}

int main(void) {
    printf("### Against l\n\n");
    print_head(&GROWTH);
    for (int l = M; l <= L; l++) line(N, K, M, l);
    printf("\n### Against m\n\n");
    print_head(&GROWTH);
    for (int m = 1; m <= M; m++) line(N, K, m, L);
    printf("\n### Against W, by n\n\n");
    print_head(&GROWTH);
    for (int n = K + 1; n <= N; n += 6) line(n, K, M, L);
    printf("\n### Against W, by k\n\n");
    print_head(&GROWTH);
    for (int k = 2; k < N; k += 7) line(N, k, M, L);
    printf("\n### Against the allowance\n\nField %d, n = %d, k = %d, m = %d, l = %d, one word by chance.\n\n", P, N, K, M, L);
    by_allowance();
    printf("\n### Symbols a second\n\n");
    print_head(&GROWTH);
    double symbol = line(N, K, M, L), byte = bare_loop(PLUCK_CURVE_BYTES(N, K, M, L));
    printf("\nUpdates rewrite %.0f million symbols a second, ", 1e3 / symbol);
    printf("a bare loop that adds one row to another %.0f million bytes: ratio=%.3f\n\n", 1e3 / byte, byte / symbol);
    return 0;
}
