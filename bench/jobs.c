/* The library against the plain program and the second program, job by job: first every byte compared, then the time of each. Prints tables, and
   ends with status 1 if a byte differs, or if interpolation or the list takes the library more than twice the plain program's time at any
   count of errors. In the field of 16 the second program is compared in place of the plain one, and the library's times stand beside those of
   the field of 17. */
#include "fields.h"
#include "programs.h"
#include "table.h"
#include <stdio.h>
#include <stdlib.h>
#include <string.h>

/* Of a departure up to 15 symbols are wrong. */
enum { ERRORS = 15, T = N - ERRORS, WORDS = 3, CASES = 2000, SIXTEEN = 16, NEXT = 17 };

/* ---- the same bytes ---- */

static request any_setting(void) {
    int p = FIELDS[any(sizeof FIELDS)], n = 3 + (int)any((unsigned)p - 2), k = 2 + (int)any((unsigned)n - 2);
    int m = 1 + (int)any(PLUCK_MULTIPLICITY_MOST), l = m + (int)any((unsigned)(PLUCK_HEIGHT_MOST + 1 - m)), t = 1 + (int)any((unsigned)n);
    request q = any_request(p, n, k, m, l, t, (int)any((unsigned)n / 2 + 1));
    if (any(4) == 0) any_word(&q);
    return q;
}

/* The plain program counts modulo p. In the field of 16 the second program is there in its place. */
static int rival(const request *q) { return q->p == SIXTEEN ? SECOND : PLAIN; }

static void run_both(int job, const request *q, side *library, side *other) {
    run(LIBRARY, job, q, library);
    run(rival(q), job, q, other);
    compare(job, q, library, other);
}

/* All five jobs, the turns with allowances by chance; the number of the list. */
static int compare_case(const request *q) {
    static side library, other;
    memset(&library, 0, sizeof library);
    memset(&other, 0, sizeof other);
    run_both(ENCODE, q, &library, &other);
    run_both(START, q, &library, &other);
    while (library.note[PLUCK_NOTE_R] <= q->l) {
        int allowance = (int)any(60);
        run_turn(LIBRARY, &library, allowance);
        run_turn(rival(q), &other, allowance);
        compare(TURN, q, &library, &other);
    }
    run_both(FINISH, q, &library, &other);
    run_both(LIST, q, &library, &other);
    return library.number;
}

static void compare_all(void) {
    int listed = 0;
    for (int i = 0; i < CASES; i++) {
        request q = any_setting();
        listed += compare_case(&q) == PLUCK_DONE;
    }
    printf("The same bytes after every call in %d requests over all fields; %d of them had a list, the others number 13.\n\n", CASES, listed);
}

/* ---- the jobs, by errors ---- */

/* Nanoseconds and outcomes, added up over some words. */
typedef struct {
    times of[JOBS];
    int words, updates, weight, count;
} measured;

static double ratio(times t) { return t.of[LIBRARY] / t.of[PLAIN]; }

/* The greatest ratio of each job so far. */
static double worst[JOBS];

static void judge(const measured *s) {
    for (int j = 0; j < JOBS; j++)
        if (ratio(s->of[j]) > worst[j]) worst[j] = ratio(s->of[j]);
}

static void add_times(times *sum, const times *t) {
    for (int program = 0; program < PROGRAMS; program++) sum->of[program] += t->of[program];
}

/* How many of the programs are measured, and in how many rounds. */
typedef struct {
    int programs, rounds;
} manner;

static const manner WITH_PLAIN = {2, 15};
/* The second program is slow. */
static const manner WITH_SECOND = {3, 3};

static void measure_job(measured *sum, manner how, int job, const request *q, const side *before, int calls) {
    times t = measure(how.programs, job, q, before, how.rounds, calls);
    add_times(&sum->of[job], &t);
}

static void measure_word(measured *sum, manner how, const request *q) {
    static side s;
    memset(&s, 0, sizeof s);
    measure_job(sum, how, ENCODE, q, &s, 500);
    measure_job(sum, how, START, q, &s, 1);
    measure_job(sum, how, INTERPOLATION, q, &s, 1);
    measure_job(sum, how, LIST, q, &s, 1);
    run(LIBRARY, LIST, q, &s);
    sum->words++;
    sum->updates += pluck_updates(s.back);
    sum->weight += s.back[PLUCK_BACK_WEIGHT];
    sum->count += s.back[PLUCK_BACK_COUNT];
    run(LIBRARY, START, q, &s);
    measure_job(sum, how, TURN, q, &s, 1);
    run(LIBRARY, TURN, q, &s);
    measure_job(sum, how, FINISH, q, &s, 20);
}

/* The library's times beside those of another program. */
static void print_jobs(const measured *s, int program) {
    static const char *const TIME[PROGRAMS] = {"library us", " plain us", "second us"};
    const column columns[] = {{TIME[LIBRARY], 1}, {TIME[program], 1}, {"ratio", 2}};
    const table jobs = {"job            ", 3, columns};
    print_head(&jobs);
    for (int j = 0; j < JOBS; j++) {
        const double *ns = s->of[j].of;
        print_row(&jobs, JOB[j], (double[]){ns[LIBRARY] / s->words / 1000, ns[program] / s->words / 1000, ns[LIBRARY] / ns[program]});
    }
    printf("\n");
}

static const column BY_ERRORS_COLUMNS[] = {{"errors", 0}, {"updates", 0}, {"weight", 1}, {"on the list", 1}, {"start to finish", 2}, {"list", 2}};
static const table BY_ERRORS = {NULL, 6, BY_ERRORS_COLUMNS};

static void print_errors(int errors, const measured *s) {
    double updates = s->updates, weight = s->weight, count = s->count;
    print_row(&BY_ERRORS, NULL,
              (double[]){errors, updates / s->words, weight / s->words, count / s->words, ratio(s->of[INTERPOLATION]), ratio(s->of[LIST])});
}

static void add(measured *sum, const measured *s) {
    for (int j = 0; j < JOBS; j++) add_times(&sum->of[j], &s->of[j]);
    sum->words += s->words;
}

static measured by_errors(void) {
    measured all = {0};
    print_head(&BY_ERRORS);
    for (int errors = 0; errors <= ERRORS; errors++) {
        measured s = {0};
        for (int i = 0; i < WORDS; i++) {
            request q = any_request(P, N, K, M, L, T, errors);
            measure_word(&s, WITH_PLAIN, &q);
        }
        print_errors(errors, &s);
        judge(&s);
        add(&all, &s);
    }
    return all;
}

static measured with_second(void) {
    measured s = {0};
    for (int errors = 0; errors <= ERRORS; errors += 5) {
        request q = any_request(P, N, K, M, L, T, errors);
        measure_word(&s, WITH_SECOND, &q);
    }
    return s;
}

/* ---- l messages on the list ---- */

/* A place for each x where two or more of the lines meet; gives the fewest places that a line has. */
static int meet(const uint8_t lines[L][2], request *q) {
    int on[L] = {0}, least = P;
    q->n = 0;
    for (int x = 0; x < P; x++) {
        int through[P] = {0}, best = 0;
        for (int i = 0; i < L; i++) through[(lines[i][0] + lines[i][1] * x) % P]++;
        for (int y = 1; y < P; y++)
            if (through[y] > through[best]) best = y;
        if (through[best] < 2) continue;
        for (int i = 0; i < L; i++) on[i] += (lines[i][0] + lines[i][1] * x) % P == best;
        q->points[q->n] = (uint8_t)x;
        q->word[q->n++] = (uint8_t)best;
    }
    for (int i = 0; i < L; i++)
        if (on[i] < least) least = on[i];
    return least;
}

/* A word on l lines, two or more of them through each place. Their product passes every place twice and weighs l, so with m = 2 a list is sure to
   have all that have more than l/2 places; here each line has. */
static request on_lines(void) {
    request q = {P, 0, 2, 2, L, L / 2 + 1, {0}, {0}, {0}};
    uint8_t lines[L][2];
    do
        for (int i = 0; i < L; i++) lines[i][0] = (uint8_t)any(P), lines[i][1] = (uint8_t)i;
    while (meet(lines, &q) < q.t);
    memcpy(q.message, lines[0], 2);
    return q;
}

static measured many_roots(void) {
    measured s = {0};
    request q = on_lines();
    measure_word(&s, WITH_PLAIN, &q);
    printf("Field %d, n = %d, k = %d, m = %d, l = %d, t = %d: ", q.p, q.n, q.k, q.m, q.l, q.t);
    printf("weight %d, %d updates, %d messages on the list.\n\n", s.weight, s.updates, s.count);
    if (s.count != L) {
        printf("not l messages on the list\n");
        exit(1);
    }
    judge(&s);
    return s;
}

/* ---- the field of 16 beside the next prime ---- */

static const manner ALONE = {1, 15};

/* A word by chance in every symbol, at sixteen points of this field. */
static void measure_sixteen(measured *sum, int p) {
    request q = any_request(p, SIXTEEN, 4, M, L, SIXTEEN, 0);
    any_word(&q);
    measure_word(sum, ALONE, &q);
}

static void sixteen_symbols(void) {
    static const column columns[] = {{"field 16 us", 1}, {"field 17 us", 1}, {"ratio", 2}};
    const table jobs = {"job            ", 3, columns};
    measured sixteen = {0}, next = {0};
    for (int i = 0; i < WORDS; i++) measure_sixteen(&sixteen, SIXTEEN), measure_sixteen(&next, NEXT);
    printf("n = %d, k = 4, m = %d, l = %d, %d words of symbols by chance: ", SIXTEEN, M, L, WORDS);
    printf("%d updates a word in the field of 16, %d in that of 17.\n\n", sixteen.updates / WORDS, next.updates / WORDS);
    print_head(&jobs);
    for (int j = 0; j < JOBS; j++) {
        double a = sixteen.of[j].of[LIBRARY] / WORDS / 1000, b = next.of[j].of[LIBRARY] / WORDS / 1000;
        print_row(&jobs, JOB[j], (double[]){a, b, a / b});
    }
    printf("\n");
}

int main(void) {
    compare_all();
    printf("### Words with 0 to %d errors\n\n", ERRORS);
    printf("Field %d, n = %d, k = %d, m = %d, l = %d, t = %d; %d words to a line. ", P, N, K, M, L, T, WORDS);
    printf("The last two columns are library/plain.\n\n");
    measured all = by_errors();
    printf("\nAll of these words, by the word:\n\n");
    print_jobs(&all, PLAIN);
    printf("Words of 0, 5, 10 and 15 errors, against the second program:\n\n");
    measured second = with_second();
    print_jobs(&second, SECOND);
    printf("### As many messages as a list can have\n\n");
    measured many = many_roots();
    print_jobs(&many, PLAIN);
    printf("### Sixteen symbols\n\n");
    sixteen_symbols();
    printf("The worst of all lines, each to be at most 2: interpolation=%.2f list=%.2f\n\n", worst[INTERPOLATION], worst[LIST]);
    return worst[INTERPOLATION] > 2 || worst[LIST] > 2;
}
