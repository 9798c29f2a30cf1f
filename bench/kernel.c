/* Times the row update of crates/kernels on 64 symbols of the field of 31 and of the field of 16, each against a plain loop, and compares their
   bytes over all fields. Times the inverse against the same power with remainders, and looks whether it is one at all symbols of all fields. */
#include "fields.h"
#include <stdio.h>
#include <stdlib.h>
#include <string.h>
#include <time.h>

/* A slice is passed as its address and its length. */
typedef void kernel(uint8_t *rows, size_t rows_len, size_t to, size_t from, size_t len, uint8_t c, uint8_t p);
kernel kernel_subtract, kernel_remainder;
typedef uint8_t inverse(uint8_t a, uint8_t p);
inverse kernel_inverse;

enum { P = 31, SIXTEEN = 16, SYMBOLS = 64, ROOM = 2 * SYMBOLS, CALLS = 20000, ROUNDS = 50 };

/* a times b in the field of 16: a times x^i for each x^i that b has, and each time that a has x^4, it is less x^4 + x + 1. */
static uint8_t bit_product(uint8_t a, uint8_t b) {
    uint8_t sum = 0;
    for (; b > 0; b /= 2) {
        if (b % 2 == 1) sum ^= a;
        a = (uint8_t)(2 * a);
        if (a >= 16) a ^= 16 + 2 + 1;
    }
    return sum;
}

static uint8_t PRODUCTS[SIXTEEN][SIXTEEN];

static void fill_products(void) {
    for (uint8_t a = 0; a < SIXTEEN; a++)
        for (uint8_t b = 0; b < SIXTEEN; b++) PRODUCTS[a][b] = bit_product(a, b);
}

/* The row update in the field of 16, by a table of products. */
__attribute__((noipa)) static void table_subtract(uint8_t *rows, size_t rows_len, size_t to, size_t from, size_t len, uint8_t c, uint8_t p) {
    (void)rows_len, (void)p;
    for (size_t i = 0; i < len; i++) rows[to + i] ^= PRODUCTS[c][rows[from + i]];
}

/* The plain loop of a field. */
static kernel *plain_of(uint8_t p) { return p == SIXTEEN ? table_subtract : kernel_remainder; }

static void fill(uint8_t *rows, uint8_t p) {
    for (int i = 0; i < ROOM; i++) rows[i] = (uint8_t)(rand() % p);
}

/* Both loops on the same bytes, at every field, every factor and every length, upwards and downwards. */
static void compare(void) {
    uint8_t a[ROOM], b[ROOM];
    long cases = 0;
    for (size_t f = 0; f < sizeof FIELDS; f++) {
        uint8_t p = FIELDS[f];
        for (uint8_t c = 0; c < p; c++)
            for (size_t len = 0; len <= SYMBOLS; len++)
                for (int down = 0; down < 2; down++) {
                    size_t to = down ? SYMBOLS : 0, from = down ? 0 : SYMBOLS;
                    fill(a, p);
                    memcpy(b, a, ROOM);
                    kernel_subtract(a, ROOM, to, from, len, c, p);
                    plain_of(p)(b, ROOM, to, from, len, c, p);
                    if (memcmp(a, b, ROOM) != 0) {
                        printf("different bytes: p=%d c=%d len=%zu\n", p, c, len);
                        exit(1);
                    }
                    cases++;
                }
    }
    printf("same bytes in %ld cases\n", cases);
}

static int product(uint8_t a, uint8_t b, uint8_t p) { return p == SIXTEEN ? bit_product(a, b) : a * b % p; }

/* Each symbol of each field times its inverse is 1, and the inverse of 0 is 0. */
static void invert(void) {
    int symbols = 0;
    for (size_t f = 0; f < sizeof FIELDS; f++) {
        uint8_t p = FIELDS[f];
        for (uint8_t a = 0; a < p; a++) {
            uint8_t b = kernel_inverse(a, p);
            if (a == 0 ? b != 0 : b >= p || product(a, b, p) != 1) {
                printf("no inverse: p=%d a=%d gives %d\n", p, a, b);
                exit(1);
            }
            symbols++;
        }
    }
    printf("%d inverses are right\n", symbols);
}

static double elapsed(void) {
    struct timespec t;
    clock_gettime(CLOCK_MONOTONIC, &t);
    return (double)t.tv_sec * 1e9 + (double)t.tv_nsec;
}

/* Nanoseconds per symbol in one round of calls. The factors are by chance, so that no loop gains by guessing at their bits. */
static double round_of(kernel *k, uint8_t p) {
    static uint8_t rows[ROOM], factors[CALLS];
    fill(rows, p);
    for (int i = 0; i < CALLS; i++) factors[i] = (uint8_t)(1 + rand() % (p - 1));
    double begin = elapsed();
    for (int i = 0; i < CALLS; i++) k(rows, ROOM, 0, SYMBOLS, SYMBOLS, factors[i], p);
    return (elapsed() - begin) / ((double)CALLS * SYMBOLS);
}

/* The power p - 2 by squaring, with a remainder for each product. */
__attribute__((noipa)) static uint8_t remainder_inverse(uint8_t a, uint8_t p) {
    unsigned result = 1, base = a;
    for (unsigned left = p - 2u; left > 0; left /= 2) {
        if (left % 2 == 1) result = result * base % p;
        base = base * base % p;
    }
    return (uint8_t)result;
}

/* Nanoseconds per inverse in one round of calls, each of which waits for the answer of the one before. */
static double waiting_round(inverse *of, uint8_t p) {
    uint8_t a = 2;
    double begin = elapsed();
    for (int i = 0; i < CALLS; i++) a = of(a, p);
    double ns = (elapsed() - begin) / CALLS;
    if (a != 2) printf("the inverse of an inverse is not the symbol\n"), exit(1);
    return ns;
}

/* The same where none waits. */
static double loose_round(inverse *of) {
    double begin = elapsed();
    for (int i = 0; i < CALLS; i++) of((uint8_t)(1 + i % (P - 1)), P);
    return (elapsed() - begin) / CALLS;
}

static void least(double *best, double ns) {
    if (ns < *best) *best = ns;
}

int main(void) {
    double fast = 1e9, plain = 1e9, sixteen = 1e9, table = 1e9, waiting = 1e9, waiting_sixteen = 1e9, loose = 1e9, divided = 1e9;
    fill_products();
    compare();
    invert();
    /* in turns, so that all see the same machine; the fastest round of each counts */
    for (int i = 0; i < ROUNDS; i++) {
        least(&fast, round_of(kernel_subtract, P));
        least(&plain, round_of(kernel_remainder, P));
        least(&sixteen, round_of(kernel_subtract, SIXTEEN));
        least(&table, round_of(table_subtract, SIXTEEN));
        least(&waiting, waiting_round(kernel_inverse, P));
        least(&waiting_sixteen, waiting_round(kernel_inverse, SIXTEEN));
        least(&divided, waiting_round(remainder_inverse, P));
        least(&loose, loose_round(kernel_inverse));
    }
    printf("field of 31: kernel_subtract   %.3f ns a symbol\n", fast);
    printf("             kernel_remainder  %.3f ns a symbol\n", plain);
    printf("             ratio=%.1f\n", plain / fast);
    printf("field of 16: kernel_subtract   %.3f ns a symbol\n", sixteen);
    printf("             table_subtract    %.3f ns a symbol\n", table);
    printf("             over kernel_subtract in the field of 31: ratio=%.2f\n", sixteen / fast);
    printf("field of 31: kernel_inverse    %.1f ns where each waits for the one before, %.1f ns where none waits\n", waiting, loose);
    printf("             with remainders   %.1f ns where each waits for the one before\n", divided);
    printf("             ratio=%.1f\n", divided / waiting);
    printf("field of 16: kernel_inverse    %.1f ns where each waits for the one before\n", waiting_sixteen);
    return plain / fast < 5.0 || sixteen / fast > 2.0 || divided / waiting < 1.0;
}
