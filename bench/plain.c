/* The baseline: the rules (docs/RULES.md) in plain C. Symbols are bytes, the modulus is %, loops are loops; the one table is that of inverses.
   No function here is taken from the library, and none of its speed comes from anything but the compiler. */
#include "plain.h"
#include <string.h>

/* The symbols of the largest field and one more: so many coefficients has e. */
enum { SIZE = PLAIN_FIELD_MOST + 1 };

static int inverse(int p, int a) {
    static uint8_t table[SIZE][SIZE];
    if (table[p][1] == 0)
        for (int x = 1; x < p; x++)
            for (int y = 1; y < p; y++)
                if (x * y % p == 1) table[p][x] = (uint8_t)y;
    return table[p][a];
}

static int value(int p, const uint8_t *f, int size, int a) {
    int sum = 0;
    for (int i = size - 1; i >= 0; i--) sum = (sum * a + f[i]) % p;
    return sum;
}

void plain_encode(int p, const uint8_t *points, int n, const uint8_t *message, int k, uint8_t *word) {
    for (int s = 0; s < n; s++) word[s] = (uint8_t)value(p, message, k, points[s]);
}

/* ---- start ---- */

/* h through the received places, and e, the product of x - point: one place after the other. */
static void interpolate(int p, const uint8_t *points, const uint8_t *word, int n, uint8_t *h, uint8_t *e) {
    memset(h, 0, SIZE);
    memset(e, 0, SIZE);
    e[0] = 1;
    for (int s = 0; s < n; s++) {
        int a = points[s];
        int c = (word[s] + p - value(p, h, s, a)) * inverse(p, value(p, e, s + 1, a)) % p;
        for (int i = 0; i <= s; i++) h[i] = (uint8_t)((h[i] + c * e[i]) % p);
        for (int i = s + 1; i > 0; i--) e[i] = (uint8_t)((e[i - 1] + (p - a) * e[i]) % p);
        e[0] = (uint8_t)((p - a) * e[0] % p);
    }
}

/* f times g, in place and as far as the slot goes; from the highest power down, so that what is read is still as it was. */
static void multiply(int p, uint8_t *f, int slot, const uint8_t *g, int degree) {
    for (int i = slot - 1; i >= 0; i--) {
        int top = i < degree ? i : degree, sum = 0;
        for (int q = 0; q <= top; q++) sum += g[q] * f[i - q];
        f[i] = (uint8_t)(sum % p);
    }
}

/* The curve, of this height, times y - h. */
static void times_y_less_h(int p, uint8_t *curve, int slot, int height, const uint8_t *minus_h, int n) {
    memcpy(curve + (height + 1) * slot, curve + height * slot, (size_t)slot);
    for (int j = height; j >= 0; j--) {
        uint8_t *f = curve + j * slot;
        multiply(p, f, slot, minus_h, n - 1);
        if (j > 0)
            for (int i = 0; i < slot; i++) f[i] = (uint8_t)((f[i] + f[i - slot]) % p);
    }
}

plain_note plain_start(int p, const uint8_t *points, const uint8_t *word, int n, int k, int m, int l, uint8_t *rows) {
    uint8_t h[SIZE], e[SIZE];
    int slot = m * n + (l - m) * (k - 1) + 1, curve = (l + 1) * slot;
    interpolate(p, points, word, n, h, e);
    for (int i = 0; i < n; i++) h[i] = (uint8_t)((p - h[i]) % p);
    memset(rows, 0, (size_t)((l + 1) * curve));
    for (int i = 0; i <= m; i++) {
        uint8_t *row = rows + i * curve;
        row[0] = 1;
        for (int q = 0; q < m - i; q++) multiply(p, row, slot, e, n);
        for (int q = 0; q < i; q++) times_y_less_h(p, row, slot, q, h, n);
    }
    for (int i = m + 1; i <= l; i++) memcpy(rows + i * curve + slot, rows + (i - 1) * curve, (size_t)(curve - slot));
    return (plain_note){(uint8_t)p, (uint8_t)n, (uint8_t)k, (uint8_t)m, (uint8_t)l, 1};
}

/* ---- turn ---- */

typedef struct {
    int weight, power;
} lead;

/* The degree of the x-polynomial f, of at most `top`; -1 if it is zero. */
static int degree(const uint8_t *f, int top) {
    while (top >= 0 && f[top] == 0) top--;
    return top;
}

/* The leading term of a curve of height at most `height`. Powers of y go down, so that of equal weights the larger power stays. */
static lead leading(const uint8_t *curve, int W, int u, int height) {
    lead best = {-1, 0};
    for (int j = height; j >= 0; j--) {
        int d = degree(curve + j * (W + 1), W - u * j);
        if (d >= 0 && d + u * j > best.weight) best = (lead){d + u * j, j};
    }
    return best;
}

/* Row r becomes row r - c x^d row s. Both are of height at most r. */
static void take_off(int p, uint8_t *row_r, const uint8_t *row_s, int W, int r, int c, int d) {
    for (int j = 0; j <= r; j++) {
        uint8_t *f = row_r + j * (W + 1);
        const uint8_t *g = row_s + j * (W + 1);
        for (int i = d; i <= W; i++) f[i] = (uint8_t)((f[i] + (p - c) * g[i - d]) % p);
    }
}

/* Row s becomes the old row r, and row r becomes x^d row r - c row s with both rows as they were. */
static void cross(int p, uint8_t *row_r, uint8_t *row_s, int W, int r, int c, int d) {
    for (int j = 0; j <= r; j++) {
        uint8_t *f = row_r + j * (W + 1), *g = row_s + j * (W + 1);
        for (int i = W; i >= 0; i--) {
            int old = f[i];
            f[i] = (uint8_t)(((i < d ? 0 : f[i - d]) + (p - c) * g[i]) % p);
            g[i] = (uint8_t)old;
        }
    }
}

int plain_turn(plain_note *note, uint8_t *rows, int allowance) {
    int p = note->p, u = note->k - 1, l = note->l, r = note->r, made = 0;
    int W = note->m * note->n + (l - note->m) * u, curve = (l + 1) * (W + 1);
    while (r <= l) {
        uint8_t *row_r = rows + r * curve;
        lead at = leading(row_r, W, u, r);
        int s = at.power;
        if (s == r) {
            r++;
            continue;
        }
        if (made == allowance) break;
        uint8_t *row_s = rows + s * curve;
        const uint8_t *A = row_r + s * (W + 1), *B = row_s + s * (W + 1);
        int a = at.weight - u * s, b = degree(B, W - u * s);
        int c = A[a] * inverse(p, B[b]) % p;
        if (a >= b)
            take_off(p, row_r, row_s, W, r, c, a - b);
        else
            cross(p, row_r, row_s, W, r, c, b - a);
        made++;
    }
    note->r = (uint8_t)r;
    return made;
}

/* ---- finish ---- */

plain_finished plain_finish(plain_note note, const uint8_t *rows, uint8_t *curve) {
    int p = note.p, u = note.k - 1, l = note.l;
    int W = note.m * note.n + (l - note.m) * u, size = (l + 1) * (W + 1);
    int row = 0;
    lead least = leading(rows, W, u, l);
    for (int i = 1; i <= l; i++) {
        lead at = leading(rows + i * size, W, u, l);
        if (at.weight < least.weight || (at.weight == least.weight && at.power < least.power)) {
            row = i;
            least = at;
        }
    }
    const uint8_t *from = rows + row * size;
    int c = inverse(p, from[least.power * (W + 1) + least.weight - u * least.power]);
    for (int i = 0; i < size; i++) curve[i] = (uint8_t)(from[i] * c % p);
    int height = l;
    while (height > 0 && degree(curve + height * (W + 1), W) < 0) height--;
    return (plain_finished){least.weight, height};
}

/* ---- list ---- */

typedef struct {
    int p, n, k, t, W, height;
    const uint8_t *points, *word;
    uint8_t curve[PLAIN_CURVE_MOST], chosen[SIZE];
    uint8_t *messages;
    int count;
} search;

/* The coefficient of x^v y^j in the curve with x^i y for y. */
static int symbol_at(const search *q, int i, int v, int j) {
    int e = v - i * j;
    return e < 0 || e > q->W ? 0 : q->curve[j * (q->W + 1) + e];
}

/* The highest power of x that divides it. */
static int lowest(const search *q, int i) {
    for (int v = 0; v <= q->W; v++)
        for (int j = 0; j <= q->height; j++)
            if (symbol_at(q, i, v, j) != 0) return v;
    return q->W + 1;
}

/* y becomes y + c x^i. */
static void shift(search *q, int i, int c) {
    int slot = q->W + 1;
    for (int top = q->height - 1; top >= 0; top--)
        for (int j = top; j < q->height; j++) {
            uint8_t *f = q->curve + j * slot;
            for (int e = i; e < slot; e++) f[e] = (uint8_t)((f[e] + c * f[slot + e - i]) % q->p);
        }
}

static void keep(search *q) {
    int agreements = 0;
    for (int s = 0; s < q->n; s++) agreements += value(q->p, q->chosen, q->k, q->points[s]) == q->word[s];
    if (agreements < q->t) return;
    memcpy(q->messages + q->count * q->k, q->chosen, (size_t)q->k);
    q->count++;
}

static void level(search *q, int i) {
    uint8_t left[PLAIN_HEIGHT_MOST + 1];
    int v = lowest(q, i);
    for (int j = 0; j <= q->height; j++) left[j] = (uint8_t)symbol_at(q, i, v, j);
    for (int c = 0; c < q->p; c++) {
        if (value(q->p, left, q->height + 1, c) != 0) continue;
        q->chosen[i] = (uint8_t)c;
        if (i + 1 == q->k) {
            keep(q);
        } else {
            shift(q, i, c);
            level(q, i + 1);
            shift(q, i, q->p - c);
        }
    }
}

plain_listed plain_list(int p, const uint8_t *points, const uint8_t *word, int n, int k, int m, int l, int t, uint8_t *messages) {
    uint8_t rows[PLAIN_ROWS_MOST];
    search q = {.p = p, .n = n, .k = k, .t = t, .W = m * n + (l - m) * (k - 1), .points = points, .word = word, .messages = messages};
    plain_note note = plain_start(p, points, word, n, k, m, l, rows);
    int updates = plain_turn(&note, rows, PLAIN_ALLOWANCE_MOST);
    plain_finished f = plain_finish(note, rows, q.curve);
    if (m * t <= f.weight) return (plain_listed){13, 0, 0, 0};
    q.height = f.height;
    level(&q, 0);
    return (plain_listed){0, q.count, updates, f.weight};
}
