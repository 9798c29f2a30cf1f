/* Tables in Markdown: a head, then a line for each row. All cells of a column are as wide as its title. */
#ifndef TABLE_H
#define TABLE_H

/* A column of numbers, with so many decimals. */
typedef struct {
    const char *title;
    int decimals;
} column;

/* With a title for them, names stand before the numbers; else it is null. */
typedef struct {
    const char *names;
    int columns;
    const column *column;
} table;

void print_head(const table *t);

/* The row's name, null where the table has none, and a number for each column. */
void print_row(const table *t, const char *name, const double *numbers);

#endif
