/* Tables in Markdown. */
#include "table.h"
#include <stdio.h>
#include <string.h>

static int width(const char *title) { return (int)strlen(title); }

void print_head(const table *t) {
    if (t->names) printf("| %s ", t->names);
    for (int i = 0; i < t->columns; i++) printf("| %s ", t->column[i].title);
    printf("|\n");
    if (t->names) printf("|---");
    for (int i = 0; i < t->columns; i++) printf("|---:");
    printf("|\n");
}

void print_row(const table *t, const char *name, const double *numbers) {
    if (t->names) printf("| %-*s ", width(t->names), name);
    for (int i = 0; i < t->columns; i++) printf("| %*.*f ", width(t->column[i].title), t->column[i].decimals, numbers[i]);
    printf("|\n");
    fflush(stdout);
}
