/* The field sizes (docs/RULES.md). */
#ifndef FIELDS_H
#define FIELDS_H
#include <stdint.h>

static const uint8_t FIELDS[] = {3, 5, 7, 11, 13, 16, 17, 19, 23, 29, 31};

#endif
