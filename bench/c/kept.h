/* Tables found by search, kept as text: a row's due slot and weight in each line. */
#ifndef KEPT_H
#define KEPT_H

#include "shapes.h"

/* The MOST_ROWS rows of one of the kept tables. */
void kept_rows(struct row *rows, uint64_t number);

#endif
