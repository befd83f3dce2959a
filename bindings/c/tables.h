/* tables.h: the buffers of one emission, in the demo and the tests. */
#ifndef TABLES_H
#define TABLES_H

#include "s390x.h"

#include <stdio.h>

/* Buffers with room for the sizes, each of at least one entry, so that no pointer is null. False where there is no memory. */
bool make_buffers(const s390x_sizes *sizes, s390x_buffers *out);

void free_buffers(s390x_buffers *buffers);

/* The lines of `./s390x emit`. */
void print_tables(FILE *to, const s390x_buffers *buffers, const s390x_sizes *sizes);

#endif
