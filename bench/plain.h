// The code in plain C, to compare the library with. p is one of the ten primes; a stripe buffer has (p - 1)(p + 1) elements,
// column after column. Nothing is checked.
#ifndef PLAIN_H
#define PLAIN_H
#include <stddef.h>
#include <stdint.h>

void plain_encode(size_t p, const uint64_t *values, uint64_t *cells);

// Solves at most three lost columns, given as a mask.
void plain_solve(size_t p, uint64_t *cells, uint64_t lost);

#endif
