// Encoding by straight lines, to compare the library with: for p = 5, 11 and 31, each cell set by an expression of its
// own with constant indexes. Nothing is checked.
#ifndef STRAIGHT_H
#define STRAIGHT_H
#include <stddef.h>
#include <stdint.h>

void straight_encode(size_t p, const uint64_t *values, uint64_t *cells);

#endif
