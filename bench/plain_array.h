// An array in plain C, to compare the library's with: stripes one after another, each a stripe buffer, and in the same
// order a status byte for each strip. Of arguments nothing is checked. A call with a work buffer, which has
// 4(p + 1)(p + 1) elements, clears it, and gives 0, or 13 where more strips of the stripe are out than can be solved.
#ifndef PLAIN_ARRAY_H
#define PLAIN_ARRAY_H
#include <stddef.h>
#include <stdint.h>

// Status bytes, the same as the library's.
enum { PLAIN_ABSENT, PLAIN_BLANK, PLAIN_HELD };

typedef struct {
    size_t p;
    size_t stripes;
    uint64_t *cells;
    uint8_t *statuses;
} plain_array;

// Sets all cells to zero and all strips that are not absent to held, and gives how many are out. Uses no work buffer.
size_t plain_format(plain_array array);

// Gives the element of a place.
int plain_read(plain_array array, size_t stripe, size_t place, uint64_t *work, uint64_t *element);

// Sets the element of a place, and gives how many strips of the stripe are out.
int plain_write(plain_array array, size_t stripe, size_t place, uint64_t element, uint64_t *work, size_t *out);

// Restores the blank strips of a stripe, and gives how many.
int plain_rebuild(plain_array array, size_t stripe, uint64_t *work, size_t *rebuilt);

// Takes a device away, and puts one in.
void plain_pull(plain_array array, size_t device);
void plain_fit(plain_array array, size_t device);

void plain_clear(size_t p, uint64_t *work);

#endif
