#include "plain_array.h"
#include "plain.h"
#include <string.h>

#define MOST_LOST 3

typedef struct {
    size_t row;
    size_t column;
} cell;

// One stripe of an array: its cells and its status bytes.
typedef struct {
    size_t p;
    uint64_t *cells;
    uint8_t *statuses;
} stripe_of;

static stripe_of at(plain_array array, size_t stripe) {
    size_t p = array.p;
    return (stripe_of){p, array.cells + stripe * (p - 1) * (p + 1), array.statuses + stripe * (p + 1)};
}

static int is_held(stripe_of stripe, size_t column) { return stripe.statuses[column] == PLAIN_HELD; }

static uint64_t *cell_at(stripe_of stripe, cell at) { return stripe.cells + at.column * (stripe.p - 1) + at.row; }

// The two parity cells of a row stand in columns that add up to p. The numbers are small, and a division of 32 bits is
// the faster one.
static cell locate(size_t p, size_t place) {
    size_t row = (uint32_t)place / (uint32_t)(p - 2);
    size_t column = place - row * (p - 2);
    size_t first = row + 1 < p - 1 - row ? row + 1 : p - 1 - row;
    column += column >= first;
    column += column >= p - first;
    return (cell){row, column};
}

static size_t wrapped(size_t p, size_t number) { return number < p ? number : number - p; }

static size_t count_out(stripe_of stripe) {
    size_t count = 0;
    for (size_t column = 0; column <= stripe.p; column++) {
        count += !is_held(stripe, column);
    }
    return count;
}

// Copies the held strips into a stripe buffer, and gives the set of those that are out.
static uint64_t gather(stripe_of stripe, uint64_t *buffer) {
    size_t rows = stripe.p - 1;
    uint64_t out = 0;
    for (size_t column = 0; column <= stripe.p; column++) {
        if (is_held(stripe, column)) {
            memcpy(buffer + column * rows, stripe.cells + column * rows, rows * sizeof *buffer);
        } else {
            out |= (uint64_t)1 << column;
        }
    }
    return out;
}

// Gathers a stripe into the work buffer and solves it there.
static int solve(stripe_of stripe, uint64_t *work) {
    uint64_t out = gather(stripe, work);
    if (__builtin_popcountll(out) > MOST_LOST) {
        return 13;
    }
    plain_solve(stripe.p, work, out);
    return 0;
}

static int find(stripe_of stripe, cell at, uint64_t *work, uint64_t *element) {
    if (is_held(stripe, at.column)) {
        *element = *cell_at(stripe, at);
        return 0;
    }
    int stop = solve(stripe, work);
    *element = work[at.column * (stripe.p - 1) + at.row];
    return stop;
}

void plain_clear(size_t p, uint64_t *work) { memset(work, 0, 4 * (p + 1) * (p + 1) * sizeof *work); }

int plain_read(plain_array array, size_t stripe, size_t place, uint64_t *work, uint64_t *element) {
    int stop = find(at(array, stripe), locate(array.p, place), work, element);
    plain_clear(array.p, work);
    return stop;
}

static void join_into(stripe_of stripe, cell at, uint64_t change) {
    if (is_held(stripe, at.column)) {
        *cell_at(stripe, at) ^= change;
    }
}

// Joins a change into a data cell and the parity cells of its three lines.
static void update(stripe_of stripe, cell at, uint64_t change) {
    size_t p = stripe.p;
    size_t diagonal = wrapped(p, at.row + at.column);
    size_t antidiagonal = wrapped(p, at.row + p - at.column);
    join_into(stripe, at, change);
    join_into(stripe, (cell){at.row, p}, change);
    join_into(stripe, (cell){diagonal, diagonal + 1}, change);
    join_into(stripe, (cell){antidiagonal, p - 1 - antidiagonal}, change);
}

int plain_write(plain_array array, size_t stripe, size_t place, uint64_t element, uint64_t *work, size_t *out) {
    stripe_of here = at(array, stripe);
    cell there = locate(array.p, place);
    uint64_t old;
    int stop = find(here, there, work, &old);
    if (stop == 0) {
        update(here, there, old ^ element);
        *out = count_out(here);
    }
    plain_clear(array.p, work);
    return stop;
}

// Restores the blank strips from a stripe buffer, and gives how many there were.
static size_t fill(stripe_of stripe, const uint64_t *buffer) {
    size_t rows = stripe.p - 1;
    size_t count = 0;
    for (size_t column = 0; column <= stripe.p; column++) {
        if (stripe.statuses[column] == PLAIN_BLANK) {
            memcpy(stripe.cells + column * rows, buffer + column * rows, rows * sizeof *buffer);
            stripe.statuses[column] = PLAIN_HELD;
            count++;
        }
    }
    return count;
}

int plain_rebuild(plain_array array, size_t stripe, uint64_t *work, size_t *rebuilt) {
    stripe_of here = at(array, stripe);
    int stop = solve(here, work);
    if (stop == 0) {
        *rebuilt = fill(here, work);
    }
    plain_clear(array.p, work);
    return stop;
}

size_t plain_format(plain_array array) {
    size_t rows = array.p - 1;
    size_t out = 0;
    for (size_t strip = 0; strip < array.stripes * (array.p + 1); strip++) {
        if (array.statuses[strip] == PLAIN_HELD || array.statuses[strip] == PLAIN_BLANK) {
            memset(array.cells + strip * rows, 0, rows * sizeof *array.cells);
            array.statuses[strip] = PLAIN_HELD;
        } else {
            out++;
        }
    }
    return out;
}

void plain_pull(plain_array array, size_t device) {
    for (size_t stripe = 0; stripe < array.stripes; stripe++) {
        at(array, stripe).statuses[device] = PLAIN_ABSENT;
    }
}

void plain_fit(plain_array array, size_t device) {
    for (size_t stripe = 0; stripe < array.stripes; stripe++) {
        uint8_t *status = &at(array, stripe).statuses[device];
        if (*status != PLAIN_HELD && *status != PLAIN_BLANK) {
            *status = PLAIN_BLANK;
        }
    }
}
