#include "plain.h"
#include <string.h>

#define MOST 31

// Encoding

static int is_data(size_t p, size_t row, size_t column) {
    return row < p - 1 && column != row + 1 && column != p - 1 - row;
}

static void place(size_t p, const uint64_t *values, uint64_t *cells) {
    for (size_t row = 0; row < p - 1; row++) {
        for (size_t column = 0; column < p; column++) {
            if (is_data(p, row, column)) {
                cells[column * (p - 1) + row] = *values++;
            }
        }
    }
}

static uint64_t row_join(size_t p, const uint64_t *cells, size_t row) {
    uint64_t all = 0;
    for (size_t column = 0; column < p; column++) {
        if (is_data(p, row, column)) {
            all ^= cells[column * (p - 1) + row];
        }
    }
    return all;
}

static uint64_t diagonal_join(size_t p, const uint64_t *cells, size_t line) {
    uint64_t all = 0;
    size_t row = line;
    for (size_t column = 0; column < p; column++) {
        if (is_data(p, row, column)) {
            all ^= cells[column * (p - 1) + row];
        }
        row = row == 0 ? p - 1 : row - 1;
    }
    return all;
}

static uint64_t antidiagonal_join(size_t p, const uint64_t *cells, size_t line) {
    uint64_t all = 0;
    size_t row = line;
    for (size_t column = 0; column < p; column++) {
        if (is_data(p, row, column)) {
            all ^= cells[column * (p - 1) + row];
        }
        row = row == p - 1 ? 0 : row + 1;
    }
    return all;
}

void plain_encode(size_t p, const uint64_t *values, uint64_t *cells) {
    place(p, values, cells);
    for (size_t i = 0; i < p - 1; i++) {
        cells[p * (p - 1) + i] = row_join(p, cells, i);
        cells[(i + 1) * (p - 1) + i] = diagonal_join(p, cells, i);
        cells[(p - 1 - i) * (p - 1) + i] = antidiagonal_join(p, cells, i);
    }
}

// Solving: two columns or three, from the sums of the known ones along rows, diagonals and antidiagonals

static size_t wrapped(size_t p, size_t number) {
    return number < p ? number : number - p;
}

static void join_each(size_t n, uint64_t *restrict to, const uint64_t *restrict from) {
    for (size_t i = 0; i < n; i++) {
        to[i] ^= from[i];
    }
}

// Joins a column, turned round: index i goes with (i + turn) mod p.
static void join_turned(size_t p, size_t turn, const uint64_t *column, uint64_t *sum) {
    size_t start = wrapped(p, turn);
    join_each(p - start, sum, column + start);
    join_each(start, sum + (p - start), column);
}

static void copy_turned(size_t p, size_t turn, const uint64_t *column, uint64_t *copy) {
    size_t start = wrapped(p, turn);
    memcpy(copy, column + start, (p - start) * sizeof *copy);
    memcpy(copy + (p - start), column, start * sizeof *copy);
}

static uint64_t join_all(size_t n, const uint64_t *run) {
    uint64_t all = 0;
    for (size_t i = 0; i < n; i++) {
        all ^= run[i];
    }
    return all;
}

static void join_onto(size_t n, uint64_t *run, uint64_t by) {
    for (size_t i = 0; i < n; i++) {
        run[i] ^= by;
    }
}

static void divide(size_t p, size_t step, const uint64_t *joins, uint64_t *quotient) {
    size_t at = 0;
    uint64_t last = 0;
    quotient[0] = 0;
    for (size_t turn = 1; turn < p; turn++) {
        at = wrapped(p, at + step);
        last ^= joins[at];
        quotient[at] = last;
    }
}

static void find_pair(size_t p, size_t first, size_t last, const uint64_t *diagonals, const uint64_t *antidiagonals, uint64_t *x,
                      uint64_t *y) {
    uint64_t joins[MOST];
    copy_turned(p, p + first + first - last, diagonals, joins);
    join_turned(p, p - last, antidiagonals, joins);
    divide(p, wrapped(p, 2 * (last - first)), joins, y);
    join_onto(p, y, y[p - 1 - last]);
    copy_turned(p, first, diagonals, x);
    join_turned(p, p + first - last, y, x);
}

static void find_middle(size_t p, size_t first, size_t middle, size_t last, const uint64_t *rows, const uint64_t *diagonals,
                        const uint64_t *antidiagonals, uint64_t *m) {
    uint64_t joins[MOST];
    uint64_t steps[MOST];
    memcpy(joins, rows, p * sizeof *joins);
    join_turned(p, p + first - last, rows, joins);
    join_turned(p, first, diagonals, joins);
    join_turned(p, p - last, antidiagonals, joins);
    divide(p, middle - first, joins, steps);
    join_onto(p, steps, join_all(p, steps));
    divide(p, last - middle, steps, m);
    join_onto(p, m, m[p - 1 - middle]);
}

static void find_three(size_t p, size_t first, size_t middle, size_t last, const uint64_t *rows, uint64_t *diagonals,
                       uint64_t *antidiagonals, uint64_t *x, uint64_t *m, uint64_t *y) {
    find_middle(p, first, middle, last, rows, diagonals, antidiagonals, m);
    join_turned(p, p - middle, m, diagonals);
    join_turned(p, middle, m, antidiagonals);
    find_pair(p, first, last, diagonals, antidiagonals, x, y);
}

// Unfolds a column, and gives the join of its two parities.
static uint64_t unfold(size_t p, const uint64_t *cells, size_t column, uint64_t *run) {
    memcpy(run, cells + column * (p - 1), (p - 1) * sizeof *run);
    run[p - 1] = 0;
    if (column == 0) {
        return 0;
    }
    uint64_t diagonal = run[column - 1];
    uint64_t antidiagonal = run[p - 1 - column];
    run[p - 1] = diagonal;
    run[column - 1] = 0;
    run[p - 1 - column] = 0;
    return diagonal ^ antidiagonal;
}

static void fold_back(size_t p, size_t column, uint64_t *run, uint64_t parities) {
    if (column > 0) {
        run[column - 1] = run[p - 1];
        run[p - 1 - column] = run[p - 1] ^ parities;
    }
}

// The sums of the known columns, which the mask `unknown` leaves out, and the join of their parities.
static uint64_t gather(size_t p, const uint64_t *cells, uint64_t unknown, uint64_t *rows, uint64_t *diagonals,
                       uint64_t *antidiagonals) {
    uint64_t run[MOST];
    uint64_t all = 0;
    memset(rows, 0, p * sizeof *rows);
    memset(diagonals, 0, p * sizeof *diagonals);
    memset(antidiagonals, 0, p * sizeof *antidiagonals);
    for (size_t column = 0; column < p; column++) {
        if (unknown >> column & 1) {
            continue;
        }
        uint64_t parities = unfold(p, cells, column, run);
        join_each(p, rows, run);
        join_turned(p, p - column, run, diagonals);
        join_turned(p, column, run, antidiagonals);
        antidiagonals[p - 1 - column] ^= parities;
        all ^= parities;
    }
    return all;
}

static void mirror(size_t p, const uint64_t *run, const uint64_t *other, uint64_t *restrict folded) {
    for (size_t i = 0; i < p - 1; i++) {
        folded[i] = run[i] ^ other[p - 2 - i];
    }
    folded[p - 1] = run[p - 1] ^ other[p - 1];
}

static void write_lost(size_t p, uint64_t lost, size_t column, const uint64_t *run, uint64_t *cells) {
    if (lost >> column & 1) {
        memcpy(cells + column * (p - 1), run, (p - 1) * sizeof *cells);
    }
}

static void solve_two(size_t p, size_t first, size_t last, uint64_t lost, uint64_t *cells) {
    uint64_t rows[MOST], diagonals[MOST], antidiagonals[MOST];
    uint64_t folded_diagonals[MOST], folded_antidiagonals[MOST];
    uint64_t x[MOST], y[MOST];
    uint64_t unknown = (uint64_t)1 << first | (uint64_t)1 << last;
    gather(p, cells, unknown, rows, diagonals, antidiagonals);
    mirror(p, diagonals, antidiagonals, folded_diagonals);
    mirror(p, antidiagonals, diagonals, folded_antidiagonals);
    find_pair(p, first, last, folded_diagonals, folded_antidiagonals, x, y);
    uint64_t of_first = x[p - 1];
    uint64_t of_last = y[p - 1];
    antidiagonals[p - 1 - first] ^= of_first;
    antidiagonals[p - 1 - last] ^= of_last;
    find_pair(p, first, last, diagonals, antidiagonals, x, y);
    join_each(p, rows, x);
    join_each(p, rows, y);
    fold_back(p, first, x, of_first);
    fold_back(p, last, y, of_last);
    write_lost(p, lost, first, x, cells);
    write_lost(p, lost, last, y, cells);
    write_lost(p, lost, p, rows, cells);
}

static void solve_three(size_t p, size_t first, size_t middle, size_t last, uint64_t lost, uint64_t *cells) {
    uint64_t rows[MOST], diagonals[MOST], antidiagonals[MOST];
    uint64_t folded_rows[MOST], folded_diagonals[MOST], folded_antidiagonals[MOST];
    uint64_t x[MOST], m[MOST], y[MOST];
    uint64_t unknown = (uint64_t)1 << first | (uint64_t)1 << middle | (uint64_t)1 << last;
    uint64_t all = gather(p, cells, unknown, rows, diagonals, antidiagonals);
    join_each(p - 1, rows, cells + p * (p - 1));
    rows[p - 1] ^= join_all(p - 1, cells + p * (p - 1));
    mirror(p, rows, rows, folded_rows);
    folded_rows[p - 1] = all;
    mirror(p, diagonals, antidiagonals, folded_diagonals);
    mirror(p, antidiagonals, diagonals, folded_antidiagonals);
    find_three(p, first, middle, last, folded_rows, folded_diagonals, folded_antidiagonals, x, m, y);
    uint64_t of_first = x[p - 1];
    uint64_t of_middle = m[p - 1];
    uint64_t of_last = y[p - 1];
    antidiagonals[p - 1 - first] ^= of_first;
    antidiagonals[p - 1 - middle] ^= of_middle;
    antidiagonals[p - 1 - last] ^= of_last;
    find_three(p, first, middle, last, rows, diagonals, antidiagonals, x, m, y);
    fold_back(p, first, x, of_first);
    fold_back(p, middle, m, of_middle);
    fold_back(p, last, y, of_last);
    write_lost(p, lost, first, x, cells);
    write_lost(p, lost, middle, m, cells);
    write_lost(p, lost, last, y, cells);
}

static size_t next_lost(uint64_t lost, size_t from, size_t p) {
    while (from < p && !(lost >> from & 1)) {
        from++;
    }
    return from;
}

void plain_solve(size_t p, uint64_t *cells, uint64_t lost) {
    size_t first = next_lost(lost, 0, p);
    size_t second = next_lost(lost, first + 1, p);
    size_t third = next_lost(lost, second + 1, p);
    if (second >= p) {
        solve_two(p, 0, first == 0 || first >= p ? 1 : first, lost, cells);
    } else if (third >= p) {
        solve_two(p, first, second, lost, cells);
    } else {
        solve_three(p, first, second, third, lost, cells);
    }
}
