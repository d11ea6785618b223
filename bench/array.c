// Times the calls of the library's arrays against the plain C of plain_array.c, in one run, over arrays that hold the
// same.
#include "plain.h"
#include "plain_array.h"
#include "timing.h"
#include <stdio.h>
#include <string.h>

#define STRIPES 64
#define SHORT_ROUNDS 45
#define MOST_STRIPES 4096
#define MOST_CELLS (30 * 32)
#define MOST_COLUMNS 32
#define MOST_WORK (4 * 32 * 32)

// The library: a buffer is a pointer and a length, and 0 says that the call was accepted.
uint8_t tip_array_format(size_t p, size_t stripes, uint64_t *cells, size_t cells_len, uint8_t *statuses,
                         size_t statuses_len, uint64_t *work, size_t work_len, size_t *out);
uint8_t tip_array_read(size_t p, size_t stripes, uint64_t *cells, size_t cells_len, uint8_t *statuses,
                       size_t statuses_len, size_t stripe, size_t place, uint64_t *work, size_t work_len,
                       uint64_t *element);
uint8_t tip_array_write(size_t p, size_t stripes, uint64_t *cells, size_t cells_len, uint8_t *statuses,
                        size_t statuses_len, size_t stripe, size_t place, uint64_t element, uint64_t *work,
                        size_t work_len, size_t *out);
uint8_t tip_array_rebuild(size_t p, size_t stripes, uint64_t *cells, size_t cells_len, uint8_t *statuses,
                          size_t statuses_len, size_t stripe, uint64_t *work, size_t work_len, size_t *rebuilt);
uint8_t tip_array_pull(size_t p, size_t stripes, uint64_t *cells, size_t cells_len, uint8_t *statuses,
                       size_t statuses_len, size_t device);
uint8_t tip_array_fit(size_t p, size_t stripes, uint64_t *cells, size_t cells_len, uint8_t *statuses,
                      size_t statuses_len, size_t device, _Bool *fitted);
void tip_clear(uint64_t *work, size_t work_len);

// The buffers of an array, and what the calls of a turn answered.
typedef struct {
    uint64_t cells[MOST_STRIPES * MOST_CELLS];
    uint8_t statuses[MOST_STRIPES * MOST_COLUMNS];
    uint64_t work[MOST_WORK];
    uint64_t answers[STRIPES];
} store;

static store ours;
static store plain;

// The sizes of the arrays that are tried, and of their buffers.
static size_t p;
static size_t stripes;
static size_t rows;
static size_t columns;
static size_t places;
static size_t cells;
static size_t work_len;

static void size(size_t prime, size_t stripe_count) {
    p = prime;
    stripes = stripe_count;
    rows = p - 1;
    columns = p + 1;
    places = (p - 1) * (p - 2);
    cells = rows * columns;
    work_len = 4 * columns * columns;
}

// What the calls of a turn are made with, one for each: a stripe, a place in it, an element for the place, and the set
// of columns that are out.
static size_t stripe_for[STRIPES];
static size_t place_for[STRIPES];
static uint64_t element_for[STRIPES];
static uint64_t out_for[STRIPES];

// The calls, made by either side

#define OUR_ARRAY p, stripes, ours.cells, stripes *cells, ours.statuses, stripes *columns

static plain_array c_array(void) { return (plain_array){p, stripes, plain.cells, plain.statuses}; }

static size_t our_format(void) {
    size_t out;
    accept(tip_array_format(OUR_ARRAY, ours.work, work_len, &out));
    return out;
}

static uint64_t our_read(size_t stripe, size_t place) {
    uint64_t element;
    accept(tip_array_read(OUR_ARRAY, stripe, place, ours.work, work_len, &element));
    return element;
}

static uint64_t c_read(size_t stripe, size_t place) {
    uint64_t element;
    if (plain_read(c_array(), stripe, place, plain.work, &element) != 0) {
        stop("the plain code refused a read");
    }
    return element;
}

static size_t our_write(size_t stripe, size_t place, uint64_t element) {
    size_t out;
    accept(tip_array_write(OUR_ARRAY, stripe, place, element, ours.work, work_len, &out));
    return out;
}

static size_t c_write(size_t stripe, size_t place, uint64_t element) {
    size_t out;
    if (plain_write(c_array(), stripe, place, element, plain.work, &out) != 0) {
        stop("the plain code refused a write");
    }
    return out;
}

static size_t our_rebuild(size_t stripe) {
    size_t rebuilt;
    accept(tip_array_rebuild(OUR_ARRAY, stripe, ours.work, work_len, &rebuilt));
    return rebuilt;
}

static size_t c_rebuild(size_t stripe) {
    size_t rebuilt;
    if (plain_rebuild(c_array(), stripe, plain.work, &rebuilt) != 0) {
        stop("the plain code refused a rebuild");
    }
    return rebuilt;
}

static void our_exchange(size_t device) {
    _Bool fitted = 0;
    accept(tip_array_pull(OUR_ARRAY, device));
    accept(tip_array_fit(OUR_ARRAY, device, &fitted));
    if (!fitted) {
        stop("a device was not fitted");
    }
}

static void c_exchange(size_t device) {
    plain_pull(c_array(), device);
    plain_fit(c_array(), device);
}

// What is timed: one turn of calls, as many as STRIPES

typedef void turn(void);

static void our_reads(void) {
    for (size_t i = 0; i < STRIPES; i++) {
        ours.answers[i] = our_read(stripe_for[i], place_for[i]);
    }
}

static void c_reads(void) {
    for (size_t i = 0; i < STRIPES; i++) {
        plain.answers[i] = c_read(stripe_for[i], place_for[i]);
    }
}

static void our_writes(void) {
    for (size_t i = 0; i < STRIPES; i++) {
        ours.answers[i] = our_write(stripe_for[i], place_for[i], element_for[i]);
    }
}

static void c_writes(void) {
    for (size_t i = 0; i < STRIPES; i++) {
        plain.answers[i] = c_write(stripe_for[i], place_for[i], element_for[i]);
    }
}

// Gives the strips of the set that is out for a call this status.
static void set_statuses(store *in, size_t i, uint8_t status) {
    for (uint64_t left = out_for[i]; left != 0; left &= left - 1) {
        in->statuses[stripe_for[i] * columns + (size_t)__builtin_ctzll(left)] = status;
    }
}

static void our_rebuilds(void) {
    for (size_t i = 0; i < STRIPES; i++) {
        set_statuses(&ours, i, PLAIN_BLANK);
        ours.answers[i] = our_rebuild(stripe_for[i]);
    }
}

static void c_rebuilds(void) {
    for (size_t i = 0; i < STRIPES; i++) {
        set_statuses(&plain, i, PLAIN_BLANK);
        plain.answers[i] = c_rebuild(stripe_for[i]);
    }
}

static void our_clears(void) {
    for (size_t i = 0; i < STRIPES; i++) {
        tip_clear(ours.work, work_len);
    }
}

static void c_clears(void) {
    for (size_t i = 0; i < STRIPES; i++) {
        plain_clear(p, plain.work);
    }
}

// Checks

static void must_agree(void) {
    if (memcmp(ours.cells, plain.cells, stripes * cells * sizeof(uint64_t)) != 0) {
        stop("the cells differ");
    }
    if (memcmp(ours.statuses, plain.statuses, stripes * columns) != 0) {
        stop("the status bytes differ");
    }
    if (memcmp(ours.answers, plain.answers, sizeof ours.answers) != 0) {
        stop("the answers differ");
    }
}

static void spoil_work(void) {
    for (size_t i = 0; i < MOST_WORK; i++) {
        ours.work[i] = plain.work[i] = random_number() | 1;
    }
}

static void work_must_be_clear(void) {
    for (size_t i = 0; i < MOST_WORK; i++) {
        if ((ours.work[i] == 0) != (i < work_len)) {
            stop("the work buffer is not clear, or is clear too far");
        }
    }
}

// Runs a turn of either side once, from a work buffer that is not clear.
static void both(turn *f, turn *g) {
    spoil_work();
    f();
    g();
    work_must_be_clear();
    must_agree();
}

// Makes all strips held with zeros, and writes an element to each place.
static void format_and_fill(uint64_t values[STRIPES][MOST_CELLS]) {
    memset(ours.statuses, PLAIN_BLANK, sizeof ours.statuses);
    memset(plain.statuses, PLAIN_BLANK, sizeof plain.statuses);
    spoil_work();
    if (our_format() != 0 || plain_format(c_array()) != 0) {
        stop("a strip is out after the format");
    }
    work_must_be_clear();
    must_agree();
    for (size_t place = 0; place < places; place++) {
        for (size_t i = 0; i < STRIPES; i++) {
            stripe_for[i] = i;
            place_for[i] = place;
            element_for[i] = values[i][place] = random_number();
        }
        both(our_writes, c_writes);
    }
}

// All stripes must be the encodings of what was written.
static void must_be_encoded(uint64_t values[STRIPES][MOST_CELLS]) {
    static uint64_t whole[MOST_CELLS];
    for (size_t i = 0; i < STRIPES; i++) {
        plain_encode(p, values[i], whole);
        if (memcmp(whole, ours.cells + i * cells, cells * sizeof *whole) != 0) {
            stop("a stripe is not the encoding of what was written");
        }
    }
}

// Chooses sets of so many columns, with the column of the place of each call.
static void choose_out(int count) {
    for (size_t i = 0; i < STRIPES; i++) {
        size_t row = place_for[i] / (p - 2);
        size_t column = 0;
        for (size_t left = place_for[i] - row * (p - 2); column == row + 1 || column == p - 1 - row || left-- > 0;) {
            column++;
        }
        out_for[i] = (uint64_t)1 << column;
        while (__builtin_popcountll(out_for[i]) < count) {
            out_for[i] |= (uint64_t)1 << random_number() % (p + 1);
        }
    }
}

static void choose_places(void) {
    for (size_t i = 0; i < STRIPES; i++) {
        stripe_for[i] = i;
        place_for[i] = random_number() % places;
    }
}

// The status bytes of the strips that are out for each call.
static void set_all_statuses(uint8_t status) {
    for (size_t i = 0; i < STRIPES; i++) {
        set_statuses(&ours, i, status);
        set_statuses(&plain, i, status);
    }
}

// Reads a place of each stripe, writes another element there and reads it, and rebuilds the stripes.
static void check_out(int count, uint64_t values[STRIPES][MOST_CELLS]) {
    choose_places();
    choose_out(count);
    set_all_statuses(PLAIN_ABSENT);
    both(our_reads, c_reads);
    for (size_t i = 0; i < STRIPES; i++) {
        if (ours.answers[i] != values[i][place_for[i]]) {
            stop("a read gave another element");
        }
        element_for[i] = values[i][place_for[i]] = random_number();
    }
    both(our_writes, c_writes);
    both(our_reads, c_reads);
    if (memcmp(ours.answers, element_for, sizeof element_for) != 0) {
        stop("a read gave another element than was written");
    }
    both(our_rebuilds, c_rebuilds);
    must_be_encoded(values);
}

// Exchanges devices of the whole array, and rebuilds all stripes.
static void check_exchange(uint64_t values[STRIPES][MOST_CELLS]) {
    memset(out_for, 0, sizeof out_for);
    for (size_t third = 0; third < 3; third++) {
        our_exchange(third * (p + 1) / 3);
        c_exchange(third * (p + 1) / 3);
    }
    must_agree();
    both(our_rebuilds, c_rebuilds);
    must_be_encoded(values);
}

static void check_calls(void) {
    static uint64_t values[STRIPES][MOST_CELLS];
    format_and_fill(values);
    must_be_encoded(values);
    for (int count = 0; count <= 3; count++) {
        check_out(count, values);
    }
    check_exchange(values);
}

// Timing

// Nanoseconds for each call, over enough turns for two milliseconds.
static double time_of(turn *f) {
    size_t turns = 0;
    double start = now();
    double end;
    do {
        f();
        turns++;
        end = now();
    } while (end - start < 2e6);
    return (end - start) / (double)(turns * STRIPES);
}

// Times some turns once, one after another, and keeps what is less than it was. In many short rounds of this none has
// the quieter machine.
static void time_round(size_t count, turn *const turns[], double best[]) {
    for (size_t k = 0; k < count; k++) {
        double time = time_of(turns[k]);
        best[k] = time < best[k] ? time : best[k];
    }
}

// Times a call of ours and of the plain code, and with each the clearing of its work buffer alone.
static void compare(const char *what, turn *f, turn *g) {
    turn *const turns[] = {f, g, our_clears, c_clears};
    double best[] = {1e18, 1e18, 1e18, 1e18};
    both(f, g);
    for (int round = 0; round < SHORT_ROUNDS; round++) {
        time_round(4, turns, best);
    }
    both(f, g);
    printf("%-19s p = %2zu  ours %7.1f ns, clearing %5.1f (%2.0f%%)  C %7.1f ns, clearing %5.1f (%2.0f%%)  "
           "ours / C %.2f\n",
           what, p, best[0], best[2], 100 * best[2] / best[0], best[1], best[3], 100 * best[3] / best[1],
           best[0] / best[1]);
}

static void compare_out(const char *read, const char *rebuild, int count) {
    choose_out(count);
    set_all_statuses(PLAIN_ABSENT);
    compare(read, our_reads, c_reads);
    compare(rebuild, our_rebuilds, c_rebuilds);
}

static void compare_calls(void) {
    choose_places();
    compare("read, held", our_reads, c_reads);
    compare("write, held", our_writes, c_writes);
    compare_out("read, 1 strip out", "rebuild of 1 strip", 1);
    compare_out("read, 3 strips out", "rebuild of 3 strips", 3);
}

// All calls of a turn are to be on the last stripe of an array of so many.
static void choose_last(size_t stripe_count) {
    size(p, stripe_count);
    for (size_t i = 0; i < STRIPES; i++) {
        stripe_for[i] = stripes - 1;
    }
}

// Times the same calls in an array of one stripe and in one of the most.
static void compare_stripes(const char *what, turn *f, turn *g) {
    turn *const turns[] = {f, g};
    double one[] = {1e18, 1e18};
    double most[] = {1e18, 1e18};
    for (int round = 0; round < SHORT_ROUNDS; round++) {
        choose_last(1);
        time_round(2, turns, one);
        choose_last(MOST_STRIPES);
        time_round(2, turns, most);
    }
    both(f, g);
    printf("%-19s p = %2zu  of 1 stripe: ours %7.1f ns, C %7.1f ns  of 4096: ours %7.1f ns, C %7.1f ns\n", what, p,
           one[0], one[1], most[0], most[1]);
}

static void compare_stripe_counts(void) {
    memset(ours.statuses, PLAIN_HELD, sizeof ours.statuses);
    memset(plain.statuses, PLAIN_HELD, sizeof plain.statuses);
    compare_stripes("read, held", our_reads, c_reads);
    compare_stripes("write, held", our_writes, c_writes);
}

int main(void) {
    static const size_t primes[] = {5, 11, 31};
    for (size_t k = 0; k < 3; k++) {
        size(primes[k], STRIPES);
        check_calls();
        compare_calls();
        compare_stripe_counts();
    }
    return 0;
}
