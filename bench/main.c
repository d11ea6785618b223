// Times the library's encoding and solving against plain C, straight-line C and ISA-L, in one run and over as much
// data, and prints a table.
#include "isal.h"
#include "plain.h"
#include "straight.h"
#include "timing.h"
#include <stdio.h>
#include <string.h>

#define STRIPES 64
#define ROUNDS 45
#define MOST_CELLS (30 * 32)
#define MOST_WORK (4 * 32 * 32)

_Static_assert(STRIPES == ISAL_STRIPES, "ISA-L gets as much data");

// The library: a buffer is a pointer and a length, and 0 says that the call was accepted.
uint8_t tip_encode(size_t p, const uint64_t *values, size_t values_len, uint64_t *cells, size_t cells_len);
uint8_t tip_solve(size_t p, uint64_t *cells, size_t cells_len, uint64_t lost, uint64_t *work, size_t work_len);
uint8_t tip_solve_beside(size_t p, uint64_t *cells, size_t cells_len, uint64_t lost, uint64_t *room, size_t room_len);
void tip_clear(uint64_t *work, size_t work_len);

static uint64_t values[STRIPES][MOST_CELLS];
static uint64_t ours[STRIPES][MOST_CELLS];
static uint64_t plain[STRIPES][MOST_CELLS];
static uint64_t straight[STRIPES][MOST_CELLS];
static uint64_t lost_sets[STRIPES];
static uint64_t work[MOST_WORK];

// The prime, and the sizes that go with it.
static size_t p;
static size_t places;
static size_t cells;
static size_t work_len;

static void size(size_t prime) {
    p = prime;
    places = (p - 1) * (p - 2);
    cells = (p - 1) * (p + 1);
    work_len = 4 * (p + 1) * (p + 1);
}

// What is timed: one turn over all stripes

typedef void turn(void);

static void our_encode(void) {
    for (size_t s = 0; s < STRIPES; s++) {
        accept(tip_encode(p, values[s], places, ours[s], cells));
    }
}

static void c_encode(void) {
    for (size_t s = 0; s < STRIPES; s++) {
        plain_encode(p, values[s], plain[s]);
    }
}

static void c_straight(void) {
    for (size_t s = 0; s < STRIPES; s++) {
        straight_encode(p, values[s], straight[s]);
    }
}

static void our_solve(void) {
    for (size_t s = 0; s < STRIPES; s++) {
        accept(tip_solve(p, ours[s], cells, lost_sets[s], work, work_len));
    }
}

// Keeps a clearing that nothing reads.
static void c_clear_work(void) {
    memset(work, 0, work_len * sizeof *work);
    __asm__ volatile("" : : "r"(work) : "memory");
}

// `solve` promises a clear work buffer, so the plain code clears one too.
static void c_solve(void) {
    for (size_t s = 0; s < STRIPES; s++) {
        plain_solve(p, plain[s], lost_sets[s]);
        c_clear_work();
    }
}

static void our_beside(void) {
    for (size_t s = 0; s < STRIPES; s++) {
        accept(tip_solve_beside(p, ours[s], cells, lost_sets[s], work, work_len - cells));
    }
}

static void c_beside(void) {
    for (size_t s = 0; s < STRIPES; s++) {
        plain_solve(p, plain[s], lost_sets[s]);
    }
}

static void our_clear(void) {
    for (size_t s = 0; s < STRIPES; s++) {
        tip_clear(work, work_len);
    }
}

static void c_clear(void) {
    for (size_t s = 0; s < STRIPES; s++) {
        c_clear_work();
    }
}

// Timing

enum { OURS, PLAIN, STRAIGHT, ISAL, CONTENDERS };

// Nanoseconds for each stripe, over enough turns for two milliseconds. The clock is read seldom: a turn can be short.
static double time_of(turn *f) {
    size_t turns = 0;
    double start = now();
    double end = start;
    for (size_t more = 1; end - start < 2e6; more *= 2) {
        for (size_t t = 0; t < more; t++) {
            f();
        }
        turns += more;
        end = now();
    }
    return (end - start) / (double)(turns * STRIPES);
}

// Bytes of data for each nanosecond are gigabytes for each second.
static double speed(double time) { return (double)(8 * places) / time; }

static void print_speed(int width, turn *f, double time) {
    if (f == NULL) {
        printf(" %*s |", width, "-");
    } else {
        printf(" %*.2f |", width, speed(time));
    }
}

static void print_head(void) {
    printf("| operation              |  p | ours, ns | ours, GB/s "
           "| C that steps, GB/s | straight C, GB/s | ISA-L, GB/s | ours / C |\n"
           "|------------------------|---:|---------:|-----------:"
           "|-------------------:|-----------------:|------------:|---------:|\n");
}

// The best of many short rounds, all by turns, so that none has the quieter machine.
static void compare(const char *what, turn *const turns[CONTENDERS]) {
    double best[CONTENDERS] = {1e18, 1e18, 1e18, 1e18};
    for (int round = 0; round < ROUNDS; round++) {
        for (size_t k = 0; k < CONTENDERS; k++) {
            double time = turns[k] == NULL ? best[k] : time_of(turns[k]);
            best[k] = time < best[k] ? time : best[k];
        }
    }
    printf("| %-22s | %2zu | %8.1f | %10.2f |", what, p, best[OURS], speed(best[OURS]));
    print_speed(18, turns[PLAIN], best[PLAIN]);
    print_speed(16, turns[STRAIGHT], best[STRAIGHT]);
    print_speed(11, turns[ISAL], best[ISAL]);
    printf(" %8.2f |\n", best[OURS] / best[PLAIN]);
    fflush(stdout);
}

// Checks

static void must_equal(uint64_t a[STRIPES][MOST_CELLS], uint64_t b[STRIPES][MOST_CELLS], const char *otherwise) {
    for (size_t s = 0; s < STRIPES; s++) {
        if (memcmp(a[s], b[s], cells * sizeof(uint64_t)) != 0) {
            stop(otherwise);
        }
    }
}

static void must_encode_alike(void) {
    must_equal(plain, ours, "the library and the plain code encode otherwise");
    must_equal(straight, ours, "the library and the straight lines encode otherwise");
}

// Encodes over other numbers by all once.
static void check_encoded(void) {
    for (size_t s = 0; s < STRIPES; s++) {
        for (size_t i = 0; i < cells; i++) {
            ours[s][i] = plain[s][i] = straight[s][i] = random_number();
        }
    }
    our_encode();
    c_encode();
    c_straight();
    must_encode_alike();
}

// Solves spoiled stripes by both once, and holds them to what was encoded.
static void check_solved(turn *f, turn *g) {
    static uint64_t whole[STRIPES][MOST_CELLS];
    memcpy(whole, ours, sizeof whole);
    for (size_t s = 0; s < STRIPES; s++) {
        for (size_t i = 0; i < cells; i++) {
            if (lost_sets[s] >> i / (p - 1) & 1) {
                ours[s][i] = plain[s][i] = random_number();
            }
        }
    }
    f();
    g();
    must_equal(ours, whole, "the library did not give a stripe back");
    must_equal(plain, whole, "the plain code did not give a stripe back");
}

// Clears a work buffer of other numbers once.
static void check_cleared(turn *f) {
    for (size_t i = 0; i < work_len; i++) {
        work[i] = random_number() | 1;
    }
    f();
    for (size_t i = 0; i < work_len; i++) {
        if (work[i] != 0) {
            stop("the work buffer is not clear");
        }
    }
}

// The lines of the table

static void compare_encoding(void) {
    for (size_t s = 0; s < STRIPES; s++) {
        for (size_t i = 0; i < places; i++) {
            values[s][i] = random_number();
        }
    }
    turn *const turns[] = {our_encode, c_encode, c_straight, isal_encoding(p)};
    check_encoded();
    compare("encode", turns);
    must_encode_alike();
}

// Chooses for each stripe so many columns below p, and column p too where asked.
static void choose(int below, int with_p) {
    for (size_t s = 0; s < STRIPES; s++) {
        uint64_t set = 0;
        while (__builtin_popcountll(set) < below) {
            set |= (uint64_t)1 << random_number() % p;
        }
        lost_sets[s] = set | (uint64_t)with_p << p;
    }
}

static void compare_solved(const char *what, turn *f, turn *g, turn *isal) {
    turn *const turns[] = {f, g, NULL, isal};
    check_solved(f, g);
    compare(what, turns);
    must_equal(plain, ours, "the library and the plain code solve otherwise");
}

static void compare_solving(const char *what, int below, int with_p) {
    char beside[32];
    choose(below, with_p);
    turn *isal = isal_decoding((size_t)below, (size_t)with_p);
    check_cleared(our_solve);
    check_cleared(c_solve);
    compare_solved(what, our_solve, c_solve, isal);
    snprintf(beside, sizeof beside, "%s, beside", what);
    compare_solved(beside, our_beside, c_beside, isal);
}

static void compare_clearing(void) {
    turn *const turns[] = {our_clear, c_clear, NULL, NULL};
    check_cleared(our_clear);
    check_cleared(c_clear);
    compare("clearing", turns);
}

int main(void) {
    static const size_t primes[] = {5, 11, 31};
    print_head();
    for (size_t k = 0; k < 3; k++) {
        size(primes[k]);
        compare_encoding();
        compare_solving("3 below p", 3, 0);
        compare_solving("2 and column p", 2, 1);
        compare_solving("2 below p", 2, 0);
        compare_solving("1 and column p", 1, 1);
        compare_solving("1 below p", 1, 0);
        compare_solving("column p", 0, 1);
        compare_clearing();
    }
    return 0;
}
