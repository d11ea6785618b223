#include "timing.h"
#include <stdio.h>
#include <stdlib.h>
#include <time.h>

double now(void) {
    struct timespec t;
    clock_gettime(CLOCK_MONOTONIC, &t);
    return (double)t.tv_sec * 1e9 + (double)t.tv_nsec;
}

uint64_t random_number(void) {
    static uint64_t state = 1;
    state = state * 6364136223846793005u + 1442695040888963407u;
    return state ^ state >> 29;
}

void stop(const char *why) {
    fprintf(stderr, "bench: %s\n", why);
    exit(1);
}

void accept(uint8_t status) {
    if (status != 0) {
        stop("the library refused a call");
    }
}
