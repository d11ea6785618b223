// What both measurements use: a clock, numbers, and a way to give up.
#ifndef TIMING_H
#define TIMING_H
#include <stddef.h>
#include <stdint.h>

// Nanoseconds.
double now(void);

// The same numbers in every run.
uint64_t random_number(void);

// Says why, and ends the program.
void stop(const char *why);

// Ends the program where the library refused a call: 0 says that it was accepted.
void accept(uint8_t status);

#endif
