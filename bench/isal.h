// ISA-L's erasure code, to compare the library with: p - 2 blocks of data and three of parity, each as long as one
// column of all stripes together. Where isal.c is built without WITH_ISAL, there are no turns.
#ifndef ISAL_H
#define ISAL_H
#include <stddef.h>

#define ISAL_STRIPES 64

// What is timed: all blocks once.
typedef void isal_turn(void);

// Fills the blocks of data and encodes them, and holds three decoded ones to what they were. Gives the turn that
// encodes, or null.
isal_turn *isal_encoding(size_t p);

// Loses so many blocks of data and of parity of what was encoded, and holds the decoded ones to them. Gives the turn
// that decodes, or null. What does not depend on the bytes of the blocks is done before: inverting, and making tables.
isal_turn *isal_decoding(size_t data, size_t parity);

#endif
