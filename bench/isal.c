#include "isal.h"

#ifdef WITH_ISAL
#include "timing.h"
#include <isa-l.h>
#include <string.h>

#define PARITIES 3
#define MOST_DATA 29
#define MOST_BLOCKS (MOST_DATA + PARITIES)
#define MOST_LENGTH (ISAL_STRIPES * 30 * 8)

static _Alignas(64) unsigned char blocks[MOST_BLOCKS][MOST_LENGTH];
static _Alignas(64) unsigned char found[PARITIES][MOST_LENGTH];
static size_t data_count;
static size_t length;

// The blocks as ISA-L takes them: those to encode, those to decode from, and those to write.
static unsigned char *sources[MOST_DATA];
static unsigned char *parities[PARITIES];
static unsigned char *kept[MOST_DATA];
static unsigned char *outputs[PARITIES];

// A row for each block, data first: which multiples of the data join to it.
static unsigned char matrix[MOST_BLOCKS * MOST_DATA];

// What ISA-L makes of the rows that it is to multiply by.
static unsigned char encoding_tables[32 * MOST_DATA * PARITIES];
static unsigned char decoding_tables[32 * MOST_DATA * PARITIES];

static size_t lost[PARITIES];
static size_t lost_count;

static void encode(void) {
    ec_encode_data((int)length, (int)data_count, PARITIES, encoding_tables, sources, parities);
}

static void decode(void) {
    ec_encode_data((int)length, (int)data_count, (int)lost_count, decoding_tables, kept, outputs);
}

static int is_lost(size_t block) {
    for (size_t i = 0; i < lost_count; i++) {
        if (lost[i] == block) {
            return 1;
        }
    }
    return 0;
}

// Takes the first blocks that are not lost, as many as there are of data, and inverts their rows.
static void invert_kept(unsigned char *inverse) {
    unsigned char rows[MOST_DATA * MOST_DATA];
    size_t taken = 0;
    for (size_t block = 0; taken < data_count; block++) {
        if (!is_lost(block)) {
            memcpy(rows + taken * data_count, matrix + block * data_count, data_count);
            kept[taken++] = blocks[block];
        }
    }
    if (gf_invert_matrix(rows, inverse, (int)data_count) != 0) {
        stop("ISA-L has no inverse");
    }
}

// The row that leads from the kept blocks to a lost one.
static void row_of_lost(size_t block, const unsigned char *inverse, unsigned char *row) {
    memset(row, 0, data_count);
    for (size_t i = 0; i < data_count; i++) {
        for (size_t j = 0; j < data_count; j++) {
            row[j] ^= gf_mul(matrix[block * data_count + i], inverse[i * data_count + j]);
        }
    }
}

// Decodes over other bytes, and holds what is found to what was lost.
static void check_decoded(void) {
    for (size_t i = 0; i < lost_count; i++) {
        for (size_t j = 0; j < length; j++) {
            found[i][j] = (unsigned char)~blocks[lost[i]][j];
        }
    }
    decode();
    for (size_t i = 0; i < lost_count; i++) {
        if (memcmp(found[i], blocks[lost[i]], length) != 0) {
            stop("ISA-L decoded something else");
        }
    }
}

isal_turn *isal_decoding(size_t data, size_t parity) {
    unsigned char inverse[MOST_DATA * MOST_DATA];
    unsigned char rows[PARITIES * MOST_DATA];
    lost_count = data + parity;
    for (size_t i = 0; i < lost_count; i++) {
        lost[i] = i < data ? i : data_count + i - data;
    }
    invert_kept(inverse);
    for (size_t i = 0; i < lost_count; i++) {
        row_of_lost(lost[i], inverse, rows + i * data_count);
    }
    ec_init_tables((int)data_count, (int)lost_count, rows, decoding_tables);
    check_decoded();
    return decode;
}

isal_turn *isal_encoding(size_t p) {
    data_count = p - 2;
    length = ISAL_STRIPES * (p - 1) * 8;
    for (size_t block = 0; block < data_count; block++) {
        sources[block] = blocks[block];
        for (size_t i = 0; i < length; i++) {
            blocks[block][i] = (unsigned char)random_number();
        }
    }
    for (size_t i = 0; i < PARITIES; i++) {
        parities[i] = blocks[data_count + i];
        outputs[i] = found[i];
    }
    gf_gen_cauchy1_matrix(matrix, (int)(data_count + PARITIES), (int)data_count);
    ec_init_tables((int)data_count, PARITIES, matrix + data_count * data_count, encoding_tables);
    encode();
    isal_decoding(PARITIES, 0);
    return encode;
}

#else

isal_turn *isal_encoding(size_t p) {
    (void)p;
    return NULL;
}

isal_turn *isal_decoding(size_t data, size_t parity) {
    (void)data;
    (void)parity;
    return NULL;
}

#endif
