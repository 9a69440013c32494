/*
 * Times the test that a store is sound: it is all that a question for a cell that is not held does. The best of many runs, in microseconds,
 * for stores of 4,096 records that hold some cells of some bits, each with four references.
 *
 *     gcc -O2 -Iinclude examples/time_sound.c target/staticlib/libtapunerow.a -o target/time_sound
 *     target/time_sound
 */
#include <stdio.h>
#include <string.h>
#include <time.h>

#include "tapunerow.h"

enum { RECORDS = 4096, RUNS = 4000, REFS = 4, NOT_HELD = 19 };

static uint32_t table[RECORDS * TAPUNEROW_RECORD_LEN];
static uint8_t bytes[RECORDS * TAPUNEROW_DATA_LEN];

static double microseconds(void) {
    struct timespec t;
    clock_gettime(CLOCK_MONOTONIC, &t);
    return t.tv_sec * 1e6 + t.tv_nsec / 1e3;
}

/* Cell n, all bits 1; it refers to the cell before it, if there is one. */
static void put_cell(size_t n, uint32_t bits) {
    uint32_t *record = table + n * TAPUNEROW_RECORD_LEN;
    record[1] = bits;
    record[2] = n == 0 ? 0 : REFS;
    for (size_t k = 0; k < REFS; k++) {
        record[3 + k] = n == 0 ? 0 : (uint32_t)(n - 1);
    }
    uint8_t *data = bytes + n * TAPUNEROW_DATA_LEN;
    memset(data, 0xff, bits / 8);
    if (bits % 8 != 0) {
        data[bits / 8] = (uint8_t)(0xff00 >> bits % 8);
    }
}

static void time_store(size_t cells, uint32_t bits) {
    memset(table, 0, sizeof table);
    memset(bytes, 0, sizeof bytes);
    for (size_t n = 0; n < cells; n++) {
        put_cell(n, bits);
    }
    double best = 1e9;
    uint32_t refusal = 0;
    size_t answer[7];
    for (int run = 0; run < RUNS; run++) {
        double start = microseconds();
        refusal = tapunerow_cell(cells, table, sizeof table / sizeof *table, bytes, sizeof bytes, cells, answer);
        double took = microseconds() - start;
        best = took < best ? took : best;
    }
    if (refusal != NOT_HELD) {
        printf("refused %u\n", refusal);
    }
    printf("%zu cells of %u bits: %.1f\n", cells, bits, best);
}

int main(void) {
    time_store(0, 0);
    time_store(128, 16);
    time_store(RECORDS, 16);
    time_store(RECORDS, 1023);
}
