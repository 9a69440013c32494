/*
 * Reads a bag of cells from a file and prints what it holds: `ok`, bytes used, cells and roots, then the text of each root; or `refused`
 * with a number and a place.
 *
 *     gcc -O2 -Iinclude examples/probe.c target/staticlib/libtapunerow.a -o target/probe
 *     target/probe FILE
 */
#include <stdio.h>

#include "tapunerow.h"

enum { MOST_BYTES = 32768, RECORDS = 128, ROOTS = 16, BUDGET = 1000, TEXT = 8192 };

static uint8_t reply[MOST_BYTES + 1];
static uint32_t table[RECORDS * TAPUNEROW_RECORD_LEN];
static uint8_t bytes[RECORDS * TAPUNEROW_DATA_LEN];
static uint32_t scratch[2 * RECORDS];
static uint32_t roots[ROOTS];
static uint8_t text[TEXT];

int main(int argc, char **argv) {
    if (argc != 2) {
        fprintf(stderr, "probe FILE\n");
        return 2;
    }
    FILE *file = fopen(argv[1], "rb");
    if (file == NULL) {
        perror(argv[1]);
        return 2;
    }
    size_t len = fread(reply, 1, sizeof reply, file);
    if (ferror(file)) {
        perror(argv[1]);
        return 2;
    }
    fclose(file);
    if (len > MOST_BYTES) {
        puts("too long");
        return 0;
    }

    /* Memory that is all 0 is an empty store. */
    size_t count = 0;
    size_t answer[4];
    uint32_t number = tapunerow_read(reply, len, 1, &count, table, RECORDS * TAPUNEROW_RECORD_LEN, bytes, RECORDS * TAPUNEROW_DATA_LEN,
                                     scratch, 2 * RECORDS, roots, ROOTS, answer);
    if (number != 0) {
        printf("refused %u %zu\n", (unsigned)number, answer[0]);
        return 0;
    }
    printf("ok %zu %zu %zu\n", answer[0], answer[1], answer[2]);

    size_t listed = answer[2];
    for (size_t i = 0; i < listed; i++) {
        number = tapunerow_text(count, table, RECORDS * TAPUNEROW_RECORD_LEN, bytes, RECORDS * TAPUNEROW_DATA_LEN, roots[i], BUDGET,
                                scratch, 2 * RECORDS, text, TEXT, answer);
        if (number != 0)
            printf("refused %u %zu\n", (unsigned)number, answer[0]);
        else
            printf("%.*s\n", (int)answer[0], (const char *)text);
    }
    return 0;
}
