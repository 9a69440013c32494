/*
 * Tapunerow: reads and writes TON bags of cells. The C interface of the library libtapunerow.a.
 *
 * Nothing is allocated and nothing is kept between calls: the caller lends all memory.
 *
 * A store is a count, a table of TAPUNEROW_RECORD_LEN numbers a record (exotic flag, bit length, number of references, four references,
 * unused ones 0) and TAPUNEROW_DATA_LEN data bytes a record, for at most TAPUNEROW_MAX_CELLS records. Memory that is all 0 is an empty
 * store, and tapunerow_clear makes one of any memory of the right lengths. Every other call that takes a store refuses one that is not
 * sound; to see that, it reads all of the store's memory.
 *
 * Every length is in entries of its slice; an empty slice may have a null pointer. A flag is set if it is not 0. Lent slices, the count and the answer
 * must not overlap.
 *
 * Every call but tapunerow_crc32c answers 0 when it is accepted, with its values in `answer`; otherwise it answers a refusal number, with the place
 * in answer[0] and 0 in the other entries. The refusals of a call are named in the order in which they are tested. The scratch is all 0 after every
 * call that takes it; a refusal changes no other lent memory but the answer, and no call writes more than it says.
 *
 * Every function is proved to do what is said here: the contracts are in crates/tapunerow/specs/Promises.antt. They do not speak of the stack:
 * tapunerow_text takes up to a quarter of a megabyte of it, every other call less than 8 KB.
 */
#ifndef TAPUNEROW_H
#define TAPUNEROW_H

#include <stddef.h>
#include <stdint.h>

#ifdef __cplusplus
extern "C" {
#endif

#define TAPUNEROW_RECORD_LEN 7
#define TAPUNEROW_DATA_LEN 128
#define TAPUNEROW_MAX_CELLS 4096

/* The refusal numbers, and the place, where it is not 0. */
enum tapunerow_refusal {
    TAPUNEROW_STORE = 1,     /* the store is not sound; in clearing, wrong lengths */
    TAPUNEROW_CUT = 2,       /* a field is not whole; its first byte. In adding, data too short; 0 */
    TAPUNEROW_TAG = 3,       /* not the tag of a bag */
    TAPUNEROW_INDEXED = 4,   /* the tag of an indexed bag */
    TAPUNEROW_SIZE = 5,      /* size over 4; 4 */
    TAPUNEROW_OFFSET = 6,    /* off_bytes over 8; 5 */
    TAPUNEROW_COUNTS = 7,    /* more roots and absent cells than cells; 6 */
    TAPUNEROW_CELLS = 8,     /* more than 4,096 cells; 6 */
    TAPUNEROW_SCRATCH = 9,   /* scratch too short; entries needed */
    TAPUNEROW_ROOTROOM = 10, /* fewer root places than roots; the roots */
    TAPUNEROW_REFS = 11,     /* more than 4 references; the cell's first byte, 0 outside reading */
    TAPUNEROW_PADDING = 12,  /* padding without a 1 bit; first data byte */
    TAPUNEROW_CRC = 13,      /* checksums differ; its first byte */
    TAPUNEROW_EXTRA = 14,    /* bytes after the bag; the first of them */
    TAPUNEROW_BACK = 15,     /* a reference that does not go onward; the cell's place in the bag */
    TAPUNEROW_RANGE = 16,    /* a reference past the bag's cells; the cell's place in the bag */
    TAPUNEROW_ROOT = 17,     /* a root past the bag's cells; its place in the root list */
    TAPUNEROW_FULL = 18,     /* no room for all new cells */
    TAPUNEROW_NOCELL = 19,   /* no cell of this number; in adding, the reference's position */
    TAPUNEROW_NOROOM = 20,   /* output too short; length needed */
    TAPUNEROW_BITS = 21,     /* more than 1,023 bits */
    TAPUNEROW_DEPTH = 22,    /* depth over 65,535 */
    TAPUNEROW_DEEP = 23,     /* a path of more than 256 references */
    TAPUNEROW_BUDGET = 24    /* more cells than the budget allows; the budget, at most 65,535 */
};

/* Empties the store: the count, the table and the bytes are 0. Refuses STORE, on wrong lengths: the table has TAPUNEROW_RECORD_LEN numbers a record, for
 * at most TAPUNEROW_MAX_CELLS records, and there are TAPUNEROW_DATA_LEN bytes a record. answer: 0. */
uint32_t tapunerow_clear(size_t *count, uint32_t *table, size_t table_len, uint8_t *bytes, size_t bytes_len, size_t answer[1]);

/* Adds the cell with the first `bits` bits of `data` and these references, if no equal cell is held. Refuses CUT where `data` has fewer bits, then
 * STORE, BITS, REFS, NOCELL, FULL. answer: the number of the cell, or of the lowest-numbered one equal to it. */
uint32_t tapunerow_add(size_t *count, uint32_t *table, size_t table_len, uint8_t *bytes, size_t bytes_len, uint32_t exotic, size_t bits,
                       const uint8_t *data, size_t data_len, const uint32_t *refs, size_t refs_len, size_t answer[1]);

/* Asks for cell n. Refuses STORE, NOCELL. answer: exotic flag, bit length, number of references, the four references (unused ones 0). */
uint32_t tapunerow_cell(size_t count, const uint32_t *table, size_t table_len, const uint8_t *bytes, size_t bytes_len, size_t n,
                        size_t answer[7]);

/* Copies the data bytes of cell n to the front of `out`; TAPUNEROW_DATA_LEN bytes always suffice. Bits past its length are 0. Refuses STORE, NOCELL,
 * NOROOM. answer: how many bytes. */
uint32_t tapunerow_cell_data(size_t count, const uint32_t *table, size_t table_len, const uint8_t *bytes, size_t bytes_len, size_t n,
                             uint8_t *out, size_t out_len, size_t answer[1]);

/* Reads a bag into the store; if `whole` is set, no bytes may follow it. The scratch needs two entries a bag cell, and there must be a root place for
 * every root: the first ones take the roots' numbers. Refuses STORE; then what is wrong in the bytes, as they come (CUT to PADDING); CRC; EXTRA; BACK and
 * RANGE, from the last cell to the first; ROOT; FULL. answer: bytes used, bag cells, roots, cells added. */
uint32_t tapunerow_read(const uint8_t *reply, size_t reply_len, uint32_t whole, size_t *count, uint32_t *table, size_t table_len,
                        uint8_t *bytes, size_t bytes_len, uint32_t *scratch, size_t scratch_len, uint32_t *roots, size_t roots_len,
                        size_t answer[4]);

/* Writes the bag of cell n to the front of `out`. The scratch needs four entries a stored cell. Refuses STORE, NOCELL, SCRATCH, NOROOM.
 * answer: bytes written. */
uint32_t tapunerow_write(size_t count, const uint32_t *table, size_t table_len, const uint8_t *bytes, size_t bytes_len, size_t n,
                         uint32_t has_idx, uint32_t has_crc32c, uint32_t *scratch, size_t scratch_len, uint8_t *out, size_t out_len,
                         size_t answer[1]);

/* The depth of cell n. The scratch needs one entry a stored cell. Refuses STORE, NOCELL, SCRATCH, DEPTH. answer: the depth. */
uint32_t tapunerow_depth(size_t count, const uint32_t *table, size_t table_len, const uint8_t *bytes, size_t bytes_len, size_t n,
                         uint32_t *scratch, size_t scratch_len, size_t answer[1]);

/* Writes the text of cell n, of at most `budget` cells, to the front of `out`, with no 0 behind it. A budget over 65,535 counts as 65,535. The scratch
 * needs one entry a stored cell. Refuses STORE, NOCELL, SCRATCH, DEEP, BUDGET, NOROOM. answer: bytes written, cells printed. */
uint32_t tapunerow_text(size_t count, const uint32_t *table, size_t table_len, const uint8_t *bytes, size_t bytes_len, size_t n,
                        size_t budget, uint32_t *scratch, size_t scratch_len, uint8_t *out, size_t out_len, size_t answer[2]);

/* CRC-32C of the bytes. */
uint32_t tapunerow_crc32c(const uint8_t *bytes, size_t bytes_len);

#ifdef __cplusplus
}
#endif

#endif
