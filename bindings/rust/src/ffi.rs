//! The C interface, as `include/tapunerow.h` declares it. This is the only file that names its functions.
//!
//! Every call answers 0, or the refusal's number; `answer` then holds the place in its first entry, and the values otherwise. Slices are
//! pointer and length in entries; flags are 0 or 1.

use core::ffi::c_uint;

extern "C" {
    /// Sets the count to 0 and zeroes both slices. `answer`: 1 entry, the place alone.
    pub fn tapunerow_clear(
        count: *mut usize,
        table: *mut u32,
        table_len: usize,
        bytes: *mut u8,
        bytes_len: usize,
        answer: *mut usize,
    ) -> c_uint;

    /// Adds a cell of the first `bits` bits of `data`. `answer`: 1 entry, the cell's number.
    pub fn tapunerow_add(
        count: *mut usize,
        table: *mut u32,
        table_len: usize,
        bytes: *mut u8,
        bytes_len: usize,
        exotic: u32,
        bits: usize,
        data: *const u8,
        data_len: usize,
        refs: *const u32,
        refs_len: usize,
        answer: *mut usize,
    ) -> c_uint;

    /// `answer`: 7 entries, the exotic flag, the bit length, the number of references, the four references (unused ones 0).
    pub fn tapunerow_cell(
        count: usize,
        table: *const u32,
        table_len: usize,
        bytes: *const u8,
        bytes_len: usize,
        n: usize,
        answer: *mut usize,
    ) -> c_uint;

    /// Copies a cell's data bytes to the front of `out`. `answer`: 1 entry, the number of bytes.
    pub fn tapunerow_cell_data(
        count: usize,
        table: *const u32,
        table_len: usize,
        bytes: *const u8,
        bytes_len: usize,
        n: usize,
        out: *mut u8,
        out_len: usize,
        answer: *mut usize,
    ) -> c_uint;

    /// Reads a bag; with `whole` 1 no bytes may follow it. `answer`: 4 entries, bytes used, bag cells, roots, cells added.
    pub fn tapunerow_read(
        reply: *const u8,
        reply_len: usize,
        whole: u32,
        count: *mut usize,
        table: *mut u32,
        table_len: usize,
        bytes: *mut u8,
        bytes_len: usize,
        scratch: *mut u32,
        scratch_len: usize,
        roots: *mut u32,
        roots_len: usize,
        answer: *mut usize,
    ) -> c_uint;

    /// Writes the bag of cell `n` to the front of `out`. `answer`: 1 entry, the number of bytes.
    pub fn tapunerow_write(
        count: usize,
        table: *const u32,
        table_len: usize,
        bytes: *const u8,
        bytes_len: usize,
        n: usize,
        has_idx: u32,
        has_crc32c: u32,
        scratch: *mut u32,
        scratch_len: usize,
        out: *mut u8,
        out_len: usize,
        answer: *mut usize,
    ) -> c_uint;

    /// `answer`: 1 entry, the depth.
    pub fn tapunerow_depth(
        count: usize,
        table: *const u32,
        table_len: usize,
        bytes: *const u8,
        bytes_len: usize,
        n: usize,
        scratch: *mut u32,
        scratch_len: usize,
        answer: *mut usize,
    ) -> c_uint;

    /// Writes the text of cell `n` to the front of `out`. `answer`: 2 entries, bytes written, cells printed.
    pub fn tapunerow_text(
        count: usize,
        table: *const u32,
        table_len: usize,
        bytes: *const u8,
        bytes_len: usize,
        n: usize,
        budget: usize,
        scratch: *mut u32,
        scratch_len: usize,
        out: *mut u8,
        out_len: usize,
        answer: *mut usize,
    ) -> c_uint;

    /// CRC-32C of the bytes.
    pub fn tapunerow_crc32c(bytes: *const u8, bytes_len: usize) -> u32;
}
