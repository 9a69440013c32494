//! The library's calls on lent memory, safe but otherwise as they are.
//!
//! A store's memory is a count, a table of [`RECORD_LEN`] numbers a record (exotic flag, bit length, number of references, four
//! references) and [`DATA_LEN`] data bytes a record. A call on memory that is not a sound store is refused by [`Refusal::Store`].
//! The scratch is all 0 after every call that takes it; a refusal changes no other memory.

use crate::ffi;
use crate::{Cell, Options, Refusal};

/// Numbers of one record in the table.
pub const RECORD_LEN: usize = 7;
/// Data bytes of one record.
pub const DATA_LEN: usize = 128;
/// The greatest number of records.
pub const MAX_CELLS: usize = 4096;

/// A store's memory, lent for a call that may change it.
pub struct Lent<'a> {
    pub count: &'a mut usize,
    pub table: &'a mut [u32],
    pub bytes: &'a mut [u8],
}

/// A store's memory, lent for a call that only looks at it.
#[derive(Clone, Copy)]
pub struct Seen<'a> {
    pub count: usize,
    pub table: &'a [u32],
    pub bytes: &'a [u8],
}

/// What a read answers.
#[derive(Clone, Copy, PartialEq, Eq, Debug)]
pub struct Counts {
    /// Bytes of the bag: the place after its last field.
    pub used: usize,
    /// Cells of the bag.
    pub cells: usize,
    /// Roots of the bag.
    pub roots: usize,
    /// Cells that are new in the store.
    pub added: usize,
}

/// What a text answers.
#[derive(Clone, Copy, PartialEq, Eq, Debug)]
pub struct Printed {
    /// Bytes written.
    pub written: usize,
    /// Cells printed, shared ones as often as they stand in the text.
    pub cells: usize,
}

fn verdict<const N: usize>(number: u32, answer: [usize; N]) -> Result<[usize; N], Refusal> {
    if number == 0 {
        Ok(answer)
    } else {
        Err(Refusal::new(number, answer[0]))
    }
}

/// Sets the count to 0 and zeroes table and data. Only the lengths must be a store's.
pub fn clear(store: Lent) -> Result<(), Refusal> {
    let mut answer = [0; 1];
    // SAFETY: every pointer comes from a slice or reference that is borrowed for the call, with the slice's own length; `answer`
    // has the entries that the interface names. The same holds for every call below.
    let number = unsafe {
        ffi::tapunerow_clear(
            store.count,
            store.table.as_mut_ptr(),
            store.table.len(),
            store.bytes.as_mut_ptr(),
            store.bytes.len(),
            answer.as_mut_ptr(),
        )
    };
    verdict(number, answer).map(|_| ())
}

/// Adds the cell with the first `bits` bits of `data` and answers its number.
pub fn add(store: Lent, exotic: bool, bits: usize, data: &[u8], refs: &[u32]) -> Result<usize, Refusal> {
    let mut answer = [0; 1];
    // SAFETY: as in `clear`.
    let number = unsafe {
        ffi::tapunerow_add(
            store.count,
            store.table.as_mut_ptr(),
            store.table.len(),
            store.bytes.as_mut_ptr(),
            store.bytes.len(),
            exotic as u32,
            bits,
            data.as_ptr(),
            data.len(),
            refs.as_ptr(),
            refs.len(),
            answer.as_mut_ptr(),
        )
    };
    verdict(number, answer).map(|[n]| n)
}

/// The cell of a number.
pub fn cell(store: Seen, n: usize) -> Result<Cell, Refusal> {
    let mut answer = [0; 7];
    // SAFETY: as in `clear`.
    let number = unsafe {
        ffi::tapunerow_cell(
            store.count,
            store.table.as_ptr(),
            store.table.len(),
            store.bytes.as_ptr(),
            store.bytes.len(),
            n,
            answer.as_mut_ptr(),
        )
    };
    let [exotic, bits, count, refs @ ..] = verdict(number, answer)?;
    let mut data = vec![0; DATA_LEN];
    let len = cell_data(store, n, &mut data)?;
    data.truncate(len);
    let refs = refs.iter().take(count).map(|&r| r as u32).collect();
    Ok(Cell { exotic: exotic == 1, bits, data, refs })
}

/// Copies the data bytes of a cell to the front of `out` and answers their number.
pub fn cell_data(store: Seen, n: usize, out: &mut [u8]) -> Result<usize, Refusal> {
    let mut answer = [0; 1];
    // SAFETY: as in `clear`.
    let number = unsafe {
        ffi::tapunerow_cell_data(
            store.count,
            store.table.as_ptr(),
            store.table.len(),
            store.bytes.as_ptr(),
            store.bytes.len(),
            n,
            out.as_mut_ptr(),
            out.len(),
            answer.as_mut_ptr(),
        )
    };
    verdict(number, answer).map(|[len]| len)
}

/// Reads a bag into the store; with `whole` no bytes may follow it. The scratch takes two entries a bag cell; the first root places
/// take the numbers of the roots.
pub fn read(reply: &[u8], whole: bool, store: Lent, scratch: &mut [u32], roots: &mut [u32]) -> Result<Counts, Refusal> {
    let mut answer = [0; 4];
    // SAFETY: as in `clear`.
    let number = unsafe {
        ffi::tapunerow_read(
            reply.as_ptr(),
            reply.len(),
            whole as u32,
            store.count,
            store.table.as_mut_ptr(),
            store.table.len(),
            store.bytes.as_mut_ptr(),
            store.bytes.len(),
            scratch.as_mut_ptr(),
            scratch.len(),
            roots.as_mut_ptr(),
            roots.len(),
            answer.as_mut_ptr(),
        )
    };
    verdict(number, answer).map(|[used, cells, roots, added]| Counts { used, cells, roots, added })
}

/// Writes the bag of cell `n` to the front of `out` and answers its length. The scratch takes four entries a stored cell.
pub fn write(store: Seen, n: usize, options: Options, scratch: &mut [u32], out: &mut [u8]) -> Result<usize, Refusal> {
    let mut answer = [0; 1];
    // SAFETY: as in `clear`.
    let number = unsafe {
        ffi::tapunerow_write(
            store.count,
            store.table.as_ptr(),
            store.table.len(),
            store.bytes.as_ptr(),
            store.bytes.len(),
            n,
            options.has_idx as u32,
            options.has_crc32c as u32,
            scratch.as_mut_ptr(),
            scratch.len(),
            out.as_mut_ptr(),
            out.len(),
            answer.as_mut_ptr(),
        )
    };
    verdict(number, answer).map(|[len]| len)
}

/// The depth of cell `n`. The scratch takes one entry a stored cell.
pub fn depth(store: Seen, n: usize, scratch: &mut [u32]) -> Result<usize, Refusal> {
    let mut answer = [0; 1];
    // SAFETY: as in `clear`.
    let number = unsafe {
        ffi::tapunerow_depth(
            store.count,
            store.table.as_ptr(),
            store.table.len(),
            store.bytes.as_ptr(),
            store.bytes.len(),
            n,
            scratch.as_mut_ptr(),
            scratch.len(),
            answer.as_mut_ptr(),
        )
    };
    verdict(number, answer).map(|[depth]| depth)
}

/// Writes the text of cell `n` to the front of `out`, at most `budget` cells of it. The scratch takes one entry a stored cell.
pub fn text(store: Seen, n: usize, budget: usize, scratch: &mut [u32], out: &mut [u8]) -> Result<Printed, Refusal> {
    let mut answer = [0; 2];
    // SAFETY: as in `clear`.
    let number = unsafe {
        ffi::tapunerow_text(
            store.count,
            store.table.as_ptr(),
            store.table.len(),
            store.bytes.as_ptr(),
            store.bytes.len(),
            n,
            budget,
            scratch.as_mut_ptr(),
            scratch.len(),
            out.as_mut_ptr(),
            out.len(),
            answer.as_mut_ptr(),
        )
    };
    verdict(number, answer).map(|[written, cells]| Printed { written, cells })
}

/// CRC-32C of the bytes.
pub fn crc32c(bytes: &[u8]) -> u32 {
    // SAFETY: as in `clear`.
    unsafe { ffi::tapunerow_crc32c(bytes.as_ptr(), bytes.len()) }
}
