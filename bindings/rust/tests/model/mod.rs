//! An independent reading of the rules (docs/RULES.md) in plain Rust.
//!
//! It is written from the document alone and for clarity, not for speed: a call takes the lent memory apart into a list of cells, works
//! on the list, and lays the result out again. It is what the library is compared with.
//!
//! A call answers `Ok` with the values or `Err` with the refusal's number and place, and leaves every lent byte as the rules say: the scratch
//! is all 0 after every call that takes it, and a refusal changes nothing else.

#![allow(dead_code)]

use std::collections::HashMap;

/// Numbers of one record in the table: exotic flag, bit length, number of references, four references.
pub const RECORD_LEN: usize = 7;
/// Data bytes of one record.
pub const DATA_LEN: usize = 128;
/// The greatest number of cells in a store and in a bag.
pub const MAX_CELLS: usize = 4096;
pub const MAX_BITS_LEN: usize = 1023;
pub const MAX_REFS_COUNT: usize = 4;
/// The longest path of references that a text follows.
pub const MAX_PATH: usize = 256;
/// The greatest budget of a text, and the greatest depth.
pub const MAX_BUDGET: usize = 65_535;

pub const STORE: u32 = 1;
pub const CUT: u32 = 2;
pub const TAG: u32 = 3;
pub const INDEXED: u32 = 4;
pub const SIZE: u32 = 5;
pub const OFFSET: u32 = 6;
pub const COUNTS: u32 = 7;
pub const CELLS: u32 = 8;
pub const SCRATCH: u32 = 9;
pub const ROOTROOM: u32 = 10;
pub const REFS: u32 = 11;
pub const PADDING: u32 = 12;
pub const CRC: u32 = 13;
pub const EXTRA: u32 = 14;
pub const BACK: u32 = 15;
pub const RANGE: u32 = 16;
pub const ROOT: u32 = 17;
pub const FULL: u32 = 18;
pub const NOCELL: u32 = 19;
pub const NOROOM: u32 = 20;
pub const BITS: u32 = 21;
pub const DEPTH: u32 = 22;
pub const DEEP: u32 = 23;
pub const BUDGET: u32 = 24;

/// A refusal: its number, and the place that goes with it.
#[derive(Clone, Copy, PartialEq, Eq, Debug)]
pub struct Refusal {
    pub number: u32,
    pub place: usize,
}

fn refused<T>(number: u32, place: usize) -> Result<T, Refusal> {
    Err(Refusal { number, place })
}

/// A cell: `data` has as many bytes as the bits need, and its bits past `bits` are 0.
#[derive(Clone, PartialEq, Eq, Hash, Debug)]
pub struct Cell {
    pub exotic: bool,
    pub bits: usize,
    pub data: Vec<u8>,
    pub refs: Vec<u32>,
}

impl Cell {
    /// The cell of the first `bits` bits of `data`, which holds them.
    pub fn new(exotic: bool, bits: usize, data: &[u8], refs: &[u32]) -> Cell {
        Cell { exotic, bits, data: first_bits(data, bits), refs: refs.to_vec() }
    }
}

/// The bytes of the first `bits` bits, with 0 after them.
fn first_bits(data: &[u8], bits: usize) -> Vec<u8> {
    let mut kept = data[..bits.div_ceil(8)].to_vec();
    if !bits.is_multiple_of(8) {
        let last = kept.len() - 1;
        kept[last] &= !(0xffu8 >> (bits % 8));
    }
    kept
}

// ---- The store ----

/// A store's memory: its count, its table of seven numbers a record, and its data bytes, 128 a record.
#[derive(Clone, PartialEq, Eq, Debug)]
pub struct Memory {
    pub count: usize,
    pub table: Vec<u32>,
    pub bytes: Vec<u8>,
}

impl Memory {
    /// A cleared store with room for `records` cells.
    pub fn new(records: usize) -> Memory {
        Memory { count: 0, table: vec![0; records * RECORD_LEN], bytes: vec![0; records * DATA_LEN] }
    }
}

/// The number of records, if the two lengths are those of a store.
fn records(memory: &Memory) -> Option<usize> {
    let records = memory.table.len() / RECORD_LEN;
    let fits = memory.table.len() == records * RECORD_LEN && records <= MAX_CELLS && memory.bytes.len() == records * DATA_LEN;
    fits.then_some(records)
}

/// The cells of a sound store; STORE for any other.
pub fn held(memory: &Memory) -> Result<Vec<Cell>, Refusal> {
    let store = Refusal { number: STORE, place: 0 };
    let records = records(memory).ok_or(store)?;
    if memory.count > records {
        return Err(store);
    }
    let mut cells = Vec::with_capacity(memory.count);
    for own in 0..memory.count {
        let record = &memory.table[own * RECORD_LEN..(own + 1) * RECORD_LEN];
        let data = &memory.bytes[own * DATA_LEN..(own + 1) * DATA_LEN];
        let (flag, bits, count) = (record[0], record[1] as usize, record[2] as usize);
        if flag > 1 || bits > MAX_BITS_LEN || count > MAX_REFS_COUNT {
            return Err(store);
        }
        let (used, unused) = record[3..].split_at(count);
        if used.iter().any(|&r| r as usize >= own) || unused.iter().any(|&r| r != 0) {
            return Err(store);
        }
        let cell = Cell::new(flag == 1, bits, data, used);
        let (front, past) = data.split_at(cell.data.len());
        if front != cell.data || past.iter().any(|&b| b != 0) {
            return Err(store);
        }
        cells.push(cell);
    }
    let zero = memory.table[memory.count * RECORD_LEN..].iter().all(|&n| n == 0)
        && memory.bytes[memory.count * DATA_LEN..].iter().all(|&b| b == 0);
    if zero {
        Ok(cells)
    } else {
        Err(store)
    }
}

/// Lays the cells out in a memory that has room for them.
fn lay(memory: &mut Memory, cells: &[Cell]) {
    memory.count = cells.len();
    memory.table.fill(0);
    memory.bytes.fill(0);
    for (own, cell) in cells.iter().enumerate() {
        let record = &mut memory.table[own * RECORD_LEN..(own + 1) * RECORD_LEN];
        record[0] = cell.exotic as u32;
        record[1] = cell.bits as u32;
        record[2] = cell.refs.len() as u32;
        record[3..3 + cell.refs.len()].copy_from_slice(&cell.refs);
        memory.bytes[own * DATA_LEN..own * DATA_LEN + cell.data.len()].copy_from_slice(&cell.data);
    }
}

pub fn clear(memory: &mut Memory) -> Result<(), Refusal> {
    if records(memory).is_none() {
        return refused(STORE, 0);
    }
    lay(memory, &[]);
    Ok(())
}

pub fn add(memory: &mut Memory, built: &CellBuilder) -> Result<usize, Refusal> {
    let mut cells = held(memory)?;
    if built.len > MAX_BITS_LEN {
        return refused(BITS, 0);
    }
    if built.count > MAX_REFS_COUNT {
        return refused(REFS, 0);
    }
    let refs = &built.refs[..built.count];
    if let Some(position) = refs.iter().position(|&r| r as usize >= cells.len()) {
        return refused(NOCELL, position);
    }
    let cell = Cell::new(built.exotic, built.len, &built.bytes, refs);
    if let Some(number) = cells.iter().position(|c| *c == cell) {
        return Ok(number);
    }
    if cells.len() == records(memory).unwrap() {
        return refused(FULL, 0);
    }
    cells.push(cell);
    lay(memory, &cells);
    Ok(cells.len() - 1)
}

/// The cell of a number: its flag, bits and references.
pub fn cell(memory: &Memory, n: usize) -> Result<Cell, Refusal> {
    let cells = held(memory)?;
    one(&cells, n).cloned()
}

fn one(cells: &[Cell], n: usize) -> Result<&Cell, Refusal> {
    match cells.get(n) {
        Some(cell) => Ok(cell),
        None => refused(NOCELL, 0),
    }
}

// ---- The builder ----

#[derive(Clone, PartialEq, Eq, Debug)]
pub struct CellBuilder {
    pub exotic: bool,
    pub len: usize,
    pub bytes: [u8; DATA_LEN],
    pub count: usize,
    pub refs: [u32; MAX_REFS_COUNT],
}

/// A step of the builder: the builder, unchanged on a refusal, and the verdict.
pub type Step = (CellBuilder, Result<(), Refusal>);

impl CellBuilder {
    pub fn new(exotic: bool) -> CellBuilder {
        CellBuilder { exotic, len: 0, bytes: [0; DATA_LEN], count: 0, refs: [0; MAX_REFS_COUNT] }
    }

    /// Appends the first `n` bits of `bytes`.
    pub fn append(self, bytes: &[u8], n: usize) -> Step {
        if (bytes.len() as u128) * 8 < n as u128 {
            return (self, refused(CUT, 0));
        }
        self.push(n, |i| bytes[i / 8] & (0x80 >> (i % 8)) != 0)
    }

    /// Appends `n` times the same bit.
    pub fn repeat(self, n: usize, bit: bool) -> Step {
        self.push(n, |_| bit)
    }

    /// Appends a reference.
    pub fn reference(mut self, number: u32) -> Step {
        if self.count >= MAX_REFS_COUNT {
            return (self, refused(REFS, 0));
        }
        self.refs[self.count] = number;
        self.count += 1;
        (self, Ok(()))
    }

    fn push(mut self, n: usize, bit: impl Fn(usize) -> bool) -> Step {
        if self.len as u128 + n as u128 > MAX_BITS_LEN as u128 {
            return (self, refused(BITS, 0));
        }
        for i in 0..n {
            let mask = 0x80 >> (self.len % 8);
            if bit(i) {
                self.bytes[self.len / 8] |= mask;
            } else {
                self.bytes[self.len / 8] &= !mask;
            }
            self.len += 1;
        }
        (self, Ok(()))
    }
}

// ---- CRC-32C ----

/// RFC 3720's checksum: each byte goes in low bit first, over the reflected polynomial.
pub fn crc32c(bytes: &[u8]) -> u32 {
    const STEPS: [u32; 256] = {
        let mut steps = [0u32; 256];
        let mut byte = 0;
        while byte < 256 {
            let mut rest = byte as u32;
            let mut bit = 0;
            while bit < 8 {
                rest = if rest & 1 == 1 { (rest >> 1) ^ 0x82F6_3B78 } else { rest >> 1 };
                bit += 1;
            }
            steps[byte] = rest;
            byte += 1;
        }
        steps
    };
    !bytes.iter().fold(u32::MAX, |rest, &byte| (rest >> 8) ^ STEPS[((rest ^ byte as u32) & 0xff) as usize])
}

// ---- Reading ----

const GENERIC_TAG: u64 = 0xb5ee_9c72;
const INDEXED_TAG: u64 = 0x68ff_65f3;
const INDEXED_CRC_TAG: u64 = 0xacc3_a728;

/// What a read answers.
#[derive(Clone, Copy, PartialEq, Eq, Debug)]
pub struct Counts {
    pub used: usize,
    pub cells: usize,
    pub roots: usize,
    pub added: usize,
}

/// A reply and the place of the next field.
struct Fields<'a> {
    reply: &'a [u8],
    at: usize,
}

impl<'a> Fields<'a> {
    /// One field of `len` bytes; CUT at its first byte if it is not whole.
    fn field(&mut self, len: usize) -> Result<&'a [u8], Refusal> {
        if self.reply.len() - self.at < len {
            return refused(CUT, self.at);
        }
        let field = &self.reply[self.at..self.at + len];
        self.at += len;
        Ok(field)
    }

    /// A big-endian number of up to eight bytes.
    fn number(&mut self, len: usize) -> Result<u64, Refusal> {
        Ok(self.field(len)?.iter().fold(0, |n, &byte| n << 8 | byte as u64))
    }
}

/// A cell of a bag: its references are places in the bag, not yet checked.
struct BagCell {
    exotic: bool,
    bits: usize,
    data: Vec<u8>,
    refs: Vec<u64>,
}

/// A bag as its bytes say it.
struct Bag {
    used: usize,
    roots: Vec<u64>,
    cells: Vec<BagCell>,
}

fn bag_cell(fields: &mut Fields, size: usize) -> Result<BagCell, Refusal> {
    let first = fields.at;
    let d1 = fields.number(1)?;
    let count = d1 & 7;
    if count > MAX_REFS_COUNT as u64 {
        return refused(REFS, first);
    }
    let d2 = fields.number(1)? as usize;
    if d1 & 16 != 0 {
        let level = d1 >> 5;
        fields.field(34 * (level.count_ones() as usize + 1))?;
    }
    let start = fields.at;
    let data = fields.field(d2.div_ceil(2))?;
    let mut bits = data.len() * 8;
    if d2 % 2 == 1 {
        let last = data[data.len() - 1];
        if last == 0 {
            return refused(PADDING, start);
        }
        bits -= last.trailing_zeros() as usize + 1;
    }
    let refs = (0..count).map(|_| fields.number(size)).collect::<Result<_, _>>()?;
    Ok(BagCell { exotic: d1 & 8 != 0, bits, data: first_bits(data, bits), refs })
}

/// The bytes of a bag, up to and with EXTRA.
fn bag(reply: &[u8], whole: bool, scratch: usize, places: usize) -> Result<Bag, Refusal> {
    let mut fields = Fields { reply, at: 0 };
    match fields.number(4)? {
        GENERIC_TAG => {}
        INDEXED_TAG | INDEXED_CRC_TAG => return refused(INDEXED, 0),
        _ => return refused(TAG, 0),
    }
    let options = fields.number(1)?;
    let (has_idx, has_crc32c, size) = (options & 0x80 != 0, options & 0x40 != 0, (options & 7) as usize);
    if size > 4 {
        return refused(SIZE, 4);
    }
    let off_bytes = fields.number(1)? as usize;
    if off_bytes > 8 {
        return refused(OFFSET, 5);
    }
    let cells = fields.number(size)?;
    let roots = fields.number(size)?;
    let absent = fields.number(size)?;
    if roots + absent > cells {
        return refused(COUNTS, 6);
    }
    if cells > MAX_CELLS as u64 {
        return refused(CELLS, 6);
    }
    let (cells, roots) = (cells as usize, roots as usize);
    if scratch < 2 * cells {
        return refused(SCRATCH, 2 * cells);
    }
    if places < roots {
        return refused(ROOTROOM, roots);
    }
    fields.number(off_bytes)?;
    let roots = (0..roots).map(|_| fields.number(size)).collect::<Result<_, _>>()?;
    if has_idx {
        for _ in 0..cells {
            fields.number(off_bytes)?;
        }
    }
    let cells = (0..cells).map(|_| bag_cell(&mut fields, size)).collect::<Result<_, _>>()?;
    if has_crc32c {
        let at = fields.at;
        let sum = fields.field(4)?;
        if sum != crc32c(&reply[..at]).to_le_bytes() {
            return refused(CRC, at);
        }
    }
    if whole && fields.at < reply.len() {
        return refused(EXTRA, fields.at);
    }
    Ok(Bag { used: fields.at, roots, cells })
}

/// BACK, RANGE and ROOT: every reference names a later cell of the bag, every root a cell of it.
fn links(bag: &Bag) -> Result<(), Refusal> {
    for (own, cell) in bag.cells.iter().enumerate().rev() {
        for &r in &cell.refs {
            if r <= own as u64 {
                return refused(BACK, own);
            }
            if r >= bag.cells.len() as u64 {
                return refused(RANGE, own);
            }
        }
    }
    match bag.roots.iter().position(|&r| r >= bag.cells.len() as u64) {
        Some(position) => refused(ROOT, position),
        None => Ok(()),
    }
}

/// The whole reading (`unpack_fully`) or, with `whole` false, the one that allows bytes after the bag (`deserialize`).
pub fn read(reply: &[u8], whole: bool, memory: &mut Memory, scratch: &mut [u32], roots: &mut [u32]) -> Result<Counts, Refusal> {
    scratch.fill(0);
    let mut cells = held(memory)?;
    let bag = bag(reply, whole, scratch.len(), roots.len())?;
    links(&bag)?;
    let before = cells.len();
    let mut first: HashMap<Cell, u32> = HashMap::new();
    for (number, cell) in cells.iter().enumerate() {
        first.entry(cell.clone()).or_insert(number as u32);
    }
    let mut numbers = vec![0u32; bag.cells.len()];
    for (own, cell) in bag.cells.iter().enumerate().rev() {
        let refs = cell.refs.iter().map(|&r| numbers[r as usize]).collect();
        let cell = Cell { exotic: cell.exotic, bits: cell.bits, data: cell.data.clone(), refs };
        numbers[own] = *first.entry(cell.clone()).or_insert_with(|| {
            cells.push(cell);
            cells.len() as u32 - 1
        });
    }
    if cells.len() > memory.table.len() / RECORD_LEN {
        return refused(FULL, 0);
    }
    lay(memory, &cells);
    for (place, &root) in bag.roots.iter().enumerate() {
        roots[place] = numbers[root as usize];
    }
    Ok(Counts { used: bag.used, cells: bag.cells.len(), roots: bag.roots.len(), added: cells.len() - before })
}

// ---- Writing ----

/// The options of a write.
#[derive(Clone, Copy, PartialEq, Eq, Debug, Default)]
pub struct BagOfCellsArgs {
    pub has_idx: bool,
    pub has_crc32c: bool,
}

/// The cells reached from the root, in the order of the bag.
pub fn listing(cells: &[Cell], root: usize) -> Vec<usize> {
    let mut reached = vec![false; root + 1];
    let mut parents = vec![Vec::new(); root + 1];
    reached[root] = true;
    for own in (0..=root).rev() {
        if reached[own] {
            for &r in &cells[own].refs {
                reached[r as usize] = true;
                parents[r as usize].push(own);
            }
        }
    }
    let mut queue = vec![root];
    let mut joined = vec![false; root + 1];
    let mut listed = vec![false; root + 1];
    let mut front = 0;
    while front < queue.len() {
        let own = queue[front];
        front += 1;
        listed[own] = true;
        for &r in &cells[own].refs {
            let child = r as usize;
            if !joined[child] && parents[child].iter().all(|&p| listed[p]) {
                joined[child] = true;
                queue.push(child);
            }
        }
    }
    queue
}

/// The fewest bytes that hold a number above 0.
fn fewest(n: usize) -> usize {
    let mut len = 1;
    while n >> (8 * len) != 0 {
        len += 1;
    }
    len
}

fn put(out: &mut Vec<u8>, n: usize, len: usize) {
    for i in (0..len).rev() {
        out.push((n >> (8 * i)) as u8);
    }
}

/// The bytes of the bag with this root.
pub fn bag_of(cells: &[Cell], root: usize, args: BagOfCellsArgs) -> Vec<u8> {
    let order = listing(cells, root);
    let mut place = HashMap::new();
    for (i, &own) in order.iter().enumerate() {
        place.insert(own, i);
    }
    let size = fewest(order.len());
    let mut starts = Vec::new();
    let mut body = Vec::new();
    for &own in &order {
        let cell = &cells[own];
        starts.push(body.len());
        body.push(cell.refs.len() as u8 + 8 * cell.exotic as u8);
        body.push((cell.bits / 8 + cell.bits.div_ceil(8)) as u8);
        body.extend_from_slice(&cell.data);
        if !cell.bits.is_multiple_of(8) {
            *body.last_mut().unwrap() |= 0x80 >> (cell.bits % 8);
        }
        for &r in &cell.refs {
            put(&mut body, place[&(r as usize)], size);
        }
    }
    let off_bytes = fewest(body.len());
    let mut out = Vec::new();
    put(&mut out, GENERIC_TAG as usize, 4);
    out.push(0x80 * args.has_idx as u8 + 0x40 * args.has_crc32c as u8 + size as u8);
    out.push(off_bytes as u8);
    put(&mut out, order.len(), size);
    put(&mut out, 1, size);
    put(&mut out, 0, size);
    put(&mut out, body.len(), off_bytes);
    put(&mut out, 0, size);
    if args.has_idx {
        for start in starts {
            put(&mut out, start, off_bytes);
        }
    }
    out.extend_from_slice(&body);
    if args.has_crc32c {
        let sum = crc32c(&out);
        out.extend_from_slice(&sum.to_le_bytes());
    }
    out
}

/// Writes the bag of cell `n` and answers its length.
pub fn write(memory: &Memory, n: usize, args: BagOfCellsArgs, scratch: &mut [u32], out: &mut [u8]) -> Result<usize, Refusal> {
    let given = scratch.len();
    scratch.fill(0);
    let cells = held(memory)?;
    one(&cells, n)?;
    if given < 4 * cells.len() {
        return refused(SCRATCH, 4 * cells.len());
    }
    let bytes = bag_of(&cells, n, args);
    fill_front(out, &bytes)
}

fn fill_front(out: &mut [u8], bytes: &[u8]) -> Result<usize, Refusal> {
    if out.len() < bytes.len() {
        return refused(NOROOM, bytes.len());
    }
    out[..bytes.len()].copy_from_slice(bytes);
    Ok(bytes.len())
}

// ---- Depth and text ----

/// The depth that a pruned branch states.
fn pruned_depth(cell: &Cell) -> Option<usize> {
    let data = &cell.data;
    if !cell.exotic || data.len() < 36 || data[0] != 1 {
        return None;
    }
    let level = data[1].count_ones() as usize;
    if data.len() != 2 + 34 * level {
        return None;
    }
    Some(256 * data[2 + 32 * level] as usize + data[3 + 32 * level] as usize)
}

pub fn max_depth(memory: &Memory, n: usize, scratch: &mut [u32]) -> Result<usize, Refusal> {
    let given = scratch.len();
    scratch.fill(0);
    let cells = held(memory)?;
    one(&cells, n)?;
    if given < cells.len() {
        return refused(SCRATCH, cells.len());
    }
    let mut depths: Vec<usize> = Vec::new();
    for cell in &cells[..=n] {
        let below = cell.refs.iter().map(|&r| depths[r as usize] + 1).max().unwrap_or(0);
        depths.push(pruned_depth(cell).unwrap_or(below));
    }
    if depths[n] > MAX_BUDGET {
        refused(DEPTH, 0)
    } else {
        Ok(depths[n])
    }
}

fn print(cells: &[Cell], n: usize, text: &mut String) {
    let cell = &cells[n];
    text.push_str(&format!("{}[0x", cell.bits));
    for byte in &cell.data {
        text.push_str(&format!("{byte:02X}"));
    }
    text.push(']');
    if !cell.refs.is_empty() {
        text.push_str(" -> {");
        for (i, &r) in cell.refs.iter().enumerate() {
            if i > 0 {
                text.push_str(", ");
            }
            print(cells, r as usize, text);
        }
        text.push('}');
    }
}

/// What a text answers: bytes written and cells printed.
#[derive(Clone, Copy, PartialEq, Eq, Debug)]
pub struct Printed {
    pub written: usize,
    pub cells: usize,
}

pub fn debug_text(memory: &Memory, n: usize, budget: usize, scratch: &mut [u32], out: &mut [u8]) -> Result<Printed, Refusal> {
    let given = scratch.len();
    scratch.fill(0);
    let cells = held(memory)?;
    one(&cells, n)?;
    if given < cells.len() {
        return refused(SCRATCH, cells.len());
    }
    // The longest path and the size of the unfolded tree, of each cell up to n.
    let mut paths: Vec<usize> = Vec::new();
    let mut sizes: Vec<u64> = Vec::new();
    for cell in &cells[..=n] {
        paths.push(cell.refs.iter().map(|&r| paths[r as usize] + 1).max().unwrap_or(0));
        sizes.push(cell.refs.iter().fold(1, |sum: u64, &r| sum.saturating_add(sizes[r as usize])));
    }
    if paths[n] > MAX_PATH {
        return refused(DEEP, 0);
    }
    let budget = budget.min(MAX_BUDGET);
    if sizes[n] > budget as u64 {
        return refused(BUDGET, budget);
    }
    let mut text = String::new();
    print(&cells, n, &mut text);
    let written = fill_front(out, text.as_bytes())?;
    Ok(Printed { written, cells: sizes[n] as usize })
}

// ---- The program ----

/// What the program prints for its standard input.
pub fn printed(input: &[u8]) -> Vec<u8> {
    reported(input, 128, 256, 16)
}

/// The report of an input: with a store of so many cells, so many scratch entries, and so many root places.
pub fn reported(input: &[u8], cells: usize, entries: usize, places: usize) -> Vec<u8> {
    if input.len() > 32_768 {
        return b"too long\n".to_vec();
    }
    let mut memory = Memory::new(cells);
    let mut scratch = vec![0; entries];
    let mut roots = vec![0; places];
    let mut out = [0u8; 8192];
    let counts = match read(input, true, &mut memory, &mut scratch, &mut roots) {
        Ok(counts) => counts,
        Err(refusal) => return refusal_line(refusal),
    };
    let mut lines = format!("ok {} {} {}\n", counts.used, counts.cells, counts.roots).into_bytes();
    for &root in &roots[..counts.roots] {
        match debug_text(&memory, root as usize, 1000, &mut scratch, &mut out) {
            Ok(text) => {
                lines.extend_from_slice(&out[..text.written]);
                lines.push(b'\n');
            }
            Err(refusal) => lines.extend(refusal_line(refusal)),
        }
    }
    lines
}

fn refusal_line(refusal: Refusal) -> Vec<u8> {
    format!("refused {} {}\n", refusal.number, refusal.place).into_bytes()
}
