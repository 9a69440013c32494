//! The library beside a plain Rust implementation and beside the limit, a copy of the reply.
//!
//!     cargo bench --bench speed
//!
//! Both run on the same inputs in turn, in one process. The first figures are medians of the samples, the next ones the least; noise is
//! the distance from the tenth to the ninetieth percentile as a share of the median, of the library and of the plain implementation.
//! Stores are brought back to what they held outside the timing. The library writes into lent buffers that are not cleared
//! between calls; the plain implementation allocates what it answers, as its callers would have it do.

include!(concat!(env!("CARGO_MANIFEST_DIR"), "/src/linked.rs"));

#[path = "../tests/make/mod.rs"]
mod make;
#[path = "../tests/model/mod.rs"]
mod model;
mod plain;

use make::*;
use plain::{PlainCell, PlainStore};
use std::hint::black_box;
use std::time::{Duration, Instant};
use tapunerow::lent::{self, Lent, Seen, DATA_LEN, RECORD_LEN};
use tapunerow::Options;

// ---- Samples ----

/// Times of one call, in nanoseconds.
struct Sample {
    median: f64,
    least: f64,
    noise: f64,
}

impl Sample {
    fn of(mut times: Vec<f64>) -> Sample {
        times.sort_by(f64::total_cmp);
        let at = |share: f64| times[((times.len() - 1) as f64 * share) as usize];
        Sample { median: at(0.5), least: at(0.0), noise: (at(0.9) - at(0.1)) / at(0.5) }
    }
}

/// Runs the two in turn for about a third of a second. Each answers the time of one call, however many it made.
fn side_by_side(mut library: impl FnMut() -> f64, mut plain: impl FnMut() -> f64) -> (Sample, Sample) {
    let (mut first, mut second) = (Vec::new(), Vec::new());
    let started = Instant::now();
    while first.len() < 11 || (started.elapsed() < Duration::from_millis(300) && first.len() < 2000) {
        first.push(library());
        second.push(plain());
    }
    (Sample::of(first), Sample::of(second))
}

/// Nanoseconds a call, over `calls` calls.
fn timed<T>(calls: usize, mut run: impl FnMut(usize) -> T) -> f64 {
    let started = Instant::now();
    for i in 0..calls {
        black_box(run(i));
    }
    started.elapsed().as_nanos() as f64 / calls as f64
}

fn heading(title: &str) {
    println!("\n{title}\n");
    println!("| What | Library µs | Plain Rust µs | Plain / library | Least: library µs | plain µs | ratio | Copy of the bytes µs | Noise |");
    println!("|---|---|---|---|---|---|---|---|---|");
}

fn row(what: &str, (library, plain): (Sample, Sample), bytes: Option<&[u8]>) {
    let copy = bytes.map_or("".to_string(), |bytes| format!("{:.3}", copied(bytes) / 1000.0));
    let micros = |nanos: f64| format!("{:.3}", nanos / 1000.0);
    println!(
        "| {what} | {} | {} | {:.2} | {} | {} | {:.2} | {copy} | {:.0}%, {:.0}% |",
        micros(library.median),
        micros(plain.median),
        plain.median / library.median,
        micros(library.least),
        micros(plain.least),
        plain.least / library.least,
        library.noise * 100.0,
        plain.noise * 100.0
    );
}

/// The limit: the time of a copy of the bytes.
fn copied(bytes: &[u8]) -> f64 {
    let mut to = vec![0u8; bytes.len()];
    let times = (0..31).map(|_| {
        timed(64, |_| {
            to.copy_from_slice(black_box(bytes));
            black_box(&mut to);
        })
    });
    Sample::of(times.collect()).median
}

// ---- Stores ----

/// A store's memory for the library.
#[derive(Clone)]
struct Memory {
    count: usize,
    table: Vec<u32>,
    bytes: Vec<u8>,
}

impl Memory {
    fn new(room: usize) -> Memory {
        Memory { count: 0, table: vec![0; room * RECORD_LEN], bytes: vec![0; room * DATA_LEN] }
    }

    fn lent(&mut self) -> Lent<'_> {
        Lent { count: &mut self.count, table: &mut self.table, bytes: &mut self.bytes }
    }

    fn seen(&self) -> Seen<'_> {
        Seen { count: self.count, table: &self.table, bytes: &self.bytes }
    }

    /// Forgets the cells from `count` on.
    fn back_to(&mut self, count: usize) {
        self.table[count * RECORD_LEN..self.count * RECORD_LEN].fill(0);
        self.bytes[count * DATA_LEN..self.count * DATA_LEN].fill(0);
        self.count = count;
    }
}

/// Both stores, with the same cells in them.
fn both(room: usize, held: usize) -> (Memory, PlainStore) {
    let (mut memory, mut store) = (Memory::new(room), PlainStore::new(room));
    if held > 0 {
        let frames = (0..held).map(|i| Frame::of(&[0x77, (i >> 8) as u8, i as u8], &[])).collect();
        let bag = Bag::new(&[0], frames).bytes();
        lent::read(&bag, true, memory.lent(), &mut vec![0; 2 * held], &mut [0]).unwrap();
        store.read(&bag).unwrap();
    }
    (memory, store)
}

/// Both stores with a reply read into them, and the root.
fn with_reply(reply: &[u8], room: usize, cells: usize) -> (Memory, PlainStore, usize) {
    let (mut memory, mut store) = both(room, 0);
    let mut roots = [0];
    lent::read(reply, true, memory.lent(), &mut vec![0; 2 * cells], &mut roots).unwrap();
    let read = store.read(reply).unwrap();
    assert_eq!(read.roots, roots);
    (memory, store, roots[0] as usize)
}

// ---- Replies ----

/// Cells of distinct data, of which each refers to the next and to one further on.
fn cells_of(count: usize, data: usize) -> Bag {
    let frames = (0..count).map(|i| {
        let mut bytes: Vec<u8> = (0..data).map(|j| (i * 31 + j * 7) as u8).collect();
        let own = [(i >> 8) as u8, i as u8];
        let len = own.len().min(data);
        bytes[..len].copy_from_slice(&own[..len]);
        let refs: Vec<u64> = [i + 1, i + 9].iter().filter(|&&r| r < count).map(|&r| r as u64).collect();
        Frame::of(&bytes, &refs)
    });
    Bag::new(&[0], frames.collect()).with(HAS_CRC)
}

/// 128 cells in 32 KB: full data, and hashes where they fit.
fn full_reply() -> Vec<u8> {
    let mut bag = cells_of(128, 127);
    for i in 0..128 {
        let mut longer = bag.clone();
        longer.cells[i] = longer.cells[i].clone().with_hashes(7, i as u8);
        if longer.bytes().len() > 32_768 {
            break;
        }
        bag = longer;
    }
    bag.bytes()
}

// ---- The tables ----

fn reading(replies: &[(&str, usize, Vec<u8>)]) {
    heading("Reading (the whole reading)");
    for (name, cells, reply) in replies {
        let mut rooms = vec![(*cells, 0), (4096, 0), (4096, 4000.min(4096 - cells))];
        rooms.dedup();
        for (room, held) in rooms {
            read_row(&format!("{name}: {} bytes, {cells} cells, into {held} of {room}", reply.len()), reply, *cells, room, held);
        }
        // All cells are held already.
        let (mut memory, mut store, _) = with_reply(reply, *cells, *cells);
        let mut scratch = vec![0; 2 * cells];
        let calls = if *cells <= 20 { 64 } else { 1 };
        let pair = side_by_side(
            || timed(calls, |_| lent::read(reply, true, memory.lent(), &mut scratch, &mut [0])),
            || timed(calls, |_| store.read(reply)),
        );
        row(&format!("{name}: the same again, nothing new"), pair, Some(reply));
    }
}

fn read_row(what: &str, reply: &[u8], cells: usize, room: usize, held: usize) {
    let calls = if room <= 20 { 32 } else { 1 };
    let (memory, store) = both(room, held);
    let mut memories = vec![memory; calls];
    let mut stores = vec![store; calls];
    let mut scratch = vec![0; 2 * cells];
    let mut roots = [0];
    let pair = side_by_side(
        || {
            memories.iter_mut().for_each(|memory| memory.back_to(held));
            timed(calls, |i| lent::read(reply, true, memories[i].lent(), &mut scratch, &mut roots).unwrap())
        },
        || {
            stores.iter_mut().for_each(|store| store.back_to(held));
            timed(calls, |i| stores[i].read(reply).unwrap())
        },
    );
    row(what, pair, Some(reply));
}

fn growth() {
    heading("Growth with the cells: cells of 8 bytes with two references, into an empty store with that much room");
    let mut cells = 1;
    while cells <= 4096 {
        let reply = cells_of(cells, 8).bytes();
        read_row(&format!("read {cells} cells, {} bytes", reply.len()), &reply, cells, cells, 0);
        cells *= 4;
    }
    for cells in [1, 16, 256, 4096] {
        let reply = cells_of(cells, 8).bytes();
        let (memory, store, root) = with_reply(&reply, cells, cells);
        write_row(&format!("write {cells} cells"), &memory, &store, root, reply.len() + 8 * cells);
    }
}

fn write_row(what: &str, memory: &Memory, store: &PlainStore, root: usize, room: usize) {
    let calls = if memory.count <= 20 { 64 } else { 1 };
    let mut scratch = vec![0; 4 * memory.count];
    let mut out = vec![0; room];
    let options = Options { has_idx: true, has_crc32c: true };
    let len = lent::write(memory.seen(), root, options, &mut scratch, &mut out).unwrap();
    assert_eq!(out[..len], store.write(root, true, true), "both write the same bag");
    let bytes = out.clone();
    let pair = side_by_side(
        || timed(calls, |_| lent::write(memory.seen(), root, options, &mut scratch, &mut out).unwrap()),
        || timed(calls, |_| store.write(root, true, true)),
    );
    row(what, pair, Some(&bytes[..len]));
}

fn writing(replies: &[(&str, usize, Vec<u8>)]) {
    heading("Writing (index and checksum)");
    for (name, cells, reply) in replies {
        let mut rooms = vec![*cells, 4096];
        rooms.dedup();
        for room in rooms {
            let (memory, store, root) = with_reply(reply, room, *cells);
            write_row(&format!("{name}: from a store of {cells} in {room}"), &memory, &store, root, 2 * reply.len() + 64);
        }
    }
}

fn adding() {
    heading("Adding one cell of 64 bits");
    for (room, held) in [(1, 0), (128, 0), (128, 127), (1024, 1023), (4096, 0), (4096, 4000)] {
        let (mut memory, mut store) = both(room, held);
        let data = [1, 2, 3, 4, 5, 6, 7, 8];
        let cell = PlainCell { exotic: false, bits: 64, data: data.to_vec(), refs: vec![] };
        let pair = side_by_side(
            || {
                memory.back_to(held);
                timed(1, |_| lent::add(memory.lent(), false, 64, &data, &[]).unwrap())
            },
            || {
                store.back_to(held);
                timed(1, |_| store.add(cell.clone()).unwrap())
            },
        );
        row(&format!("a new cell, to {held} of {room}"), pair, None);
        if held > 0 {
            memory.back_to(held);
            let last = [0x77, ((held - 1) >> 8) as u8, (held - 1) as u8];
            let cell = PlainCell { exotic: false, bits: 24, data: last.to_vec(), refs: vec![] };
            // A bag is stored from its last cell on, so the cell with the greatest number is the first of them.
            let pair = side_by_side(
                || timed(8, |_| lent::add(memory.lent(), false, 24, &last, &[])),
                || timed(8, |_| store.add(cell.clone())),
            );
            row(&format!("a cell that is held, first of {held} in {room}"), pair, None);
        }
    }
}

fn texts(replies: &[(&str, usize, Vec<u8>)]) {
    heading("Text (budget 65,535)");
    let doubling = |cells: usize| {
        let frame = |i: usize| Frame::of(&[i as u8; 4], &if i + 1 < cells { vec![i as u64 + 1; 2] } else { vec![] });
        Bag::new(&[0], (0..cells).map(frame).collect()).bytes()
    };
    let mut all: Vec<(String, usize, Vec<u8>)> =
        replies[..2].iter().map(|(name, cells, reply)| (name.to_string(), *cells, reply.clone())).collect();
    let row_of = |i: usize| Frame::of(&[i as u8; 127], &if i < 127 { vec![i as u64 + 1] } else { vec![] });
    all.push(("128 full cells in a row".to_string(), 128, Bag::new(&[0], (0..128).map(row_of).collect()).bytes()));
    all.push(("10 cells that unfold to 1,023".to_string(), 10, doubling(10)));
    all.push(("15 cells that unfold to 32,767".to_string(), 15, doubling(15)));
    for (name, cells, reply) in all {
        let (memory, store, root) = with_reply(&reply, cells, cells);
        let expected = store.text(root, 65_535).unwrap();
        let mut scratch = vec![0; cells];
        let mut out = vec![0; expected.len()];
        let printed = lent::text(memory.seen(), root, 65_535, &mut scratch, &mut out).unwrap();
        assert_eq!(&out[..printed.written], expected.as_bytes(), "both print the same text");
        let calls = if expected.len() < 4000 { 16 } else { 1 };
        let pair = side_by_side(
            || timed(calls, |_| lent::text(memory.seen(), root, 65_535, &mut scratch, &mut out).unwrap()),
            || timed(calls, |_| store.text(root, 65_535)),
        );
        row(&format!("{name}: {} bytes of text", expected.len()), pair, Some(expected.as_bytes()));
    }
}

fn checksums() {
    heading("CRC-32C");
    let mut rng = Rng(5);
    for len in [16, 83, 740, 32_768, 655_360] {
        let bytes = rng.bytes(len);
        assert_eq!(lent::crc32c(&bytes), plain::crc32c(&bytes));
        let calls = if len < 1000 { 64 } else { 1 };
        let pair = side_by_side(
            || timed(calls, |_| lent::crc32c(black_box(&bytes))),
            || timed(calls, |_| plain::crc32c(black_box(&bytes))),
        );
        row(&format!("{len} bytes"), pair, Some(&bytes));
    }
}

/// Clearing, and a call that does next to nothing but test the store: the cost of the room.
fn rooms() {
    heading("The room: clearing, and asking for one cell, which tests the whole store");
    for (room, held) in [(1, 1), (128, 128), (1024, 1024), (4096, 1), (4096, 4000)] {
        let (memory, store) = both(room, held);
        let mut cleared = memory.clone();
        let pair = side_by_side(
            || timed(1, |_| lent::clear(cleared.lent()).unwrap()),
            || {
                let mut emptied = store.clone();
                timed(1, |_| emptied.clear())
            },
        );
        row(&format!("clear a store of {room}"), pair, None);
        let pair = side_by_side(
            || timed(8, |_| lent::cell(memory.seen(), black_box(0))),
            || timed(8, |_| store.cells[black_box(0)].clone()),
        );
        row(&format!("one cell of {held} in {room}"), pair, None);
    }
}

fn main() {
    // `cargo test` runs benches too: without `--bench` there is nothing to do.
    if !std::env::args().any(|argument| argument == "--bench") {
        return;
    }
    let wallet = include_bytes!("../tests/vectors/wallet_v4r2.boc").to_vec();
    let replies = [
        ("one cell", 1, Bag::new(&[0], vec![Frame::of(&[0, 0, 4, 0xd2], &[])]).with(HAS_CRC).bytes()),
        ("wallet_v4r2", 20, wallet),
        ("128 cells in 32 KB", 128, full_reply()),
        ("1,024 cells", 1024, cells_of(1024, 32).bytes()),
        ("4,096 cells", 4096, cells_of(4096, 32).bytes()),
    ];
    reading(&replies);
    growth();
    writing(&replies);
    adding();
    texts(&replies);
    checksums();
    rooms();
}
