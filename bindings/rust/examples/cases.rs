//! Makes the cases that the project's two list programs are run on, with the lines that the model expects of them.
//!
//!     cargo run --release --example cases -- FOLDER
//!
//! writes `vectors_data` and `replay_data` into the folder, each with `stdin` and `stdout`.
//!
//! `vectors_data`: cases of a report, all numbers big-endian: u16 cells of the store; u32 length of the reply; the reply. There are
//! two scratch entries for each cell of the store, and 16 root places. The lines are the report, one case after the other.
//!
//! `replay_data`: cases of a read, all numbers big-endian: u8 whole reading; u16 records of the store; u16 cells held before (the store
//! is cleared, then cell i of 16 bits with the bytes of i is added, for i from 0 on); u16 scratch entries; u16 root places; u32
//! length of the reply; the reply. One line a case: `ok` used cells roots added count, the roots, sum; or `refused` number place count sum.
//! Sum is the CRC-32C over table, data, scratch and root places, every number as four little-endian bytes; scratch and root places
//! are filled with 9 and 7 before the call.

#[path = "../tests/make/mod.rs"]
mod make;
#[path = "../tests/model/mod.rs"]
mod model;

use make::*;
use model::{add, crc32c, debug_text, read, reported, CellBuilder, Memory};
use std::collections::{BTreeMap, HashMap};
use std::{env, fs, io, path::Path};

const WALLETS: [&[u8]; 3] = [
    include_bytes!("../tests/vectors/wallet_v1r1.boc"),
    include_bytes!("../tests/vectors/wallet_v3r2.boc"),
    include_bytes!("../tests/vectors/wallet_v4r2.boc"),
];

fn hex(text: &str) -> Vec<u8> {
    let digits: Vec<u32> = text.chars().filter(|c| *c != ' ').map(|c| c.to_digit(16).unwrap()).collect();
    digits.chunks(2).map(|pair| (pair[0] * 16 + pair[1]) as u8).collect()
}

/// The diamond of docs/RULES.md.
fn diamond() -> Bag {
    let cells = [(vec![0xaa], vec![1, 2]), (vec![0xbb], vec![3]), (vec![0xcc], vec![3]), (vec![], vec![])];
    Bag::new(&[0], cells.iter().map(|(data, refs)| Frame::of(data, refs)).collect())
}

/// A bag of one cell.
fn single(frame: Frame) -> Bag {
    Bag::new(&[0], vec![frame])
}

/// Cells of which each refers `times` times to the next.
fn chain(cells: usize, times: usize, data: &[u8]) -> Bag {
    let frame = |i: usize| Frame::of(data, &if i + 1 < cells { vec![i as u64 + 1; times] } else { vec![] });
    Bag::new(&[0], (0..cells).map(frame).collect())
}

/// Cells without references whose two data bytes are their numbers from `first` on.
fn numbered(first: usize, cells: usize) -> Vec<Frame> {
    (first..first + cells).map(|i| Frame::of(&(i as u16).to_be_bytes(), &[])).collect()
}

/// The worked bags, and small ones for every refusal that the bytes alone can cause.
fn worked() -> Vec<Vec<u8>> {
    let mut all: Vec<Vec<u8>> = [
        "",
        "b5ee9c72 01 01 01 01 00 06 00 00 08 000004d2",
        "b5ee9c72 81 01 01 01 00 06 00 00 00 08 000004d2",
        "b5ee9c72 01 01 01 01 00 02 00 00 00",
        "b5ee9c72 01 01 04 01 00 0f 00 0202aa0102 0102bb03 0102cc03 0000",
        "b5ee9c72 81 01 04 01 00 0f 00 0005090d 0202aa0102 0102bb03 0102cc03 0000",
        "b5ee9c72 01 01 01 01 00 02 00 10 00",
        // Bits 101; aa80 and aa00; 80 alone, 00 alone.
        "b5ee9c72 01 01 01 01 00 03 00 00 01 b0",
        "b5ee9c72 01 01 01 01 00 04 00 00 03 aa80",
        "b5ee9c72 01 01 01 01 00 04 00 00 03 aa00",
        "b5ee9c72 01 01 01 01 00 03 00 00 01 80",
        "b5ee9c72 01 01 01 01 00 03 00 00 01 00",
        // BACK and RANGE, alone and in the order of the links.
        "b5ee9c72 01 01 01 01 00 03 00 01 00 00",
        "b5ee9c72 01 01 01 01 00 03 00 01 00 01",
        "b5ee9c72 01 01 01 01 00 03 00 01 00 ff",
        "b5ee9c72 01 01 02 01 00 06 00 01 00 00 01 00 00",
        "b5ee9c72 01 01 02 01 00 06 00 01 00 05 01 00 01",
        "b5ee9c72 01 01 02 01 00 06 00 01 00 01 01 00 02",
        "b5ee9c72 01 01 03 01 00 09 00 02 00 01 00 02 00 07 01 00 00",
        "b5ee9c72 01 01 02 01 00 06 00 02 00 05 00 00 00",
        "b5ee9c72 01 01 02 01 00 06 00 02 00 00 05 00 00",
        "b5ee9c72 02 01 0002 0001 0000 08 0000 01 00 0100 00 00",
        // ROOT, and after it FULL has no say.
        "b5ee9c72 01 01 01 01 00 02 01 00 00",
        "b5ee9c72 01 01 02 02 00 04 00 02 00 00 00 01 80",
        "b5ee9c72 01 01 02 02 00 05 02 03 00 00 00 01 80",
        // EXTRA comes before the links, the links before the roots.
        "b5ee9c72 01 01 01 01 00 03 00 01 00 00 00",
        "b5ee9c72 01 01 01 01 00 03 09 01 00 00",
        // Tags.
        "68ff65f3",
        "acc3a728",
        "68ff65f3 01 01 01 01 00 02 00 00 00",
        "acc3a728 01",
        "b5ee9c73",
        "00000000",
        "b5ee9c71 01",
        "b5",
        "b5ee",
        "b5ee9c",
        "68ff65",
        "ffffff",
        // Byte 4 and byte 5.
        "b5ee9c72",
        "b5ee9c72 05",
        "b5ee9c72 06 00",
        "b5ee9c72 07 09",
        "b5ee9c72 e5",
        "b5ee9c72 01",
        "b5ee9c72 01 09",
        "b5ee9c72 01 ff 01 01 00",
        "b5ee9c72 04 08",
        "b5ee9c72 00 09",
        "b5ee9c72 00 00",
        "b5ee9c72 00 00 00",
        "b5ee9c72 00 01",
        "b5ee9c72 00 01 05",
        "b5ee9c72 00 08 ffffffffffffffff",
        "b5ee9c72 00 08 ffffffffffffff",
        "b5ee9c72 80 04 00000000",
        // Counts: exact sums, and their order.
        "b5ee9c72 01 01 01 01 01",
        "b5ee9c72 01 01 01 02 00",
        "b5ee9c72 01 01 00 00 01",
        "b5ee9c72 01 01 01 00 02",
        "b5ee9c72 04 01 ffffffff ffffffff 00000001",
        "b5ee9c72 04 01 00000001 ffffffff 00000001",
        "b5ee9c72 04 01 00000000 80000000 80000000",
        "b5ee9c72 04 01 ffffffff 00000001 00000000",
        "b5ee9c72 04 01 00001001 00001001 00000000",
        "b5ee9c72 02 01 1001 0001 0000",
        "b5ee9c72 02 01 1001 1000 0002",
        "b5ee9c72 03 01 001001 000001 000000",
        "b5ee9c72 04 01 00001001 00001001 00000001",
        "b5ee9c72 02 01 00",
        "b5ee9c72 02 01 0001 00",
        "b5ee9c72 02 01 0001 0001 00",
        "b5ee9c72 02 01 0001 0001",
        "b5ee9c72 04 00 00000001 000001",
        "b5ee9c72 01 01 00 00 00 00",
        "b5ee9c72 01 01 00 00 00",
        "b5ee9c72 01 00 00 00 00",
        "b5ee9c72 01 01 01 00 00 02 00 00",
        "b5ee9c72 01 01 01 00 01 02 00 00",
        "b5ee9c72 01 01 02 01 01 04 00 00 00 00 00",
        // A cut total, root list, index, cell, checksum.
        "b5ee9c72 01 02 01 01 00 00",
        "b5ee9c72 01 02 01 01 00 0002",
        "b5ee9c72 02 01 0001 0001 0000 02 00",
        "b5ee9c72 01 01 02 02 00 04 00",
        "b5ee9c72 81 02 02 01 00 0004 00 0000 00",
        "b5ee9c72 81 02 02 01 00 0004 00 0000",
        "b5ee9c72 81 00 02 01 00 00 00 00 00 00",
        "b5ee9c72 01 01 01 01 00 02 00",
        "b5ee9c72 01 01 01 01 00 02 00 00",
        "b5ee9c72 01 01 01 01 00 02 00 00 04 ab",
        "b5ee9c72 01 01 01 01 00 02 00 00 03 00",
        "b5ee9c72 01 01 01 01 00 02 00 00 03 0000",
        "b5ee9c72 01 01 01 01 00 02 00 02 02 ab 01",
        "b5ee9c72 02 01 0001 0001 0000 02 0000 02 00 0001 00",
        "b5ee9c72 41 01 01 01 00 02 00 00 00",
        "b5ee9c72 41 01 01 01 00 02 00 00 00 123456",
        "b5ee9c72 41 01 01 01 00 02 00 00 00 12345678",
        // REFS straight after d1; PADDING before the references.
        "b5ee9c72 01 01 01 01 00 02 00 05",
        "b5ee9c72 01 01 01 01 00 02 00 06 00",
        "b5ee9c72 01 01 01 01 00 02 00 ff 00",
        "b5ee9c72 01 01 01 01 00 02 00 17 00",
        "b5ee9c72 01 01 02 01 00 02 00 01 00 01 0d",
        "b5ee9c72 01 01 01 01 00 02 00 04 01 00",
        "b5ee9c72 01 01 01 01 00 02 00 01 05 aabb00",
    ]
    .iter()
    .map(|text| hex(text))
    .collect();
    // A checksum that differs in one bit of each of its bytes, and one over other bytes.
    let sum = diamond().with(HAS_CRC).bytes();
    all.push(sum.clone());
    for back in 1..=4 {
        let mut other = sum.clone();
        let at = other.len() - back;
        other[at] ^= 0x10;
        all.push(other);
    }
    let mut other = sum.clone();
    other[13] = 0xab;
    all.push(other.clone());
    all.push(signed(other));
    let mut big_endian = sum.clone();
    let at = big_endian.len() - 4;
    big_endian[at..].reverse();
    all.push(big_endian);
    // CRC before EXTRA, EXTRA after a good one.
    let mut more = sum.clone();
    more.push(0);
    all.push(more.clone());
    more[at] ^= 1;
    all.push(more);
    all
}

/// One small bag in every layout, byte 4 in every value that reads.
fn layouts(every: bool) -> Vec<Vec<u8>> {
    let mut all = Vec::new();
    for size in 1..=4 {
        for off_bytes in 0..=8 {
            let some = [0, HAS_IDX | HAS_CRC, HAS_IDX | HAS_CACHE_BITS];
            for &options in if every { &some[..] } else { &some[1..2] } {
                all.push(diamond().with(options).sized(size, off_bytes).bytes());
            }
        }
    }
    all.extend((0..32u8).map(|n| diamond().with(n << 3).bytes()));
    for off_bytes in 0..=8 {
        for options in [0, HAS_IDX, HAS_CRC] {
            all.push(Bag::new(&[], vec![]).with(options).sized(0, off_bytes).bytes());
        }
    }
    for size in 1..=4 {
        all.push(Bag::new(&[], vec![]).with(HAS_IDX | HAS_CRC).sized(size, 3).bytes());
    }
    // Total and index are not looked at.
    let mut odd = diamond().with(HAS_IDX).sized(2, 3);
    odd.total = Some(0xff_ffff);
    odd.index = Some(vec![9, 0, 0xff_ffff, 1]);
    all.push(odd.bytes());
    all
}

/// Levels and hashes, whole and cut; every padding.
fn cells() -> Vec<Vec<u8>> {
    let mut all = Vec::new();
    for level in 0..8u8 {
        let last = single(Frame::of(&[0xab], &[]).with_hashes(level, 0x5a));
        all.push(last.bytes());
        all.push(single(Frame::of(&[0xab], &[]).with_level(level)).bytes());
        let mut first = diamond();
        first.cells[0] = first.cells[0].clone().with_hashes(level, 0xff);
        first.cells[3] = first.cells[3].clone().with_hashes(7 - level, 0);
        all.push(first.with(HAS_CRC).bytes());
    }
    // The last cell cut in its hashes, at their ends and in between.
    for level in [0u8, 3, 7] {
        let whole = single(Frame::of(&[], &[]).with_hashes(level, 1)).bytes();
        for less in [1, 2, 33, 34] {
            all.push(whole[..whole.len() - less].to_vec());
        }
    }
    for shift in 0..8 {
        for front in [&[][..], &[0xaa], &[0, 0], &[0xff; 127]] {
            let mut frame = Frame::of(&[], &[]);
            frame.data = [front, &[1 << shift]].concat();
            frame.d2 = (2 * frame.data.len() - 1) as u8;
            all.push(single(frame.clone()).bytes());
            if shift == 3 {
                *frame.data.last_mut().unwrap() = 0xff;
                all.push(single(frame.clone()).bytes());
                *frame.data.last_mut().unwrap() = 0;
                all.push(single(frame).bytes());
            }
        }
    }
    for bits in [1, 7, 8, 9, 1015, 1016, 1017, 1022, 1023] {
        all.push(single(Frame::new(bits % 2 == 0, bits, &[0xff; 128], &[])).bytes());
        all.push(single(Frame::new(bits % 2 == 1, bits, &[0; 128], &[])).bytes());
    }
    all
}

/// Every front of some bytes.
fn fronts(bytes: &[u8]) -> Vec<Vec<u8>> {
    (0..bytes.len()).map(|len| bytes[..len].to_vec()).collect()
}

fn and_more(bytes: &[u8], more: &[u8]) -> Vec<u8> {
    [bytes, more].concat()
}

// ---- Reports ----

/// A bag whose root unfolds to exactly `size` cells without data, in few cells: the tree is split as evenly as it goes.
fn unfolding(size: usize) -> Bag {
    // Cells from the leaves up; a size is made once.
    fn make(size: usize, made: &mut Vec<Vec<usize>>, known: &mut HashMap<usize, usize>) -> usize {
        if let Some(&cell) = known.get(&size) {
            return cell;
        }
        let children = (size - 1).min(4);
        let refs = (0..children).map(|i| make((size - 1 + i) / children, made, known)).collect();
        made.push(refs);
        known.insert(size, made.len() - 1);
        made.len() - 1
    }
    let mut made = Vec::new();
    make(size, &mut made, &mut HashMap::new());
    let last = made.len() - 1;
    let frame = |refs: &Vec<usize>| Frame::of(&[], &refs.iter().map(|r| (last - r) as u64).collect::<Vec<_>>());
    Bag::new(&[0], made.iter().rev().map(frame).collect())
}

/// A bag whose root's text has exactly `len` bytes: cells of 1016 bits in a row, the last two of other lengths.
fn text_of(len: usize) -> Bag {
    for bits in 0..1024 {
        for other in [1016, 999] {
            let mut bag = chain(31, 1, &[0x5a; 127]);
            bag.cells[29] = Frame::new(false, other, &[0x77; 128], &[30]);
            bag.cells[30] = Frame::new(false, bits, &[0xc3; 128], &[]);
            if text_len(&bag) == len {
                return bag;
            }
        }
    }
    panic!("no text of {len} bytes");
}

fn text_len(bag: &Bag) -> usize {
    let mut memory = Memory::new(128);
    let mut roots = [0];
    read(&bag.bytes(), true, &mut memory, &mut [0; 256], &mut roots).unwrap();
    debug_text(&memory, roots[0] as usize, 1000, &mut [0; 128], &mut vec![0; 100_000]).unwrap().written
}

/// The cells of several bags as one, with all their roots.
fn together(bags: &[Bag]) -> Bag {
    let (mut cells, mut roots) = (Vec::new(), Vec::new());
    for bag in bags {
        let before = cells.len() as u64;
        roots.extend(bag.roots.iter().map(|r| r + before));
        for cell in &bag.cells {
            let mut cell = cell.clone();
            cell.refs.iter_mut().for_each(|r| *r += before);
            cells.push(cell);
        }
    }
    Bag::new(&roots, cells)
}

/// A bag of 128 cells and exactly `len` bytes: hashes for the first cells until it is long enough, then less data in the last ones.
fn long(len: usize) -> Vec<u8> {
    let mut bag = chain(128, 1, &[0; 127]).with(HAS_CRC);
    for (i, cell) in bag.cells.iter_mut().enumerate() {
        let data: Vec<u8> = (0..127).map(|j| (i * 7 + j) as u8).collect();
        *cell = Frame::of(&data, &cell.refs);
    }
    let mut next = 0;
    while bag.bytes().len() < len {
        bag.cells[next] = bag.cells[next].clone().with_hashes(7, next as u8);
        next += 1;
    }
    let mut over = bag.bytes().len() - len;
    for cell in bag.cells.iter_mut().rev() {
        let less = over.min(cell.data.len());
        *cell = Frame::of(&cell.data[less..], &cell.refs);
        over -= less;
        if over == 0 {
            break;
        }
    }
    bag.bytes()
}

fn program_replies() -> Vec<Vec<u8>> {
    let mut all = worked();
    all.extend(layouts(false));
    all.extend(cells());
    all.extend(fronts(&diamond().bytes()));
    all.extend(fronts(&diamond().with(HAS_IDX | HAS_CRC).bytes()));
    for wallet in WALLETS {
        all.push(wallet.to_vec());
        all.push(and_more(wallet, &[0]));
        all.push(wallet[..wallet.len() - 1].to_vec());
    }
    all.extend(WALLETS[0].iter().enumerate().step_by(4).map(|(at, _)| WALLETS[0][..at].to_vec()));
    // Shared cells unfold: texts within the budget of 1,000 cells, and past it by one and by far.
    for size in [1, 2, 5, 6, 999, 1000, 1001, 1002] {
        all.push(unfolding(size).bytes());
    }
    for (cells, times) in [(9, 2), (10, 2), (128, 2), (6, 3), (7, 3), (5, 4), (6, 4), (128, 4)] {
        all.push(chain(cells, times, &[]).bytes());
    }
    // Texts at the output's end.
    let texts = [8190, 8191, 8192, 8193, 8194].map(text_of);
    all.extend(texts.iter().map(Bag::bytes));
    // BUDGET comes before NOROOM.
    all.push(chain(11, 2, &[0xee; 20]).bytes());
    all.push(chain(9, 2, &[0xee; 20]).bytes());
    // Several roots; one whose text is refused among others that print.
    let mixed = [diamond(), unfolding(1001), diamond(), texts[3].clone(), single(Frame::of(&[1], &[])), texts[2].clone()];
    all.push(together(&mixed).with(HAS_CRC).bytes());
    all.push(together(&[unfolding(1001), texts[3].clone()]).bytes());
    for roots in [0, 1, 2, 15, 16, 17, 18] {
        let list: Vec<u64> = (0..roots).collect();
        all.push(Bag::new(&list, numbered(0, 20)).bytes());
        all.push(Bag::new(&vec![3; roots as usize], numbered(5, 20)).with(HAS_IDX).bytes());
    }
    let mut beyond = Bag::new(&[0, 20, 1, 21], numbered(0, 20));
    all.push(beyond.bytes());
    beyond.roots = vec![19, 18, 0, 20];
    all.push(beyond.bytes());
    // The room for 128 cells.
    for cells in [127, 128, 129] {
        all.push(chain(cells, 1, &[]).bytes());
        all.push(Bag::new(&[0], vec![Frame::of(&[], &[]); cells]).bytes());
        all.push(Bag::new(&[cells as u64 - 1], numbered(0, cells)).bytes());
    }
    all.push(Bag::new(&[0; 17], numbered(0, 129)).bytes());
    all.push(Bag::new(&[0; 17], numbered(0, 128)).bytes());
    // The longest reply and one byte more.
    let longest = long(32_768);
    all.push(and_more(&longest, &[0]));
    all.push(longest[..32_767].to_vec());
    all.push(longest);
    all.push(and_more(&long(32_767), &[0]));
    all.push(vec![0; 32_769]);
    // Random bags and damaged copies.
    let mut rng = Rng(2026);
    for wallet in WALLETS {
        all.extend((0..12).map(|_| damaged(&mut rng, wallet)));
    }
    for most in [3, 6, 20] {
        for _ in 0..40 {
            let bytes = random_bag(&mut rng, most).bytes();
            all.push(damaged(&mut rng, &bytes));
            all.push(bytes);
        }
    }
    all
}

/// The cells of the program's store.
const PROGRAM_CELLS: usize = 128;
/// The greatest store that the program of cases lends.
const MOST_CELLS: usize = 512;
const ROOT_PLACES: usize = 16;

struct Report {
    cells: usize,
    reply: Vec<u8>,
}

/// The case's lines.
fn lines(case: &Report) -> Vec<u8> {
    reported(&case.reply, case.cells, 2 * case.cells, ROOT_PLACES)
}

fn with_store(cells: usize, bag: &Bag) -> Report {
    Report { cells, reply: bag.bytes() }
}

/// Reports with other stores than the program's.
fn other_stores() -> Vec<Report> {
    let mut all = Vec::new();
    // No cells at all, and as few as the bag needs.
    let none = Bag::new(&[], vec![]);
    for bag in [&none, &none.clone().sized(0, 0), &single(Frame::of(&[], &[])), &diamond()] {
        for cells in [0, 1, 3, 4] {
            all.push(with_store(cells, bag));
        }
    }
    for reply in [vec![], hex("68ff65f3"), vec![0; 32_769]] {
        all.push(Report { cells: 0, reply });
    }
    // The chains of 255 and of 256 cells without data.
    for (cells, bytes) in [(255, 776), (256, 1038)] {
        let bag = chain(cells, 1, &[]);
        assert_eq!(bag.bytes().len(), bytes);
        for store in [cells - 1, cells, MOST_CELLS] {
            all.push(with_store(store, &bag));
        }
    }
    // A path of 256 references prints, one of 257 does not.
    for cells in [257, 258] {
        for store in [256, 257, 258, 300, MOST_CELLS] {
            all.push(with_store(store, &chain(cells, 1, &[])));
        }
        // DEEP comes before BUDGET and before NOROOM.
        all.push(with_store(300, &chain(cells, 2, &[])));
        all.push(with_store(300, &chain(cells, 1, &[0xee; 20])));
    }
    // Roots that print among one that is too deep, in every order of three.
    for roots in [[1, 0, 257], [1, 257, 0], [0, 1, 257], [0, 257, 1], [257, 0, 1], [257, 1, 0]] {
        let mut deep = chain(258, 1, &[]);
        deep.roots = roots.to_vec();
        all.push(with_store(300, &together(&[diamond(), deep, single(Frame::of(&[1], &[]))])));
    }
    all.push(with_store(MOST_CELLS, &together(&[chain(257, 1, &[1]), unfolding(1001), chain(200, 1, &[2])]).with(HAS_CRC)));
    // The greatest stores.
    for cells in [299, 300, 301] {
        all.push(with_store(300, &Bag::new(&[cells - 1], numbered(0, cells as usize))));
    }
    for cells in [511, 512, 513] {
        all.push(with_store(MOST_CELLS, &Bag::new(&[0, cells - 1], numbered(0, cells as usize)).with(HAS_IDX)));
    }
    // As many roots as there are places, each with the longest text: the longest report.
    let mut longest = text_of(8192);
    longest.roots = vec![0; ROOT_PLACES];
    all.push(with_store(PROGRAM_CELLS, &longest));
    // The store of an earlier case may have held more.
    all.push(with_store(4, &diamond()));
    all.push(with_store(PROGRAM_CELLS, &diamond()));
    all
}

// ---- Reads to be replayed ----

struct Case {
    whole: bool,
    records: usize,
    held: usize,
    scratch: usize,
    places: usize,
    reply: Vec<u8>,
}

fn case(whole: bool, room: [usize; 4], reply: Vec<u8>) -> Case {
    let [records, held, scratch, places] = room;
    Case { whole, records, held, scratch, places, reply }
}

/// The case's line.
fn replayed(case: &Case) -> String {
    let mut memory = Memory::new(case.records);
    for i in 0..case.held {
        let (builder, _) = CellBuilder::new(false).append(&(i as u16).to_be_bytes(), 16);
        // The cells differ, so that the first of them can be laid at once.
        if case.held <= 64 {
            assert_eq!(add(&mut memory, &builder), Ok(i));
        } else {
            memory.count += 1;
            memory.table[7 * i + 1] = 16;
            memory.bytes[128 * i..128 * i + 2].copy_from_slice(&builder.bytes[..2]);
        }
    }
    let mut scratch = vec![9; case.scratch];
    let mut roots = vec![7; case.places];
    let answer = read(&case.reply, case.whole, &mut memory, &mut scratch, &mut roots);
    let mut all: Vec<u8> = memory.table.iter().flat_map(|n| n.to_le_bytes()).collect();
    all.extend(&memory.bytes);
    all.extend(scratch.iter().chain(&roots).flat_map(|n| n.to_le_bytes()));
    let sum = crc32c(&all);
    match answer {
        Ok(counts) => {
            let list: String = roots[..counts.roots].iter().map(|r| format!("{r} ")).collect();
            let (used, cells, roots, added) = (counts.used, counts.cells, counts.roots, counts.added);
            format!("ok {used} {cells} {roots} {added} {} {list}{sum}\n", memory.count)
        }
        Err(refusal) => format!("refused {} {} {} {sum}\n", refusal.number, refusal.place, memory.count),
    }
}

fn replay_cases() -> Vec<Case> {
    let mut all = Vec::new();
    let small = [8, 0, 16, 4];
    for reply in worked() {
        for whole in [true, false] {
            all.push(case(whole, small, reply.clone()));
        }
    }
    for reply in layouts(true) {
        all.push(case(true, small, reply));
    }
    for reply in cells() {
        all.push(case(false, [5, 1, 8, 1], reply));
    }
    // Every front of a published bag, by both readings, into a store that holds a cell.
    for front in fronts(WALLETS[0]) {
        all.push(case(true, [2, 1, 2, 1], front.clone()));
        all.push(case(false, [2, 1, 2, 1], front));
    }
    // Bytes after the bag, by both readings; a store filled to its end.
    for (wallet, cells) in WALLETS.iter().zip([1, 1, 20]) {
        for whole in [true, false] {
            for more in [&[][..], &[0], &[0xb5, 0xee, 0x9c, 0x72, 1]] {
                all.push(case(whole, [cells, 0, 2 * cells, 1], and_more(wallet, more)));
            }
            all.push(case(whole, [cells + 3, 3, 2 * cells + 5, 4], wallet.to_vec()));
        }
        // One short: records, scratch, root places, and the order among them.
        for (records, held, scratch, places) in [
            (cells - 1, 0, 2 * cells, 1),
            (cells + 2, 3, 2 * cells, 1),
            (cells, 0, 2 * cells - 1, 1),
            (cells, 0, 2 * cells, 0),
            (cells - 1, 0, 2 * cells - 1, 0),
            (cells - 1, 0, 2 * cells, 0),
            (0, 0, 0, 0),
        ] {
            all.push(case(true, [records, held, scratch, places], wallet.to_vec()));
            all.push(case(false, [records, held, scratch, places], and_more(wallet, &[1])));
        }
    }
    // Stores without room, and bags without cells.
    for reply in [diamond().bytes(), Bag::new(&[], vec![]).bytes(), Bag::new(&[], vec![]).sized(0, 0).bytes(), vec![]] {
        for room in
            [[0, 0, 0, 0], [0, 0, 8, 1], [3, 0, 8, 1], [4, 0, 8, 1], [4, 0, 7, 1], [4, 0, 8, 0], [4, 1, 8, 1], [5, 1, 8, 1]]
        {
            all.push(case(true, room, reply.clone()));
        }
    }
    // Cells that the store holds already: in a full store, in part, and one too many.
    let again = Bag::new(&[0, 9], numbered(0, 10));
    for (records, held) in [(10, 10), (10, 9), (10, 0), (9, 9), (9, 0), (12, 5)] {
        all.push(case(true, [records, held, 20, 2], again.bytes()));
    }
    let mut above = again.clone();
    above.cells[0] = Frame::of(&[9], &[9, 8, 9, 1]);
    above.cells[1] = Frame::of(&[0, 8], &[]);
    for (records, held) in [(11, 10), (10, 10), (10, 9), (9, 9), (10, 0), (9, 0), (8, 0)] {
        all.push(case(true, [records, held, 20, 2], above.bytes()));
    }
    // Cells that differ in the flag, in a last 0 bit, in a reference.
    let alike = vec![
        Frame::of(&[], &[4, 5]),
        Frame::of(&[], &[5, 4]),
        Frame::new(false, 15, &[0, 0], &[]),
        Frame::new(true, 16, &[0, 0], &[]),
        Frame::of(&[0, 0], &[]),
        Frame::of(&[0, 1], &[]),
        Frame::of(&[0, 0], &[]).with_stop_byte(),
        Frame::of(&[0, 0], &[]).with_hashes(1, 9),
        Frame::of(&[0, 0], &[]).with_level(5),
    ];
    let roots: Vec<u64> = (0..9).collect();
    for (records, held) in [(6, 0), (5, 0), (7, 3), (6, 2), (5, 2), (8, 1)] {
        all.push(case(true, [records, held, 18, 9], Bag::new(&roots, alike.clone()).with(HAS_CRC).bytes()));
    }
    // Unreached cells, no roots, a root listed again and again, roots out of order.
    for roots in
        [vec![], vec![0], vec![3], vec![3, 3], vec![3, 2, 1, 0], vec![1, 1, 1, 1], vec![0, 4], vec![4, 5], vec![0, 1, 2, 0xff]]
    {
        let mut bag = diamond();
        bag.roots = roots;
        all.push(case(true, [6, 2, 8, 5], bag.bytes()));
        bag.absent = bag.count - bag.roots.len() as u64;
        all.push(case(false, [6, 2, 9, 4], bag.bytes()));
        bag.absent += 1;
        all.push(case(false, [6, 2, 9, 4], bag.bytes()));
    }
    let many = Bag::new(&[7; 64], numbered(0, 64));
    all.push(case(true, [64, 0, 128, 64], many.bytes()));
    all.push(case(true, [64, 0, 128, 63], many.bytes()));
    let mut other = many.clone();
    other.roots[63] = 64;
    all.push(case(true, [64, 0, 128, 64], other.bytes()));
    // The greatest bags.
    let full = [4096, 0, 8192, 1];
    all.push(case(true, full, chain(4096, 1, &[]).with(HAS_CRC).bytes()));
    all.push(case(true, full, chain(4097, 1, &[]).bytes()));
    all.push(case(false, full, Bag::new(&[4095], vec![Frame::of(&[], &[]); 4096]).bytes()));
    all.push(case(true, full, Bag::new(&[0], vec![Frame::of(&[], &[]); 4097]).bytes()));
    all.push(case(true, [4096, 0, 8191, 1], Bag::new(&[0], vec![Frame::of(&[], &[]); 4096]).bytes()));
    all.push(case(true, [4095, 0, 8192, 1], chain(4096, 1, &[]).bytes()));
    all.push(case(true, [4096, 4096, 8192, 1], Bag::new(&[17], numbered(0, 4096)).bytes()));
    all.push(case(true, [4096, 4095, 8192, 1], Bag::new(&[4095], numbered(0, 4096)).bytes()));
    all.push(case(true, [4096, 4000, 8192, 1], Bag::new(&[95], numbered(4000, 96)).bytes()));
    all.push(case(true, [4096, 4000, 8192, 1], Bag::new(&[0], numbered(4000, 97)).bytes()));
    all.push(case(true, [4096, 4096, 8192, 1], diamond().bytes()));
    let wide =
        Bag::new(&[0], (0..1500u64).map(|i| Frame::of(&[i as u8; 40], &[i + 1; 2][..if i < 1499 { 2 } else { 0 }])).collect());
    all.push(case(true, [1500, 0, 3000, 1], wide.with(HAS_IDX).bytes()));
    // Random bags in every layout and damaged copies, in rooms that often just suffice or just do not.
    let mut rng = Rng(1977);
    for most in [2, 5, 12, 30] {
        for _ in 0..60 {
            let bag = random_bag(&mut rng, most);
            let count = bag.cells.len();
            let held = rng.below(4);
            let records = held + (count + 2).saturating_sub(rng.below(4));
            let scratch = (2 * count + 1 + rng.below(2)).saturating_sub(rng.below(20) / 18);
            let places = (bag.roots.len() + rng.below(2)).saturating_sub(rng.below(20) / 19);
            let room = [records, held, scratch, places];
            let bytes = bag.bytes();
            all.push(case(rng.one_in(2), room, damaged(&mut rng, &bytes)));
            all.push(case(rng.one_in(2), room, bytes));
        }
    }
    for wallet in WALLETS {
        all.extend((0..20).map(|i| case(i % 2 == 0, [24, 2, 40, 2], damaged(&mut rng, wallet))));
    }
    all
}

// ---- The files ----

fn save(folder: &Path, stdin: &[u8], stdout: &[u8], cases: usize) -> io::Result<()> {
    fs::create_dir_all(folder)?;
    fs::write(folder.join("stdin"), stdin)?;
    fs::write(folder.join("stdout"), stdout)?;
    println!("{}: {cases} cases, {} bytes in, {} bytes out", folder.display(), stdin.len(), stdout.len());
    let mut first_words: BTreeMap<String, usize> = BTreeMap::new();
    for line in String::from_utf8_lossy(stdout).lines() {
        let words: Vec<&str> = line.split(' ').collect();
        match words[0] {
            "refused" => *first_words.entry(format!("refused {:>2}", words[1])).or_default() += 1,
            "ok" | "too" => *first_words.entry(words[0].to_string()).or_default() += 1,
            _ => *first_words.entry("text".to_string()).or_default() += 1,
        }
    }
    for (word, lines) in first_words {
        println!("  {word}: {lines}");
    }
    Ok(())
}

fn main() -> io::Result<()> {
    let folder = env::args().nth(1).unwrap_or_else(|| ".".to_string());
    let folder = Path::new(&folder);

    let mut cases: Vec<Report> = program_replies().into_iter().map(|reply| Report { cells: PROGRAM_CELLS, reply }).collect();
    cases.extend(other_stores());
    let (mut stdin, mut stdout) = (Vec::new(), Vec::new());
    for case in &cases {
        stdin.extend((case.cells as u16).to_be_bytes());
        stdin.extend((case.reply.len() as u32).to_be_bytes());
        stdin.extend(&case.reply);
        stdout.extend(lines(case));
    }
    save(&folder.join("vectors_data"), &stdin, &stdout, cases.len())?;

    let cases = replay_cases();
    let (mut stdin, mut stdout) = (Vec::new(), Vec::new());
    for case in &cases {
        stdin.push(case.whole as u8);
        for n in [case.records, case.held, case.scratch, case.places] {
            stdin.extend((n as u16).to_be_bytes());
        }
        stdin.extend((case.reply.len() as u32).to_be_bytes());
        stdin.extend(&case.reply);
        stdout.extend(replayed(case).into_bytes());
    }
    save(&folder.join("replay_data"), &stdin, &stdout, cases.len())
}
