//! The library and the model, call by call: the same answer, the same place, and the same bytes in every piece of lent memory.
//!
//!     cargo test --test compare
//!
//! More than a million calls a run, all decided by a seed; it prints what it ran and stops at the first difference.
//! TAPUNEROW_SEED sets another seed, TAPUNEROW_TIMES multiplies the random families.

include!(concat!(env!("CARGO_MANIFEST_DIR"), "/src/linked.rs"));

mod make;
mod model;

use make::*;
use model::{BagOfCellsArgs, CellBuilder, Memory, Refusal, DATA_LEN, RECORD_LEN};
use std::fmt::Debug;
use std::time::Instant;
use tapunerow::lent::{self, Lent, Seen};
use tapunerow::Options;

/// What lent memory holds before a call, so that every byte that a call touches shows.
const OLD_SCRATCH: u32 = 9;
const OLD_ROOT: u32 = 7;
const OLD_OUT: u8 = 0xa5;

/// The calls of one family, counted.
struct Family {
    name: &'static str,
    calls: u64,
    accepted: u64,
    refused: [u64; 32],
    started: Instant,
}

impl Family {
    fn new(name: &'static str) -> Family {
        Family { name, calls: 0, accepted: 0, refused: [0; 32], started: Instant::now() }
    }

    fn count<T>(&mut self, answer: &Result<T, Refusal>) {
        self.calls += 1;
        match answer {
            Ok(_) => self.accepted += 1,
            Err(refusal) => self.refused[refusal.number as usize] += 1,
        }
    }

    fn done(self) -> u64 {
        let mut line = format!("{:<44} {:>9} calls, {:>9} accepted;", self.name, self.calls, self.accepted);
        for (number, times) in self.refused.iter().enumerate().filter(|(_, times)| **times > 0) {
            line += &format!(" {number}:{times}");
        }
        println!("{line} ({:.1} s)", self.started.elapsed().as_secs_f64());
        self.calls
    }
}

fn paper<T>(answer: Result<T, tapunerow::Refusal>) -> Result<T, Refusal> {
    answer.map_err(|refusal| {
        let (number, place) = refusal.parts();
        Refusal { number, place }
    })
}

fn lend(memory: &mut Memory) -> Lent<'_> {
    Lent { count: &mut memory.count, table: &mut memory.table, bytes: &mut memory.bytes }
}

fn see(memory: &Memory) -> Seen<'_> {
    Seen { count: memory.count, table: &memory.table, bytes: &memory.bytes }
}

fn same<T: PartialEq + Debug>(what: &str, model: &T, library: &T, input: impl FnOnce() -> String) {
    if model != library {
        panic!("{what} differs\n model   {model:?}\n library {library:?}\n input   {}", input());
    }
}

fn show(bytes: &[u8]) -> String {
    bytes.iter().map(|byte| format!("{byte:02x}")).collect()
}

// ---- One call of each kind, compared ----

/// Compares a read and goes on with the store after it; answers the roots.
fn read(family: &mut Family, memory: &mut Memory, reply: &[u8], whole: bool, scratch: usize, places: usize) -> Option<Vec<u32>> {
    let mut other = memory.clone();
    let before = memory.clone();
    let mut scratches = [vec![OLD_SCRATCH; scratch], vec![OLD_SCRATCH; scratch]];
    let mut roots = [vec![OLD_ROOT; places], vec![OLD_ROOT; places]];
    let model = model::read(reply, whole, memory, &mut scratches[0], &mut roots[0]);
    let library = paper(lent::read(reply, whole, lend(&mut other), &mut scratches[1], &mut roots[1]));
    let library = library.map(|c| model::Counts { used: c.used, cells: c.cells, roots: c.roots, added: c.added });
    let input = || {
        let records = before.table.len() / RECORD_LEN;
        format!(
            "read {} whole {whole} into {} of {records} cells, scratch {scratch}, root places {places}",
            show(reply),
            before.count
        )
    };
    same("answer", &model, &library, input);
    same("store", &*memory, &other, input);
    same("scratch", &scratches[0], &scratches[1], input);
    same("root places", &roots[0], &roots[1], input);
    family.count(&model);
    let [roots, _] = roots;
    model.ok().map(|counts| roots[..counts.roots].to_vec())
}

fn clear(family: &mut Family, memory: &mut Memory) {
    let mut other = memory.clone();
    let model = model::clear(memory);
    let library = paper(lent::clear(lend(&mut other)));
    let input = || "clear".to_string();
    same("answer", &model, &library, input);
    same("store", &*memory, &other, input);
    family.count(&model);
}

fn add(family: &mut Family, memory: &mut Memory, exotic: bool, bits: usize, data: &[u8], refs: &[u32]) {
    let mut other = memory.clone();
    let mut built = CellBuilder::new(exotic);
    built.len = bits;
    built.bytes[..data.len()].copy_from_slice(data);
    built.count = refs.len();
    let kept = refs.len().min(4);
    built.refs[..kept].copy_from_slice(&refs[..kept]);
    // The interface takes the bits from a slice, as the builder does where it appends them: CUT comes first.
    let model = if bits.div_ceil(8) > data.len() {
        Err(model::Refusal { number: model::CUT, place: 0 })
    } else {
        model::add(memory, &built)
    };
    let library = paper(lent::add(lend(&mut other), exotic, bits, data, refs));
    let input = || format!("add {bits} bits of {}, exotic {exotic}, references {refs:?}", show(data));
    same("answer", &model, &library, input);
    same("store", &*memory, &other, input);
    family.count(&model);
}

fn cell(family: &mut Family, memory: &Memory, n: usize) {
    let model = model::cell(memory, n);
    let library = paper(lent::cell(see(memory), n));
    let library = library.map(|c| model::Cell { exotic: c.exotic, bits: c.bits, data: c.data, refs: c.refs });
    same("answer", &model, &library, || format!("cell {n}"));
    family.count(&model);
}

fn write(family: &mut Family, memory: &Memory, n: usize, args: BagOfCellsArgs, scratch: usize, room: usize) -> Option<Vec<u8>> {
    let mut scratches = [vec![OLD_SCRATCH; scratch], vec![OLD_SCRATCH; scratch]];
    let mut outs = [vec![OLD_OUT; room], vec![OLD_OUT; room]];
    let options = Options { has_idx: args.has_idx, has_crc32c: args.has_crc32c };
    let model = model::write(memory, n, args, &mut scratches[0], &mut outs[0]);
    let library = paper(lent::write(see(memory), n, options, &mut scratches[1], &mut outs[1]));
    let input = || format!("write {n}, {args:?}, scratch {scratch}, output {room}, store {memory:?}");
    same("answer", &model, &library, input);
    same("scratch", &scratches[0], &scratches[1], input);
    same("output", &outs[0], &outs[1], input);
    family.count(&model);
    let [out, _] = outs;
    model.ok().map(|len| out[..len].to_vec())
}

fn depth(family: &mut Family, memory: &Memory, n: usize, scratch: usize) {
    let mut scratches = [vec![OLD_SCRATCH; scratch], vec![OLD_SCRATCH; scratch]];
    let model = model::max_depth(memory, n, &mut scratches[0]);
    let library = paper(lent::depth(see(memory), n, &mut scratches[1]));
    let input = || format!("depth of {n}, scratch {scratch}, store {memory:?}");
    same("answer", &model, &library, input);
    same("scratch", &scratches[0], &scratches[1], input);
    family.count(&model);
}

/// Compares a text and answers the length that it has or needs.
fn text(family: &mut Family, memory: &Memory, n: usize, budget: usize, scratch: usize, room: usize) -> usize {
    let mut scratches = [vec![OLD_SCRATCH; scratch], vec![OLD_SCRATCH; scratch]];
    let mut outs = [vec![OLD_OUT; room], vec![OLD_OUT; room]];
    let model = model::debug_text(memory, n, budget, &mut scratches[0], &mut outs[0]);
    let library = paper(lent::text(see(memory), n, budget, &mut scratches[1], &mut outs[1]));
    let library = library.map(|t| model::Printed { written: t.written, cells: t.cells });
    let input = || format!("text of {n}, budget {budget}, scratch {scratch}, output {room}, store {memory:?}");
    same("answer", &model, &library, input);
    same("scratch", &scratches[0], &scratches[1], input);
    same("output", &outs[0], &outs[1], input);
    family.count(&model);
    match model {
        Ok(printed) => printed.written,
        Err(Refusal { number: model::NOROOM, place }) => place,
        Err(_) => 0,
    }
}

fn checksum(family: &mut Family, bytes: &[u8]) {
    same("checksum", &model::crc32c(bytes), &lent::crc32c(bytes), || show(bytes));
    family.count(&Ok(()));
}

const ARGS: [BagOfCellsArgs; 4] = [
    BagOfCellsArgs { has_idx: false, has_crc32c: false },
    BagOfCellsArgs { has_idx: true, has_crc32c: false },
    BagOfCellsArgs { has_idx: false, has_crc32c: true },
    BagOfCellsArgs { has_idx: true, has_crc32c: true },
];

/// Every call that only looks at a store, for one cell, with room that suffices and room that just does not.
fn look(family: &mut Family, rng: &mut Rng, memory: &Memory, n: usize) {
    let count = memory.count.min(memory.table.len());
    let about = |rng: &mut Rng| (count + rng.below(3)).saturating_sub(rng.below(8) / 7);
    cell(family, memory, n);
    depth(family, memory, n, about(rng));
    let budget = rng.pick(&[0, 1, 5, 20, 200, 1000, 65_535, 65_536, usize::MAX]);
    let needed = text(family, memory, n, budget, about(rng), rng.below(300));
    if needed > 0 {
        text(family, memory, n, budget, count, needed);
        text(family, memory, n, budget, count, needed - 1);
    }
    let args = rng.pick(&ARGS);
    if let Some(bytes) = write(family, memory, n, args, 4 * count + rng.below(3), 40 + 150 * count) {
        write(family, memory, n, args, 4 * count, bytes.len());
        write(family, memory, n, args, 4 * count, bytes.len() - 1);
        write(family, memory, n, args, (4 * count).saturating_sub(1), bytes.len());
        read(family, &mut memory.clone(), &bytes, true, 2 * count, 1);
    }
}

// ---- The families ----

/// Every cell with up to `refs` references of the values given, and the data given as d2 and bytes.
fn small_cells(refs: usize, values: &[u64], data: &[(u8, &[u8])], exotic: &[u8]) -> Vec<Frame> {
    let mut lists: Vec<Vec<u64>> = vec![vec![]];
    let mut last = lists.clone();
    for _ in 0..refs {
        last = last.iter().flat_map(|list| values.iter().map(move |&v| [&list[..], &[v]].concat())).collect();
        lists.extend(last.clone());
    }
    let mut cells = Vec::new();
    for list in &lists {
        for &(d2, bytes) in data {
            for &flag in exotic {
                let d1 = list.len() as u8 + 8 * flag;
                cells.push(Frame { d1, d2, hashes: vec![], data: bytes.to_vec(), refs: list.clone() });
            }
        }
    }
    cells
}

fn small_bags() -> u64 {
    let mut family = Family::new("every bag of up to three small cells");
    let mut rng = Rng(1);
    let data: [(u8, &[u8]); 7] = [(0, &[]), (1, &[0x80]), (1, &[0]), (1, &[0x40]), (2, &[0]), (2, &[0xff]), (3, &[0xff, 0x80])];
    let room = |family: &mut Family, rng: &mut Rng, bag: &Bag, look_too: bool| {
        let mut memory = Memory::new(3);
        let roots = read(family, &mut memory, &bag.bytes(), true, 2 * bag.cells.len(), 3);
        if let (Some(roots), true) = (roots, look_too) {
            for root in roots {
                look(family, rng, &memory, root as usize);
            }
        }
    };
    for roots in [&[][..], &[0], &[0, 0]] {
        room(&mut family, &mut rng, &Bag::new(roots, vec![]), true);
    }
    for first in small_cells(4, &[0, 1, 2], &data, &[0, 1]) {
        for roots in [&[][..], &[0], &[1], &[0, 0]] {
            room(&mut family, &mut rng, &Bag::new(roots, vec![first.clone()]), true);
        }
    }
    let two = small_cells(2, &[0, 1, 2], &data, &[0, 1]);
    for first in &two {
        for second in &two {
            for roots in [&[][..], &[0], &[1], &[2], &[0, 1], &[1, 1]] {
                room(&mut family, &mut rng, &Bag::new(roots, vec![first.clone(), second.clone()]), roots.len() == 2);
            }
        }
    }
    let three = small_cells(2, &[1, 2, 3], &[data[0], data[3], data[5]], &[0]);
    for first in &three {
        for second in &three {
            for third in &three {
                for roots in [&[0][..], &[2, 1, 0], &[3]] {
                    let bag = Bag::new(roots, vec![first.clone(), second.clone(), third.clone()]);
                    room(&mut family, &mut rng, &bag, true);
                }
            }
        }
    }
    family.done()
}

fn descriptors() -> u64 {
    let mut family = Family::new("every d1 and d2, every byte 4 and 5, the tags");
    let mut rng = Rng(2);
    let tail = rng.bytes(300);
    let low: Vec<u8> = (0..300).map(|i| [1, 1, 0, 2, 0, 0, 1, 0x80][i % 8]).collect();
    for a in 0..=255u8 {
        for b in 0..=255u8 {
            let head = [0xb5, 0xee, 0x9c, 0x72, 1, 1, 1, 1, 0, 2, 0, a, b];
            read(&mut family, &mut Memory::new(1), &[&head[..], &tail].concat(), false, 2, 1);
            let head = [0xb5, 0xee, 0x9c, 0x72, a, b];
            read(&mut family, &mut Memory::new(2), &[&head[..], &low].concat(), a % 2 == 0, 4, 2);
        }
    }
    for tag in [[0xb5, 0xee, 0x9c, 0x72], [0x68, 0xff, 0x65, 0xf3], [0xac, 0xc3, 0xa7, 0x28]] {
        for at in 0..4 {
            for value in 0..=255 {
                let mut head = tag;
                head[at] = value;
                for len in [0, 1, 40] {
                    read(&mut family, &mut Memory::new(2), &[&head[..], &low[..len]].concat(), len == 1, 4, 2);
                }
            }
        }
    }
    family.done()
}

fn wallets() -> [&'static [u8]; 3] {
    [
        include_bytes!("vectors/wallet_v1r1.boc"),
        include_bytes!("vectors/wallet_v3r2.boc"),
        include_bytes!("vectors/wallet_v4r2.boc"),
    ]
}

fn diamond() -> Bag {
    let cells = [(vec![0xaa], vec![1, 2]), (vec![0xbb], vec![3]), (vec![0xcc], vec![3]), (vec![], vec![])];
    Bag::new(&[0], cells.iter().map(|(data, refs)| Frame::of(data, refs)).collect())
}

fn changed_bytes() -> u64 {
    let mut family = Family::new("every value of every byte of some bags");
    for bag in [diamond().bytes(), diamond().with(HAS_IDX | HAS_CRC).bytes(), wallets()[0].to_vec()] {
        for at in 0..bag.len() {
            for value in 0..=255 {
                let mut other = bag.clone();
                other[at] = value;
                read(&mut family, &mut Memory::new(4), &other, true, 8, 1);
                if other[4] & HAS_CRC != 0 {
                    read(&mut family, &mut Memory::new(4), &signed(other), false, 8, 1);
                }
            }
        }
    }
    let bag = wallets()[2];
    for at in 0..bag.len() {
        for bit in 0..8 {
            let mut other = bag.to_vec();
            other[at] ^= 1 << bit;
            read(&mut family, &mut Memory::new(20), &signed(other), true, 40, 1);
        }
    }
    family.done()
}

fn fronts(seed: u64, times: usize) -> u64 {
    let mut family = Family::new("every front, by both readings");
    let mut rng = Rng(seed);
    let mut bags: Vec<Vec<u8>> = wallets().iter().map(|bag| bag.to_vec()).collect();
    bags.extend((0..200 * times).map(|_| random_bag(&mut rng, 6).bytes()));
    for bag in bags {
        for len in 0..=bag.len() {
            for whole in [true, false] {
                read(&mut family, &mut Memory::new(20), &bag[..len], whole, 40, 4);
            }
        }
    }
    family.done()
}

/// A store with some cells, and room about as small as a bag of `cells` cells and `roots` roots needs.
fn some_store(rng: &mut Rng, cells: usize) -> Memory {
    let held = rng.below(5);
    let mut memory = Memory::new(held + (cells + 2).saturating_sub(rng.below(4)));
    for i in 0..held {
        let mut built = CellBuilder::new(rng.one_in(4));
        let (step, _) = built.append(&[i as u8, 0x11], 4 + rng.below(12));
        built = step;
        for _ in 0..rng.below(5).min(4 * memory.count) {
            built = built.reference(rng.below(memory.count) as u32).0;
        }
        let _ = model::add(&mut memory, &built);
    }
    memory
}

fn about(rng: &mut Rng, needed: usize) -> usize {
    (needed + rng.below(3)).saturating_sub(rng.below(16) / 15)
}

fn random_bags(seed: u64, times: usize) -> u64 {
    let mut family = Family::new("random bags in every layout, then every call");
    let mut rng = Rng(seed);
    for round in 0..40_000 * times {
        let most = if round % 50 == 0 { 40 } else { 6 };
        let bag = random_bag(&mut rng, most);
        let mut memory = some_store(&mut rng, bag.cells.len());
        let (scratch, places) = (about(&mut rng, 2 * bag.cells.len()), about(&mut rng, bag.roots.len()));
        let mut reply = bag.bytes();
        if rng.one_in(8) {
            let more = 1 + rng.below(3);
            reply.extend(rng.bytes(more));
        }
        let whole = rng.one_in(2);
        let roots = read(&mut family, &mut memory, &reply, whole, scratch, places);
        if round % 4 == 0 {
            for root in roots.unwrap_or_default().iter().take(2) {
                look(&mut family, &mut rng, &memory, *root as usize);
            }
        }
    }
    family.done()
}

fn damaged_bags(seed: u64, times: usize) -> u64 {
    let mut family = Family::new("damaged copies");
    let mut rng = Rng(seed);
    for _ in 0..25_000 * times {
        let bag = random_bag(&mut rng, 5);
        let memory = some_store(&mut rng, bag.cells.len());
        let bytes = bag.bytes();
        for _ in 0..8 {
            let reply = damaged(&mut rng, &bytes);
            let (scratch, places) = (about(&mut rng, 2 * bag.cells.len()), about(&mut rng, bag.roots.len()));
            read(&mut family, &mut memory.clone(), &reply, rng.one_in(2), scratch, places);
        }
    }
    for wallet in wallets() {
        for _ in 0..3000 * times {
            let reply = damaged(&mut rng, wallet);
            read(&mut family, &mut Memory::new(20), &reply, rng.one_in(2), 40, 1);
        }
    }
    family.done()
}

/// A random cell to be added, in and out of the limits.
fn add_some(family: &mut Family, rng: &mut Rng, memory: &mut Memory) {
    let bits = match rng.below(12) {
        0 => rng.pick(&[1022, 1023, 1024, 1025, 2000, usize::MAX]),
        1 => rng.below(1024),
        _ => rng.below(12),
    };
    let mut data = if rng.one_in(2) { rng.bytes(DATA_LEN) } else { vec![0xff; DATA_LEN] };
    if bits <= 1023 && rng.one_in(2) {
        data.truncate(bits.div_ceil(8));
    }
    if rng.one_in(16) {
        data.pop();
    }
    let held = memory.count.min(model::MAX_CELLS);
    let wide = rng.one_in(16) as usize;
    let count = if rng.one_in(2) { 0 } else { rng.below(5 + wide) };
    let refs: Vec<u32> = (0..count)
        .map(|_| match rng.below(24) {
            0 => rng.pick(&[held as u32, held as u32 + 1, u32::MAX]),
            _ => rng.below(held.max(1)) as u32,
        })
        .collect();
    add(family, memory, rng.one_in(3), bits, &data, &refs);
}

fn histories(seed: u64, times: usize) -> u64 {
    let mut family = Family::new("histories of clears, adds and reads");
    let mut rng = Rng(seed);
    for _ in 0..2_500 * times {
        let mut memory = Memory::new(rng.below(40));
        for _ in 0..60 {
            match rng.below(24) {
                0 if rng.one_in(4) => clear(&mut family, &mut memory),
                0..=4 => {
                    let bytes = random_bag(&mut rng, 5).bytes();
                    let bytes = if rng.one_in(4) { damaged(&mut rng, &bytes) } else { bytes };
                    read(&mut family, &mut memory, &bytes, rng.one_in(2), 12, 4);
                }
                5 => {
                    let n = rng.below(memory.count + 2);
                    look(&mut family, &mut rng, &memory, n);
                }
                _ => add_some(&mut family, &mut rng, &mut memory),
            }
        }
        look(&mut family, &mut rng, &memory, usize::MAX);
    }
    family.done()
}

/// Appends a copy of a held cell: the store stays sound, and now holds two equal cells.
fn twin(rng: &mut Rng, memory: &mut Memory) {
    let own = memory.count;
    if own == 0 || (own + 1) * RECORD_LEN > memory.table.len() {
        return;
    }
    let from = rng.below(own);
    memory.table.copy_within(from * RECORD_LEN..(from + 1) * RECORD_LEN, own * RECORD_LEN);
    memory.bytes.copy_within(from * DATA_LEN..(from + 1) * DATA_LEN, own * DATA_LEN);
    memory.count += 1;
}

fn twins(seed: u64, times: usize) -> u64 {
    let mut family = Family::new("stores that hold equal cells");
    let mut rng = Rng(seed);
    for _ in 0..3_000 * times {
        let mut memory = Memory::new(8 + rng.below(8));
        for _ in 0..2 + rng.below(8) {
            add_some(&mut family, &mut rng, &mut memory);
            twin(&mut rng, &mut memory);
        }
        // Each cell added again, and written and read again.
        for n in 0..memory.count {
            let cell = model::cell(&memory, n).unwrap();
            add(&mut family, &mut memory, cell.exotic, cell.bits, &cell.data, &cell.refs);
            if rng.one_in(3) {
                look(&mut family, &mut rng, &memory, n);
            }
        }
    }
    family.done()
}

/// Changes that leave a store sound or not.
fn spoil(rng: &mut Rng, memory: &mut Memory) {
    let records = memory.table.len() / RECORD_LEN;
    match rng.below(9) {
        0 => memory.count = rng.pick(&[0, 1, memory.count + 1, records, records + 1, usize::MAX]),
        1 => {
            let len = rng.below(memory.table.len() + 1);
            memory.table.truncate(len);
        }
        2 => {
            let len = rng.below(memory.bytes.len() + 1);
            memory.bytes.truncate(len);
        }
        3 => memory.table.push(0),
        4 => memory.bytes.push(0),
        5 => memory.bytes.extend([0; DATA_LEN]),
        6 if !memory.bytes.is_empty() => {
            let at = rng.below(memory.bytes.len());
            memory.bytes[at] ^= 1 << rng.below(8);
        }
        _ if !memory.table.is_empty() => {
            let at = rng.below(memory.table.len());
            memory.table[at] = rng.pick(&[0, 1, 2, 3, 4, 5, 1023, 1024, memory.count as u32, u32::MAX]);
        }
        _ => {}
    }
}

fn unsound_stores(seed: u64, times: usize) -> u64 {
    let mut family = Family::new("stores with one thing changed, every call");
    let mut rng = Rng(seed);
    for _ in 0..8_000 * times {
        let mut memory = some_store(&mut rng, 4);
        let bytes = random_bag(&mut rng, 3).bytes();
        for _ in 0..3 {
            let mut other = memory.clone();
            spoil(&mut rng, &mut other);
            let n = rng.below(5);
            look(&mut family, &mut rng, &other, n);
            read(&mut family, &mut other.clone(), &bytes, true, 6, 3);
            add_some(&mut family, &mut rng, &mut other.clone());
            clear(&mut family, &mut other);
        }
        memory.count = rng.below(9);
        clear(&mut family, &mut memory);
    }
    for records in [4095, 4096, 4097] {
        let mut memory = Memory::new(records);
        add_some(&mut family, &mut rng, &mut memory);
        read(&mut family, &mut memory, &diamond().bytes(), true, 8, 1);
        look(&mut family, &mut rng, &memory, 0);
        clear(&mut family, &mut memory);
    }
    family.done()
}

/// Cells of which each refers `times` times to the next.
fn chain(cells: usize, times: usize, data: &[u8]) -> Bag {
    let frame = |i: usize| Frame::of(data, &if i + 1 < cells { vec![i as u64 + 1; times] } else { vec![] });
    Bag::new(&[0], (0..cells).map(frame).collect())
}

fn great_bags() -> u64 {
    let mut family = Family::new("limits: cells, paths, budgets, depths, texts");
    let mut rng = Rng(7);
    // 4,096 cells pass and 4,097 do not; a chain's written length.
    for cells in [255, 256, 257, 258, 4095, 4096, 4097] {
        for bag in [chain(cells, 1, &[]), chain(cells, 2, &[7]), Bag::new(&[0], vec![Frame::of(&[], &[]); cells])] {
            for records in [4096, cells - 1] {
                let mut memory = Memory::new(records);
                for root in read(&mut family, &mut memory, &bag.bytes(), true, 8192, 1).unwrap_or_default() {
                    look(&mut family, &mut rng, &memory, root as usize);
                    for args in ARGS {
                        write(&mut family, &memory, root as usize, args, 4 * memory.count, 100_000);
                    }
                }
            }
        }
    }
    // Paths of 256 and 257 references, and a budget that a doubling chain passes by one, by many, and beyond all numbers.
    for (cells, times) in [(257, 1), (258, 1), (300, 1), (15, 2), (16, 2), (17, 2), (100, 2), (257, 4), (8, 4), (9, 4), (11, 3)] {
        let mut memory = Memory::new(cells);
        let roots = read(&mut family, &mut memory, &chain(cells, times, &[1, 2]).bytes(), true, 2 * cells, 1);
        for root in roots.unwrap_or_default() {
            for budget in [0, 1, 256, 257, 32_767, 32_768, 65_534, 65_535, 65_536, usize::MAX] {
                text(&mut family, &memory, root as usize, budget, cells, 1_000_000);
                text(&mut family, &memory, root as usize, budget, cells, 100);
            }
            depth(&mut family, &memory, root as usize, cells);
        }
    }
    // Pruned branches that state a depth near the limit, below chains that pass it or do not.
    for level in [0u8, 1, 2, 3, 5, 6, 7, 0x0f, 0x80, 0xc1] {
        for bits in [280, 281, 287, 288, 289, 552, 559, 560, 561, 824, 825, 831, 832, 833] {
            for first in [0u8, 1, 2] {
                let mut memory = Memory::new(12);
                let mut data = [0xffu8; DATA_LEN];
                data[0] = first;
                data[1] = level;
                let at = 2 + 32 * level.count_ones().min(3) as usize;
                data[at + 1] = 0xfa;
                for exotic in [true, false] {
                    add(&mut family, &mut memory, exotic, bits, &data, &[]);
                }
                for i in 0..9u32 {
                    let previous = if i == 0 { 0 } else { i + 1 };
                    add(&mut family, &mut memory, false, 0, &[], &[previous, 1][..1 + i as usize % 2]);
                }
                for n in 0..memory.count {
                    depth(&mut family, &memory, n, memory.count);
                }
            }
        }
    }
    // A store that holds 4,000 cells, filled to its end and past it.
    let mut memory = Memory::new(4096);
    let numbered = |first: usize, cells: usize| {
        Bag::new(&[0], (first..first + cells).map(|i| Frame::of(&(i as u16).to_be_bytes(), &[])).collect()).bytes()
    };
    for (first, cells) in [(0, 4000), (3990, 97), (3990, 107), (0, 4096), (4096, 1), (4095, 2)] {
        read(&mut family, &mut memory, &numbered(first, cells), true, 8192, 1);
        add_some(&mut family, &mut rng, &mut memory);
    }
    family.done()
}

fn checksums(seed: u64, times: usize) -> u64 {
    let mut family = Family::new("checksums");
    let mut rng = Rng(seed);
    for len in 0..=1024 {
        checksum(&mut family, &vec![0; len]);
        checksum(&mut family, &vec![0xff; len]);
        let bytes = rng.bytes(len);
        checksum(&mut family, &bytes);
    }
    for byte in 0..=255 {
        checksum(&mut family, &[byte]);
        checksum(&mut family, &[byte, 0, 0, 0, byte]);
    }
    for _ in 0..100 * times {
        let len = 1024 + rng.below(8000);
        let bytes = rng.bytes(len);
        checksum(&mut family, &bytes);
    }
    family.done()
}

fn number_of(name: &str, otherwise: u64) -> u64 {
    std::env::var(name).ok().and_then(|text| text.parse().ok()).unwrap_or(otherwise)
}

fn main() {
    let seed = number_of("TAPUNEROW_SEED", 2026);
    let times = number_of("TAPUNEROW_TIMES", 1) as usize;
    println!("library and model, seed {seed}, random families times {times}; after `;` the refusals by number");
    let calls = small_bags()
        + descriptors()
        + changed_bytes()
        + great_bags()
        + fronts(seed + 1, times)
        + random_bags(seed + 2, times)
        + damaged_bags(seed + 3, times)
        + histories(seed + 4, times)
        + unsound_stores(seed + 5, times)
        + twins(seed + 7, times)
        + checksums(seed + 6, times);
    println!("{calls} calls, no difference");
    assert!(calls >= 1_000_000);
}
