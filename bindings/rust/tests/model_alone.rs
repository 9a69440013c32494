//! The worked numbers, RFC 3720's checksums and published bags, held against the model alone.

mod make;
mod model;
#[path = "../benches/plain/mod.rs"]
mod plain;

use make::{damaged, random_bag, Bag, Frame, Rng, HAS_CRC, HAS_IDX};
use model::*;

/// Bytes of a line of hex digits, spaces apart.
fn hex(text: &str) -> Vec<u8> {
    let digits: Vec<u32> = text.chars().filter(|c| *c != ' ').map(|c| c.to_digit(16).unwrap()).collect();
    digits.chunks(2).map(|pair| (pair[0] * 16 + pair[1]) as u8).collect()
}

const DIAMOND: &str = "b5ee9c72 01 01 04 01 00 0f 00 0202aa0102 0102bb03 0102cc03 0000";
const NO_OPTIONS: BagOfCellsArgs = BagOfCellsArgs { has_idx: false, has_crc32c: false };
const INDEX: BagOfCellsArgs = BagOfCellsArgs { has_idx: true, has_crc32c: false };

fn built(exotic: bool, bits: usize, data: &[u8], refs: &[u32]) -> CellBuilder {
    let (mut builder, verdict) = CellBuilder::new(exotic).append(data, bits);
    assert_eq!(verdict, Ok(()));
    for &r in refs {
        let (next, verdict) = builder.reference(r);
        assert_eq!(verdict, Ok(()));
        builder = next;
    }
    builder
}

fn diamond() -> Memory {
    let mut memory = Memory::new(8);
    assert_eq!(add(&mut memory, &built(false, 0, &[], &[])), Ok(0));
    assert_eq!(add(&mut memory, &built(false, 8, &[0xcc], &[0])), Ok(1));
    assert_eq!(add(&mut memory, &built(false, 8, &[0xbb], &[0])), Ok(2));
    assert_eq!(add(&mut memory, &built(false, 8, &[0xaa], &[2, 1])), Ok(3));
    memory
}

fn written(memory: &Memory, n: usize, args: BagOfCellsArgs) -> Vec<u8> {
    let mut scratch = vec![5; 4 * memory.count];
    let mut out = vec![0; 100_000];
    let len = write(memory, n, args, &mut scratch, &mut out).unwrap();
    assert!(scratch.iter().all(|&n| n == 0));
    out.truncate(len);
    out
}

fn whole(reply: &[u8]) -> (Result<Counts, Refusal>, Memory, Vec<u32>) {
    whole_into(4096, reply)
}

fn whole_into(records: usize, reply: &[u8]) -> (Result<Counts, Refusal>, Memory, Vec<u32>) {
    let mut memory = Memory::new(records);
    let mut roots = vec![7; 4096];
    let answer = read(reply, true, &mut memory, &mut vec![9; 8192], &mut roots);
    (answer, memory, roots)
}

fn answer(reply: &[u8]) -> Result<Counts, (u32, usize)> {
    whole(reply).0.map_err(|refusal| (refusal.number, refusal.place))
}

#[test]
fn checksums_of_the_rfc() {
    let rising: Vec<u8> = (0..32).collect();
    let falling: Vec<u8> = (0..32).rev().collect();
    assert_eq!(crc32c(&[0; 32]), 0x8a91_36aa);
    assert_eq!(crc32c(&[0xff; 32]), 0x62a8_ab43);
    assert_eq!(crc32c(&rising), 0x46dd_794e);
    assert_eq!(crc32c(&falling), 0x113f_db5c);
    assert_eq!(crc32c(b"123456789"), 0xe306_9283);
    assert_eq!(crc32c(&[]), 0);
}

#[test]
fn worked_bags() {
    let mut memory = Memory::new(2);
    add(&mut memory, &built(false, 32, &[0, 0, 4, 0xd2], &[])).unwrap();
    add(&mut memory, &built(false, 0, &[], &[])).unwrap();
    assert_eq!(written(&memory, 0, NO_OPTIONS), hex("b5ee9c72 01 01 01 01 00 06 00 00 08 000004d2"));
    assert_eq!(written(&memory, 0, INDEX), hex("b5ee9c72 81 01 01 01 00 06 00 00 00 08 000004d2"));
    assert_eq!(written(&memory, 1, NO_OPTIONS), hex("b5ee9c72 01 01 01 01 00 02 00 00 00"));
    assert_eq!(written(&diamond(), 3, NO_OPTIONS), hex(DIAMOND));
    assert_eq!(written(&diamond(), 3, INDEX)[11..15], [0x00, 0x05, 0x09, 0x0d]);
}

#[test]
fn worked_padding() {
    for (bits, d2) in [(3, 1), (1016, 254), (1017, 255), (1023, 255)] {
        let mut memory = Memory::new(1);
        add(&mut memory, &built(false, bits, &[0xbf; 128], &[])).unwrap();
        let bytes = written(&memory, 0, NO_OPTIONS);
        let start = bytes.len() - bits.div_ceil(8) - 2;
        assert_eq!(bytes[start + 1], d2);
        if bits == 3 {
            assert_eq!(bytes[start + 2], 0xb0);
        }
    }
    let bag = |cell: &str| hex(&format!("b5ee9c72 01 01 01 01 00 00 00 {cell}"));
    let (answer, memory, _) = whole(&bag("00 03 aa80"));
    assert!(answer.is_ok());
    assert_eq!(held(&memory).unwrap()[0], Cell::new(false, 8, &[0xaa], &[]));
    assert_eq!(whole(&bag("00 03 aa00")).0, Err(Refusal { number: PADDING, place: 13 }));
    assert_eq!(held(&whole(&bag("00 01 80")).1).unwrap()[0], Cell::new(false, 0, &[], &[]));
}

/// A chain of cells without data: the first refers to the second, and so on.
fn chain(cells: usize) -> Bag {
    let frames = (0..cells).map(|i| Frame::of(&[], if i + 1 < cells { vec![i as u64 + 1] } else { vec![] }.as_slice()));
    Bag::new(&[0], frames.collect())
}

#[test]
fn chains() {
    for (cells, size, total, len) in [(255, 1, 764, 776), (256, 2, 1022, 1038)] {
        let (answer, memory, roots) = whole(&chain(cells).bytes());
        assert_eq!(answer.unwrap().added, cells);
        let bytes = written(&memory, roots[0] as usize, NO_OPTIONS);
        assert_eq!(bytes.len(), len);
        assert_eq!(bytes[4], size);
        assert_eq!(bytes[6 + 3 * size as usize..][..2], (total as u16).to_be_bytes());
        assert_eq!(bytes, chain(cells).bytes());
    }
    let path = |references: usize| {
        let (_, memory, roots) = whole(&chain(references + 1).bytes());
        debug_text(&memory, roots[0] as usize, 1000, &mut vec![1; 4096], &mut vec![0; 100_000])
    };
    assert_eq!(path(256).unwrap().cells, 257);
    assert_eq!(path(257), Err(Refusal { number: DEEP, place: 0 }));
}

#[test]
fn worked_refusals() {
    assert_eq!(answer(&[]), Err((CUT, 0)));
    assert_eq!(answer(&hex("b5ee9c72 01 01 01 01 00 02 00 10 00")), Err((CUT, 13)));
    assert_eq!(answer(&hex("b5ee9c72 01 01 01 01 00 03 00 01 00 00")), Err((BACK, 0)));
    assert_eq!(answer(&hex("b5ee9c72 01 01 01 01 00 03 00 01 00 01")), Err((RANGE, 0)));
    assert_eq!(answer(&hex("68ff65f3")), Err((INDEXED, 0)));
    assert_eq!(answer(&hex("acc3a728")), Err((INDEXED, 0)));
    assert_eq!(answer(&hex("b5ee9c73")), Err((TAG, 0)));
    assert_eq!(answer(&hex("b5ee9c72 05")), Err((SIZE, 4)));
    assert_eq!(answer(&hex("b5ee9c72 01 09")), Err((OFFSET, 5)));
    assert_eq!(answer(&hex("b5ee9c72 04 00 00000001 ffffffff 00000001")), Err((COUNTS, 6)));
    assert_eq!(answer(&hex("b5ee9c72 04 00 00001001 00000001 00000000")), Err((CELLS, 6)));
    assert_eq!(answer(&hex("b5ee9c72 01 01 01 01 00 02 00 05")), Err((REFS, 11)));
    assert_eq!(answer(&hex("b5ee9c72 01 01 01 01 00 02 01 00 00")), Err((ROOT, 0)));
    assert_eq!(answer(&hex("b5ee9c72 01 01 01 01 00 02 00 00 00 00")), Err((EXTRA, 13)));
    let mut sum = Bag::new(&[0], vec![Frame::of(&[], &[])]).with(HAS_CRC).bytes();
    assert!(answer(&sum).is_ok());
    sum[14] ^= 1;
    assert_eq!(answer(&sum), Err((CRC, 13)));
}

#[test]
fn room() {
    let empties = |n: usize| Bag::new(&[0], vec![Frame::of(&[], &[]); n]).bytes();
    assert_eq!(answer(&empties(4096)).unwrap().added, 1);
    assert_eq!(answer(&empties(4097)), Err((CELLS, 6)));
    let reply = hex(DIAMOND);
    for (records, scratch, places, expected) in [
        (4, 8, 1, Ok(Counts { used: 26, cells: 4, roots: 1, added: 4 })),
        (3, 8, 1, Err(Refusal { number: FULL, place: 0 })),
        (3, 8, 0, Err(Refusal { number: ROOTROOM, place: 1 })),
        (3, 7, 0, Err(Refusal { number: SCRATCH, place: 8 })),
    ] {
        let mut memory = Memory::new(records);
        let mut scratch = vec![9; scratch];
        let mut roots = vec![7; places];
        assert_eq!(read(&reply, true, &mut memory, &mut scratch, &mut roots), expected);
        assert!(scratch.iter().all(|&n| n == 0));
        match expected {
            Ok(_) => assert_eq!(roots, [3]),
            Err(_) => assert_eq!((memory, roots), (Memory::new(records), vec![7; places])),
        }
    }
}

#[test]
fn stores_that_are_not_sound() {
    let good = diamond();
    assert!(held(&good).is_ok());
    let spoil: [fn(&mut Memory); 11] = [
        |m| m.count = 9,
        |m| m.count = 3,
        |m| m.table[0] = 2,
        |m| m.table[1] = 1024,
        |m| m.table[2] = 5,
        |m| m.table[6] = 1,
        |m| m.table[7 + 3] = 1,
        |m| m.bytes[0] = 0x80,
        |m| m.bytes[128 + 127] = 1,
        |m| m.table.truncate(55),
        |m| m.bytes.truncate(1023),
    ];
    for spoil in spoil {
        let mut bad = good.clone();
        spoil(&mut bad);
        assert_eq!(held(&bad), Err(Refusal { number: STORE, place: 0 }));
    }
    let mut long = Memory::new(4097);
    assert_eq!(clear(&mut long), Err(Refusal { number: STORE, place: 0 }));
    let mut dirty = Memory { count: 77, table: vec![3; 14], bytes: vec![4; 256] };
    assert_eq!(clear(&mut dirty), Ok(()));
    assert_eq!(dirty, Memory::new(2));
}

#[test]
fn listing_by_parents() {
    // A root that refers to d and b, b to d: root, b, d.
    let mut memory = Memory::new(3);
    add(&mut memory, &built(false, 8, &[0xdd], &[])).unwrap();
    add(&mut memory, &built(false, 8, &[0xbb], &[0])).unwrap();
    add(&mut memory, &built(false, 8, &[0xaa], &[0, 1])).unwrap();
    let cells = held(&memory).unwrap();
    assert_eq!(listing(&cells, 2), [2, 1, 0]);
    assert_eq!(written(&memory, 2, NO_OPTIONS)[11..16], [0x02, 0x02, 0xaa, 0x02, 0x01]);
    // A child named twice by one parent joins once.
    let mut memory = Memory::new(2);
    add(&mut memory, &built(false, 0, &[], &[])).unwrap();
    add(&mut memory, &built(false, 0, &[], &[0, 0])).unwrap();
    assert_eq!(listing(&held(&memory).unwrap(), 1), [1, 0]);
}

#[test]
fn depth_of_a_pruned_branch() {
    let mut memory = Memory::new(8);
    for (level, bits) in [(1u8, 288), (3, 560), (7, 832)] {
        let mut data = [0u8; 128];
        data[0] = 1;
        data[1] = level;
        let at = 2 + 32 * level.count_ones() as usize;
        data[at..at + 2].copy_from_slice(&[0xff, 0xff]);
        let n = add(&mut memory, &built(true, bits, &data, &[])).unwrap();
        let mut scratch = [1; 8];
        // The stated depth is 65,535; one reference above it passes the limit.
        assert_eq!(max_depth(&memory, n, &mut scratch), Ok(65_535));
        let above = add(&mut memory, &built(false, 0, &[], &[n as u32])).unwrap();
        assert_eq!(max_depth(&memory, above, &mut scratch), Err(Refusal { number: DEPTH, place: 0 }));
    }
    assert_eq!(max_depth(&diamond(), 3, &mut [1; 4]), Ok(2));
    assert_eq!(max_depth(&diamond(), 3, &mut [1; 3]), Err(Refusal { number: SCRATCH, place: 4 }));
    assert_eq!(max_depth(&diamond(), 4, &mut [1; 3]), Err(Refusal { number: NOCELL, place: 0 }));
}

#[test]
fn program_lines() {
    let expected = "ok 26 4 1\n8[0xAA] -> {8[0xBB] -> {0[0x]}, 8[0xCC] -> {0[0x]}}\n";
    assert_eq!(printed(&hex(DIAMOND)), expected.as_bytes());
    assert_eq!(printed(&[]), b"refused 2 0\n");
    assert_eq!(printed(&[0; 32_769]), b"too long\n");
    assert_eq!(printed(&[0; 32_768]), b"refused 3 0\n");
}

#[test]
fn texts() {
    let memory = diamond();
    let text = b"8[0xAA] -> {8[0xBB] -> {0[0x]}, 8[0xCC] -> {0[0x]}}";
    let mut out = [b'.'; 60];
    let printed = debug_text(&memory, 3, 5, &mut [3; 4], &mut out).unwrap();
    assert_eq!(printed, Printed { written: text.len(), cells: 5 });
    assert_eq!(&out[..text.len()], text);
    assert!(out[text.len()..].iter().all(|&b| b == b'.'));
    let refusal = |budget, room: usize| debug_text(&memory, 3, budget, &mut [3; 4], &mut vec![0; room]).unwrap_err();
    assert_eq!(refusal(4, 0), Refusal { number: BUDGET, place: 4 });
    assert_eq!(refusal(0, 0), Refusal { number: BUDGET, place: 0 });
    assert_eq!(refusal(usize::MAX, text.len() - 1), Refusal { number: NOROOM, place: text.len() });
}

#[test]
fn builder_steps() {
    let refusal = |number| Err(Refusal { number, place: 0 });
    let full = built(false, 1023, &[0xff; 128], &[]);
    assert_eq!(full.bytes[127], 0xfe);
    assert_eq!(full.clone().append(&[], 1), (full.clone(), refusal(CUT)));
    assert_eq!(full.clone().append(&[0], 1), (full.clone(), refusal(BITS)));
    assert_eq!(full.clone().repeat(usize::MAX, true), (full.clone(), refusal(BITS)));
    assert_eq!(full.clone().repeat(0, true), (full.clone(), Ok(())));
    let four = built(true, 4, &[0xa0], &[1, 2, 3, 4]);
    assert_eq!(four.clone().reference(5), (four.clone(), refusal(REFS)));
    let (longer, verdict) = four.append(&[0b1010_0000], 3);
    assert_eq!((verdict, longer.len, longer.bytes[0]), (Ok(()), 7, 0b1010_1010));
}

#[test]
fn added_cells() {
    let mut memory = diamond();
    let before = memory.clone();
    // Bits past the length and unused references count as 0.
    let mut stale = built(false, 8, &[0xaa, 0xff], &[2, 1]);
    stale.bytes = [0xff; 128];
    stale.bytes[0] = 0xaa;
    stale.refs = [2, 1, 99, 99];
    assert_eq!(add(&mut memory, &stale), Ok(3));
    let refusal = |number, place| Err(Refusal { number, place });
    assert_eq!(add(&mut memory, &built(false, 0, &[], &[0, 4, 5])), refusal(NOCELL, 1));
    stale.len = 1024;
    stale.count = 5;
    assert_eq!(add(&mut memory, &stale), refusal(BITS, 0));
    stale.len = 0;
    assert_eq!(add(&mut memory, &stale), refusal(REFS, 0));
    assert_eq!(memory, before);
}

/// What is written reads back to the same cell, in every layout; a cut reply is refused by CUT.
#[test]
fn written_and_read_back() {
    let mut rng = Rng(1);
    for _ in 0..2000 {
        let bag = random_bag(&mut rng, 12);
        let reply = bag.bytes();
        let (counts, mut memory, roots) = whole_into(32, &reply);
        let counts = counts.unwrap();
        assert_eq!((counts.used, counts.roots), (reply.len(), bag.roots.len()));
        for &root in &roots[..counts.roots] {
            for options in 0..4 {
                let args = BagOfCellsArgs { has_idx: options & 1 != 0, has_crc32c: options & 2 != 0 };
                let bytes = written(&memory, root as usize, args);
                let mut again = [0; 1];
                let counts = read(&bytes, true, &mut memory, &mut [9; 8192], &mut again).unwrap();
                assert_eq!((counts.added, again[0]), (0, root));
            }
        }
        let front = rng.below(reply.len());
        assert_eq!(whole_into(32, &reply[..front]).0.unwrap_err().number, CUT);
        let _ = whole_into(32, &damaged(&mut rng, &reply));
    }
}

#[test]
fn every_layout_reads_the_same() {
    let plain = whole_into(32, &hex(DIAMOND));
    let cells = || {
        let cell = |data: &[u8], refs: &[u64]| Frame::of(data, refs);
        vec![cell(&[0xaa], &[1, 2]), cell(&[0xbb], &[3]), cell(&[0xcc], &[3]), cell(&[], &[])]
    };
    for options in (0..32u8).map(|n| n << 3) {
        for size in 1..=4 {
            for off_bytes in 0..=8 {
                let bag = Bag::new(&[0], cells()).with(options).sized(size, off_bytes);
                let (answer, memory, roots) = whole_into(32, &bag.bytes());
                assert_eq!(answer.unwrap().added, 4);
                assert_eq!((memory, roots), (plain.1.clone(), plain.2.clone()));
            }
        }
    }
    assert_eq!(Bag::new(&[0], cells()).with(HAS_IDX).bytes()[11..15], [0x00, 0x05, 0x09, 0x0d]);
}

/// Published bags: the code of three public wallets.
#[test]
fn published_bags() {
    let wallets: [(&[u8], usize, u32); 3] = [
        (include_bytes!("vectors/wallet_v1r1.boc"), 1, 0),
        (include_bytes!("vectors/wallet_v3r2.boc"), 1, 0),
        (include_bytes!("vectors/wallet_v4r2.boc"), 20, 19),
    ];
    for (reply, cells, root) in wallets {
        let (answer, memory, roots) = whole_into(32, reply);
        assert_eq!(answer, Ok(Counts { used: reply.len(), cells, roots: 1, added: cells }));
        assert_eq!((roots[0], memory.count), (root, cells));
        for front in 0..reply.len() {
            assert_eq!(whole_into(32, &reply[..front]).0.unwrap_err().number, CUT);
        }
    }
}

/// The plain implementation that speed is held against does the same work: the same answers, bags and texts.
#[test]
fn plain_implementation_agrees() {
    let mut rng = Rng(3);
    let mut accepted = 0;
    for round in 0..30_000 {
        let mut reply = random_bag(&mut rng, if round % 20 == 0 { 30 } else { 6 }).bytes();
        if rng.one_in(2) {
            reply = damaged(&mut rng, &reply);
        }
        let room = rng.pick(&[3, 32]);
        let (answer, memory, roots) = whole_into(room, &reply);
        let mut store = plain::PlainStore::new(room);
        let other = store.read(&reply);
        let Ok(counts) = answer else {
            assert_eq!(other.err(), answer.err().map(|refusal| (refusal.number, refusal.place)));
            assert!(store.cells.is_empty());
            continue;
        };
        accepted += 1;
        let other = other.unwrap();
        assert_eq!((other.used, other.added, other.roots.len()), (counts.used, counts.added, counts.roots));
        assert_eq!(other.roots, roots[..counts.roots]);
        for (cell, plain) in held(&memory).unwrap().iter().zip(&store.cells) {
            assert_eq!((cell.exotic, cell.bits, &cell.data, &cell.refs), (plain.exotic, plain.bits, &plain.data, &plain.refs));
        }
        for &root in &other.roots {
            let root = root as usize;
            let args = BagOfCellsArgs { has_idx: rng.one_in(2), has_crc32c: rng.one_in(2) };
            assert_eq!(written(&memory, root, args), store.write(root, args.has_idx, args.has_crc32c));
            let mut out = vec![0; 400_000];
            let text = debug_text(&memory, root, 1000, &mut [0; 32], &mut out);
            let text = text.ok().map(|printed| String::from_utf8(out[..printed.written].to_vec()).unwrap());
            assert_eq!(text, store.text(root, 1000));
        }
    }
    assert!(accepted > 10_000);
}
