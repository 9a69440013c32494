//! The rows of docs/DIFFERENCES.md: what the library answers where the Rust that it is a port of parts from it.

include!(concat!(env!("CARGO_MANIFEST_DIR"), "/src/linked.rs"));

use tapunerow::{Cell, Read, Refusal, Store};

/// The bytes of a row as they stand there: `(00 x 32)` is 32 bytes 00.
fn bytes(row: &str) -> Vec<u8> {
    let digits: Vec<u8> = row.replace("(00 x 32)", &"00".repeat(32)).bytes().filter(|digit| *digit != b' ').collect();
    let byte = |pair: &[u8]| u8::from_str_radix(std::str::from_utf8(pair).unwrap(), 16).unwrap();
    digits.chunks(2).map(byte).collect()
}

fn read(row: &str) -> Result<Read, Refusal> {
    Store::new().read(&bytes(row))
}

/// A store of the bag, and its only root.
fn stored(row: &str) -> (Store, u32) {
    let mut store = Store::new();
    let read = store.read(&bytes(row)).unwrap();
    assert_eq!(read.roots.len(), 1);
    (store, read.roots[0])
}

#[test]
fn reading() {
    let refused = [
        ("b5ee9c72 01 01 01 01 00 03 00 0100 01", Refusal::Range { cell: 0 }),
        ("b5ee9c72 01 01 01 01 00 02 01 0000", Refusal::Root { position: 0 }),
        ("b5ee9c72 04 01 00000001 00000001 ffffffff 02 00000000 0000", Refusal::Counts),
        ("b5ee9c72 01 01 02 01 00 09 00 0500 0101010101 0000", Refusal::Refs { at: 11 }),
        ("b5ee9c72 01 01 01 01 00 02 00 1000", Refusal::Cut { at: 13 }),
        ("68ff65f3 01 01 01 01 00 02 00 0000", Refusal::Indexed),
        ("68ff65f3 20 00 20 00 02 00 00", Refusal::Indexed),
        ("acc3a728 01 01 01 01 00 02 00 0000 67239577", Refusal::Indexed),
    ];
    for (row, refusal) in refused {
        assert_eq!(read(row), Err(refusal), "{row}");
    }
    let (store, root) = stored("b5ee9c72 81 05 01 01 00 0000000002 00 0000000000 0000");
    assert_eq!(store.cell(root), Ok(Cell::default()));
    // A number of zero bytes is 0: no cells, no roots.
    assert_eq!(read("b5ee9c72 00 00"), Ok(Read { used: 6, cells: 0, roots: vec![], added: 0 }));
}

#[test]
fn depth_and_text() {
    let (store, root) = stored("b5ee9c72 01 01 02 01 00 29 00 010001 0848 0101 (00 x 32) ffff");
    assert_eq!(store.depth(root), Err(Refusal::Depth));
    let (store, root) = stored("b5ee9c72 01 01 01 01 00 26 00 0847 0101 (00 x 32) 0001");
    assert_eq!(store.depth(root), Ok(0));
    let (store, root) = stored("b5ee9c72 01 01 01 01 00 03 00 0001 b0");
    assert_eq!(store.text(root, 1).unwrap(), "3[0xA0]");
    let (store, root) = stored("b5ee9c72 01 01 02 01 00 05 00 010001 0000");
    assert_eq!(store.text(root, 1), Err(Refusal::Budget { budget: 1 }));
    assert_eq!(store.text(root, 2).unwrap(), "0[0x] -> {0[0x]}");
}

#[test]
fn a_chain_of_258_cells() {
    let mut store = Store::with_room(258).unwrap();
    let mut last = store.add(&Cell::default()).unwrap();
    for _ in 1..258 {
        last = store.add(&Cell::new([], [last])).unwrap();
    }
    assert_eq!(store.depth(last), Ok(257));
    assert_eq!(store.text(last, 1000), Err(Refusal::Deep));
    assert_eq!(store.text(last - 1, 1000).map(|text| text.len()), Ok(257 * "0[0x]".len() + 256 * " -> {}".len()));
}
