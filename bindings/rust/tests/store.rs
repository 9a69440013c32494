//! The safe face of the library: `Store` and `Refusal`.

include!(concat!(env!("CARGO_MANIFEST_DIR"), "/src/linked.rs"));

use tapunerow::{crc32c, Cell, Options, Read, Refusal, Store};

const PLAIN: Options = Options { has_idx: false, has_crc32c: false };

#[test]
fn published_bags() {
    let wallets: [(&[u8], usize, u32); 3] = [
        (include_bytes!("vectors/wallet_v1r1.boc"), 1, 0),
        (include_bytes!("vectors/wallet_v3r2.boc"), 1, 0),
        (include_bytes!("vectors/wallet_v4r2.boc"), 20, 19),
    ];
    for (reply, cells, root) in wallets {
        let mut store = Store::with_room(cells).unwrap();
        let expected = Read { used: reply.len(), cells, roots: vec![root], added: cells };
        assert_eq!(store.read(reply), Ok(expected.clone()));
        assert_eq!(store.len(), cells);
        assert_eq!(store.read(reply), Ok(Read { added: 0, ..expected }));
        let bag = store.write(root, Options { has_idx: true, has_crc32c: true }).unwrap();
        let mut other = Store::new();
        let read = other.read(&bag).unwrap();
        assert_eq!(other.text(read.roots[0], 1000), store.text(root, 1000));
        for front in 0..reply.len() {
            assert!(matches!(store.read(&reply[..front]), Err(Refusal::Cut { .. })));
        }
        let longer = [reply, &[0]].concat();
        assert_eq!(store.read(&longer), Err(Refusal::Extra { at: reply.len() }));
        assert_eq!(store.read_front(&longer).map(|read| read.used), Ok(reply.len()));
    }
}

#[test]
fn diamond() {
    let mut store = Store::with_room(4).unwrap();
    let leaf = store.add(&Cell::default()).unwrap();
    let right = store.add(&Cell::new([0xcc], [leaf])).unwrap();
    let left = store.add(&Cell::new([0xbb], [leaf])).unwrap();
    let root = store.add(&Cell::new([0xaa], [left, right])).unwrap();
    assert_eq!((leaf, right, left, root), (0, 1, 2, 3));
    assert_eq!(store.add(&Cell::new([0xbb], [leaf])), Ok(left));
    assert_eq!(store.add(&Cell::new([0xbb], [])), Err(Refusal::Full));
    assert_eq!(store.add(&Cell::new([0xbb], [leaf, 4])), Err(Refusal::NoCell { position: 1 }));
    assert_eq!(store.cell(left), Ok(Cell::new([0xbb], [leaf])));
    assert_eq!(store.cell(4), Err(Refusal::NoCell { position: 0 }));
    assert_eq!(store.depth(root), Ok(2));
    assert_eq!(store.text(root, 5).unwrap(), "8[0xAA] -> {8[0xBB] -> {0[0x]}, 8[0xCC] -> {0[0x]}}");
    assert_eq!(store.text(root, 4), Err(Refusal::Budget { budget: 4 }));
    let bag = store.write(root, PLAIN).unwrap();
    let expected = [0xb5, 0xee, 0x9c, 0x72, 1, 1, 4, 1, 0, 0x0f, 0, 2, 2, 0xaa, 1, 2, 1, 2, 0xbb, 3, 1, 2, 0xcc, 3, 0, 0];
    assert_eq!(bag, expected);
    assert_eq!(store.write_into(root, PLAIN, &mut [0; 25]), Err(Refusal::NoRoom { needed: 26 }));
    store.clear().unwrap();
    assert!(store.is_empty());
    assert_eq!(store.room(), 4);
}

#[test]
fn refusals_speak() {
    assert_eq!(Store::with_room(4097), Err(Refusal::Store));
    let refusal = Store::new().read(&[]).unwrap_err();
    assert_eq!((refusal.number(), refusal.place()), (2, 0));
    assert_eq!(refusal.to_string(), "the field at byte 0 is not whole");
}

#[test]
fn checksum() {
    assert_eq!(crc32c(b"123456789"), 0xe306_9283);
}
