//! Reads and writes TON bags of cells by Tapunerow, a library whose every answer is proved.
//!
//! ```
//! use tapunerow::{Cell, Options, Store};
//!
//! let mut store = Store::with_room(128)?;
//! let leaf = store.add(&Cell::new([0, 0, 4, 0xd2], []))?;
//! let root = store.add(&Cell::new([0xaa], [leaf, leaf]))?;
//!
//! let bag = store.write(root, Options { has_crc32c: true, ..Options::default() })?;
//! let read = store.read(&bag)?;
//! assert_eq!(read.roots, [root]);
//! assert_eq!(read.added, 0);
//! assert_eq!(store.text(root, 10)?, "8[0xAA] -> {32[0x000004D2], 32[0x000004D2]}");
//! assert_eq!(store.depth(root)?, 1);
//! # Ok::<(), tapunerow::Refusal>(())
//! ```
//!
//! [`Store`] owns its memory; [`lent`] has the same calls on memory that the caller lends.

#[cfg(any(test, doctest))]
include!(concat!(env!("CARGO_MANIFEST_DIR"), "/src/linked.rs"));

mod ffi;
pub mod lent;
mod refusal;
mod store;

pub use lent::crc32c;
pub use refusal::Refusal;
pub use store::{Cell, Options, Read, Store};
