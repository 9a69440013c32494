//! A store that owns its memory.

use crate::lent::{self, Lent, Printed, Seen, DATA_LEN, MAX_CELLS, RECORD_LEN};
use crate::Refusal;

/// A cell: an exotic flag, up to 1,023 bits and up to four references to cells of the same store.
#[derive(Clone, PartialEq, Eq, Hash, Debug, Default)]
pub struct Cell {
    pub exotic: bool,
    /// The number of bits. Bits of `data` past it count as 0.
    pub bits: usize,
    /// The bits, high bit first.
    pub data: Vec<u8>,
    /// Numbers of cells.
    pub refs: Vec<u32>,
}

impl Cell {
    /// An ordinary cell of whole bytes.
    pub fn new(data: impl Into<Vec<u8>>, refs: impl Into<Vec<u32>>) -> Cell {
        let data = data.into();
        Cell { exotic: false, bits: data.len() * 8, data, refs: refs.into() }
    }
}

/// What is written beside the cells of a bag.
#[derive(Clone, Copy, PartialEq, Eq, Hash, Debug, Default)]
pub struct Options {
    /// An index of the cells' places.
    pub has_idx: bool,
    /// A checksum at the end.
    pub has_crc32c: bool,
}

/// An accepted bag.
#[derive(Clone, PartialEq, Eq, Hash, Debug)]
pub struct Read {
    /// Bytes of the bag.
    pub used: usize,
    /// Cells of the bag.
    pub cells: usize,
    /// Numbers of the roots in the store, in the bag's order.
    pub roots: Vec<u32>,
    /// Cells that were new in the store.
    pub added: usize,
}

/// Cells under numbers. Equal cells have one number, and a cell's references are lower than its own.
#[derive(Clone, PartialEq, Eq, Debug)]
pub struct Store {
    count: usize,
    table: Vec<u32>,
    bytes: Vec<u8>,
    /// Lent to each read: two entries for each cell of the greatest bag.
    scratch: Vec<u32>,
    /// Lent to each read: one place for each root of the greatest bag.
    roots: Vec<u32>,
}

impl Default for Store {
    fn default() -> Store {
        Store::new()
    }
}

impl Store {
    /// An empty store with the greatest room, 4,096 cells.
    pub fn new() -> Store {
        Store::zero(MAX_CELLS)
    }

    /// An empty store with room for so many cells; refused above 4,096. Every call looks at all of the room, so a small one is quicker.
    pub fn with_room(cells: usize) -> Result<Store, Refusal> {
        if cells > MAX_CELLS {
            return Err(Refusal::Store);
        }
        Ok(Store::zero(cells))
    }

    fn zero(cells: usize) -> Store {
        Store {
            count: 0,
            table: vec![0; cells * RECORD_LEN],
            bytes: vec![0; cells * DATA_LEN],
            scratch: vec![0; 2 * MAX_CELLS],
            roots: vec![0; MAX_CELLS],
        }
    }

    /// The number of cells held.
    pub fn len(&self) -> usize {
        self.count
    }

    pub fn is_empty(&self) -> bool {
        self.count == 0
    }

    /// The number of cells that it has room for.
    pub fn room(&self) -> usize {
        self.table.len() / RECORD_LEN
    }

    /// Drops all cells.
    pub fn clear(&mut self) -> Result<(), Refusal> {
        lent::clear(self.lent())
    }

    /// The number of a cell equal to this one, which is added if there is none.
    pub fn add(&mut self, cell: &Cell) -> Result<u32, Refusal> {
        lent::add(self.lent(), cell.exotic, cell.bits, &cell.data, &cell.refs).map(|n| n as u32)
    }

    /// The cell of a number.
    pub fn cell(&self, n: u32) -> Result<Cell, Refusal> {
        lent::cell(self.seen(), n as usize)
    }

    /// Reads a bag of which the reply is the whole. A refusal leaves the store as it was.
    pub fn read(&mut self, reply: &[u8]) -> Result<Read, Refusal> {
        self.read_by(reply, true)
    }

    /// Reads a bag at the front of the reply; other bytes may follow it.
    pub fn read_front(&mut self, reply: &[u8]) -> Result<Read, Refusal> {
        self.read_by(reply, false)
    }

    fn read_by(&mut self, reply: &[u8], whole: bool) -> Result<Read, Refusal> {
        let store = Lent { count: &mut self.count, table: &mut self.table, bytes: &mut self.bytes };
        let counts = lent::read(reply, whole, store, &mut self.scratch, &mut self.roots)?;
        let roots = self.roots[..counts.roots].to_vec();
        Ok(Read { used: counts.used, cells: counts.cells, roots, added: counts.added })
    }

    /// The bag of a cell.
    pub fn write(&self, n: u32, options: Options) -> Result<Vec<u8>, Refusal> {
        let mut out = Vec::new();
        match self.write_into(n, options, &mut out) {
            Err(Refusal::NoRoom { needed }) => out.resize(needed, 0),
            Err(refusal) => return Err(refusal),
            Ok(_) => return Ok(out),
        }
        self.write_into(n, options, &mut out)?;
        Ok(out)
    }

    /// The bag of a cell, written to the front of a buffer; answers its length.
    pub fn write_into(&self, n: u32, options: Options, out: &mut [u8]) -> Result<usize, Refusal> {
        lent::write(self.seen(), n as usize, options, &mut vec![0; 4 * self.count], out)
    }

    /// The depth of a cell.
    pub fn depth(&self, n: u32) -> Result<u16, Refusal> {
        lent::depth(self.seen(), n as usize, &mut vec![0; self.count]).map(|depth| depth as u16)
    }

    /// The text of a cell and of all that it refers to, if that is at most `budget` cells.
    pub fn text(&self, n: u32, budget: usize) -> Result<String, Refusal> {
        let mut out = Vec::new();
        match self.text_into(n, budget, &mut out) {
            Err(Refusal::NoRoom { needed }) => out.resize(needed, 0),
            Err(refusal) => return Err(refusal),
            Ok(_) => {}
        }
        self.text_into(n, budget, &mut out)?;
        Ok(out.into_iter().map(char::from).collect())
    }

    /// The text of a cell, written to the front of a buffer; answers its length and the cells printed.
    pub fn text_into(&self, n: u32, budget: usize, out: &mut [u8]) -> Result<Printed, Refusal> {
        lent::text(self.seen(), n as usize, budget, &mut vec![0; self.count], out)
    }

    fn lent(&mut self) -> Lent<'_> {
        Lent { count: &mut self.count, table: &mut self.table, bytes: &mut self.bytes }
    }

    fn seen(&self) -> Seen<'_> {
        Seen { count: self.count, table: &self.table, bytes: &self.bytes }
    }
}
