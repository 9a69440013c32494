//! Why a call was refused.

use std::fmt;

/// A refusal, by its name and with its place where the place says more than the name.
#[derive(Clone, Copy, PartialEq, Eq, Hash, Debug)]
pub enum Refusal {
    /// 1: the memory is not a sound store.
    Store,
    /// 2: a field of the reply is not whole.
    Cut { at: usize },
    /// 3: the reply does not begin with the tag of a bag.
    Tag,
    /// 4: the tag of an indexed bag.
    Indexed,
    /// 5: numbers of more than four bytes.
    Size,
    /// 6: offsets of more than eight bytes.
    Offset,
    /// 7: more roots and absent cells than cells.
    Counts,
    /// 8: more than 4,096 cells.
    Cells,
    /// 9: the scratch is too short.
    Scratch { needed: usize },
    /// 10: fewer root places than roots.
    RootRoom { roots: usize },
    /// 11: a cell with more than four references.
    Refs { at: usize },
    /// 12: padding without a 1 bit.
    Padding { at: usize },
    /// 13: the checksums differ.
    Crc { at: usize },
    /// 14: bytes after the bag.
    Extra { at: usize },
    /// 15: a reference to the cell itself or to an earlier one.
    Back { cell: usize },
    /// 16: a reference past the bag's cells.
    Range { cell: usize },
    /// 17: a root past the bag's cells.
    Root { position: usize },
    /// 18: no room for all new cells.
    Full,
    /// 19: no cell of this number; in adding, the position of the reference that names it.
    NoCell { position: usize },
    /// 20: the output is too short.
    NoRoom { needed: usize },
    /// 21: more than 1,023 bits.
    Bits,
    /// 22: a depth over 65,535.
    Depth,
    /// 23: a path of more than 256 references.
    Deep,
    /// 24: more cells than the budget allows.
    Budget { budget: usize },
    /// A number or a place that this crate does not know.
    Other { number: u32, place: usize },
}

impl Refusal {
    /// The refusal of a number and a place.
    pub fn new(number: u32, place: usize) -> Refusal {
        match (number, place) {
            (1, 0) => Refusal::Store,
            (2, at) => Refusal::Cut { at },
            (3, 0) => Refusal::Tag,
            (4, 0) => Refusal::Indexed,
            (5, 4) => Refusal::Size,
            (6, 5) => Refusal::Offset,
            (7, 6) => Refusal::Counts,
            (8, 6) => Refusal::Cells,
            (9, needed) => Refusal::Scratch { needed },
            (10, roots) => Refusal::RootRoom { roots },
            (11, at) => Refusal::Refs { at },
            (12, at) => Refusal::Padding { at },
            (13, at) => Refusal::Crc { at },
            (14, at) => Refusal::Extra { at },
            (15, cell) => Refusal::Back { cell },
            (16, cell) => Refusal::Range { cell },
            (17, position) => Refusal::Root { position },
            (18, 0) => Refusal::Full,
            (19, position) => Refusal::NoCell { position },
            (20, needed) => Refusal::NoRoom { needed },
            (21, 0) => Refusal::Bits,
            (22, 0) => Refusal::Depth,
            (23, 0) => Refusal::Deep,
            (24, budget) => Refusal::Budget { budget },
            (number, place) => Refusal::Other { number, place },
        }
    }

    /// The number and the place, as the library answers them.
    pub fn parts(self) -> (u32, usize) {
        match self {
            Refusal::Store => (1, 0),
            Refusal::Cut { at } => (2, at),
            Refusal::Tag => (3, 0),
            Refusal::Indexed => (4, 0),
            Refusal::Size => (5, 4),
            Refusal::Offset => (6, 5),
            Refusal::Counts => (7, 6),
            Refusal::Cells => (8, 6),
            Refusal::Scratch { needed } => (9, needed),
            Refusal::RootRoom { roots } => (10, roots),
            Refusal::Refs { at } => (11, at),
            Refusal::Padding { at } => (12, at),
            Refusal::Crc { at } => (13, at),
            Refusal::Extra { at } => (14, at),
            Refusal::Back { cell } => (15, cell),
            Refusal::Range { cell } => (16, cell),
            Refusal::Root { position } => (17, position),
            Refusal::Full => (18, 0),
            Refusal::NoCell { position } => (19, position),
            Refusal::NoRoom { needed } => (20, needed),
            Refusal::Bits => (21, 0),
            Refusal::Depth => (22, 0),
            Refusal::Deep => (23, 0),
            Refusal::Budget { budget } => (24, budget),
            Refusal::Other { number, place } => (number, place),
        }
    }

    pub fn number(self) -> u32 {
        self.parts().0
    }

    pub fn place(self) -> usize {
        self.parts().1
    }
}

impl fmt::Display for Refusal {
    fn fmt(&self, f: &mut fmt::Formatter) -> fmt::Result {
        match self {
            Refusal::Store => write!(f, "the memory is not a sound store"),
            Refusal::Cut { at } => write!(f, "the field at byte {at} is not whole"),
            Refusal::Tag => write!(f, "the bytes do not begin with the tag of a bag"),
            Refusal::Indexed => write!(f, "the tag of an indexed bag"),
            Refusal::Size => write!(f, "numbers of more than 4 bytes"),
            Refusal::Offset => write!(f, "offsets of more than 8 bytes"),
            Refusal::Counts => write!(f, "more roots and absent cells than cells"),
            Refusal::Cells => write!(f, "more than 4,096 cells"),
            Refusal::Scratch { needed } => write!(f, "the scratch is too short, {needed} entries are needed"),
            Refusal::RootRoom { roots } => write!(f, "too few root places for {roots} roots"),
            Refusal::Refs { at } => write!(f, "more than 4 references (at byte {at})"),
            Refusal::Padding { at } => write!(f, "the data at byte {at} ends without its padding bit"),
            Refusal::Crc { at } => write!(f, "the checksum at byte {at} differs"),
            Refusal::Extra { at } => write!(f, "bytes after the bag, from byte {at} on"),
            Refusal::Back { cell } => write!(f, "cell {cell} of the bag refers to itself or to an earlier one"),
            Refusal::Range { cell } => write!(f, "cell {cell} of the bag refers to none of its cells"),
            Refusal::Root { position } => write!(f, "root {position} of the list is none of the bag's cells"),
            Refusal::Full => write!(f, "no room for all new cells"),
            Refusal::NoCell { position } => write!(f, "no cell of this number is held (reference {position})"),
            Refusal::NoRoom { needed } => write!(f, "the output is too short, {needed} bytes are needed"),
            Refusal::Bits => write!(f, "more than 1,023 bits"),
            Refusal::Depth => write!(f, "the depth is over 65,535"),
            Refusal::Deep => write!(f, "a path of more than 256 references"),
            Refusal::Budget { budget } => write!(f, "more cells than the budget of {budget}"),
            Refusal::Other { number, place } => write!(f, "refusal {number} at {place}"),
        }
    }
}

impl std::error::Error for Refusal {}

#[cfg(test)]
mod tests {
    use super::Refusal;

    /// The enum says neither less nor more than number and place.
    #[test]
    fn parts_come_back() {
        for number in 0..40 {
            for place in 0..10 {
                assert_eq!(Refusal::new(number, place).parts(), (number, place));
            }
        }
    }
}
