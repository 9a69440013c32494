//! Bags made by hand: every field of a bag can be set to any value, so that valid, odd and damaged bags come from one place.
//! All of it is decided by a seed.

#![allow(dead_code)]

use crate::model::crc32c;

/// A small generator of pseudo-random numbers (splitmix64).
pub struct Rng(pub u64);

impl Rng {
    pub fn next(&mut self) -> u64 {
        self.0 = self.0.wrapping_add(0x9e37_79b9_7f4a_7c15);
        let mut z = self.0;
        z = (z ^ (z >> 30)).wrapping_mul(0xbf58_476d_1ce4_e5b9);
        z = (z ^ (z >> 27)).wrapping_mul(0x94d0_49bb_1331_11eb);
        z ^ (z >> 31)
    }

    /// A number below `n`, which is above 0.
    pub fn below(&mut self, n: usize) -> usize {
        ((self.next() >> 32) as usize * n) >> 32
    }

    /// True once in `n` times.
    pub fn one_in(&mut self, n: usize) -> bool {
        self.below(n) == 0
    }

    pub fn pick<T: Copy>(&mut self, from: &[T]) -> T {
        from[self.below(from.len())]
    }

    pub fn bytes(&mut self, n: usize) -> Vec<u8> {
        (0..n).map(|_| self.next() as u8).collect()
    }
}

/// A cell of a bag, field by field.
#[derive(Clone, Debug)]
pub struct Frame {
    pub d1: u8,
    pub d2: u8,
    pub hashes: Vec<u8>,
    pub data: Vec<u8>,
    pub refs: Vec<u64>,
}

impl Frame {
    /// The frame of a cell with the first `bits` bits of `data`, padded as the scheme says.
    pub fn new(exotic: bool, bits: usize, data: &[u8], refs: &[u64]) -> Frame {
        let mut data = data[..bits.div_ceil(8)].to_vec();
        if !bits.is_multiple_of(8) {
            let last = data.len() - 1;
            data[last] = data[last] & !(0xff >> (bits % 8)) | 0x80 >> (bits % 8);
        }
        Frame {
            d1: refs.len() as u8 + 8 * exotic as u8,
            d2: (bits / 8 + bits.div_ceil(8)) as u8,
            hashes: Vec::new(),
            data,
            refs: refs.to_vec(),
        }
    }

    /// An ordinary cell of whole bytes.
    pub fn of(data: &[u8], refs: &[u64]) -> Frame {
        Frame::new(false, data.len() * 8, data, refs)
    }

    /// The same cell with its padding in a byte of its own: a 1 bit and seven zeros after whole bytes.
    pub fn with_stop_byte(mut self) -> Frame {
        if self.d2.is_multiple_of(2) && self.d2 < 254 {
            self.data.push(0x80);
            self.d2 += 1;
        }
        self
    }

    /// The same cell with a level and with hashes.
    pub fn with_hashes(mut self, level: u8, fill: u8) -> Frame {
        self.d1 |= 16 | level << 5;
        self.hashes = vec![fill; 34 * (level.count_ones() as usize + 1)];
        self
    }

    pub fn with_level(mut self, level: u8) -> Frame {
        self.d1 |= level << 5;
        self
    }
}

/// A bag, field by field. `total` and the index are made of the cells unless they are set.
#[derive(Clone, Debug)]
pub struct Bag {
    pub tag: [u8; 4],
    /// has_idx, has_crc32c, has_cache_bits and the two flag bits, in their places of byte 4.
    pub options: u8,
    pub size: usize,
    pub off_bytes: usize,
    pub count: u64,
    pub absent: u64,
    pub total: Option<u64>,
    pub index: Option<Vec<u64>>,
    pub roots: Vec<u64>,
    pub cells: Vec<Frame>,
}

pub const HAS_IDX: u8 = 0x80;
pub const HAS_CRC: u8 = 0x40;
pub const HAS_CACHE_BITS: u8 = 0x20;

pub const GENERIC: [u8; 4] = [0xb5, 0xee, 0x9c, 0x72];

impl Bag {
    /// A plain bag in the smallest layout that holds it.
    pub fn new(roots: &[u64], cells: Vec<Frame>) -> Bag {
        let size = fewest(cells.len() as u64);
        let mut bag = Bag {
            tag: GENERIC,
            options: 0,
            size,
            off_bytes: 1,
            count: cells.len() as u64,
            absent: 0,
            total: None,
            index: None,
            roots: roots.to_vec(),
            cells,
        };
        bag.off_bytes = fewest(bag.body().0.len() as u64);
        bag
    }

    pub fn with(mut self, options: u8) -> Bag {
        self.options = options;
        self
    }

    pub fn sized(mut self, size: usize, off_bytes: usize) -> Bag {
        self.size = size;
        self.off_bytes = off_bytes;
        self
    }

    /// The bytes of the cells and the place of each.
    fn body(&self) -> (Vec<u8>, Vec<u64>) {
        let mut body = Vec::new();
        let mut starts = Vec::new();
        for cell in &self.cells {
            starts.push(body.len() as u64);
            body.extend([cell.d1, cell.d2]);
            body.extend(&cell.hashes);
            body.extend(&cell.data);
            for &r in &cell.refs {
                put(&mut body, r, self.size);
            }
        }
        (body, starts)
    }

    pub fn bytes(&self) -> Vec<u8> {
        let (body, starts) = self.body();
        let mut out = self.tag.to_vec();
        out.push(self.options | self.size as u8 & 7);
        out.push(self.off_bytes as u8);
        put(&mut out, self.count, self.size);
        put(&mut out, self.roots.len() as u64, self.size);
        put(&mut out, self.absent, self.size);
        put(&mut out, self.total.unwrap_or(body.len() as u64), self.off_bytes);
        for &root in &self.roots {
            put(&mut out, root, self.size);
        }
        if self.options & HAS_IDX != 0 {
            for &entry in self.index.as_ref().unwrap_or(&starts) {
                put(&mut out, entry, self.off_bytes);
            }
        }
        out.extend(body);
        if self.options & HAS_CRC != 0 {
            let sum = crc32c(&out);
            out.extend(sum.to_le_bytes());
        }
        out
    }
}

/// The fewest bytes that hold a number, at least one.
pub fn fewest(n: u64) -> usize {
    (1..8).find(|&len| n >> (8 * len) == 0).unwrap_or(8)
}

/// The low `len` bytes of a number, big-endian.
pub fn put(out: &mut Vec<u8>, n: u64, len: usize) {
    for i in (0..len).rev() {
        out.push(if i < 8 { (n >> (8 * i)) as u8 } else { 0 });
    }
}

/// The same bytes with a new checksum in the last four.
pub fn signed(mut bytes: Vec<u8>) -> Vec<u8> {
    if bytes.len() >= 4 {
        let at = bytes.len() - 4;
        let sum = crc32c(&bytes[..at]).to_le_bytes();
        bytes[at..].copy_from_slice(&sum);
    }
    bytes
}

/// A random cell that may stand at `own` in a bag of `cells` cells.
pub fn random_frame(rng: &mut Rng, own: usize, cells: usize, rich: bool) -> Frame {
    let bits = match rng.below(8) {
        0 => 0,
        1 => rng.below(9),
        2 => 8 * rng.below(5),
        3..=5 => rng.below(40),
        6 if rich => rng.pick(&[1023, 1017, 1016, 1015, 1008, 288, 560, 832]),
        _ if rich => rng.below(1024),
        _ => rng.below(20),
    };
    let mut data = match rng.below(3) {
        0 => vec![0; 128],
        1 => vec![0xff; 128],
        _ => rng.bytes(128),
    };
    let exotic = rng.one_in(4);
    if exotic && rng.one_in(2) {
        data[0] = 1;
        data[1] = rng.pick(&[1, 3, 7, 0, 0x80, 0xff]);
    }
    let after = cells - own - 1;
    let count = if after == 0 { 0 } else { rng.below(5) };
    let refs: Vec<u64> =
        (0..count).map(|_| (own + 1 + if rng.one_in(2) { rng.below(after.min(3)) } else { rng.below(after) }) as u64).collect();
    let mut frame = Frame::new(exotic, bits, &data, &refs);
    if rng.one_in(6) {
        frame = frame.with_stop_byte();
    }
    if rng.one_in(8) {
        let level = rng.below(8) as u8;
        let fill = rng.next() as u8;
        frame = if rng.one_in(2) { frame.with_hashes(level, fill) } else { frame.with_level(level) };
    }
    frame
}

/// A random bag that reads, in any layout, if the room suffices.
pub fn random_bag(rng: &mut Rng, most: usize) -> Bag {
    let count = rng.below(most + 1);
    let rich = rng.one_in(4);
    let mut cells: Vec<Frame> = Vec::new();
    for own in 0..count {
        if own > 0 && rng.one_in(6) && own + 1 < count {
            // A copy of the cell before, whose references still point onward unless they name this place.
            let copy = cells[own - 1].clone();
            if copy.refs.iter().all(|&r| r > own as u64) {
                cells.push(copy);
                continue;
            }
        }
        cells.push(random_frame(rng, own, count, rich));
    }
    let roots: Vec<u64> = if count == 0 {
        Vec::new()
    } else {
        let n = rng.pick(&[1, 1, 1, 1, 0, 2, 3]).min(count);
        (0..n).map(|i| if i == 0 && rng.one_in(2) { 0 } else { rng.below(count) as u64 }).collect()
    };
    let mut bag = Bag::new(&roots, cells);
    bag.options = (rng.below(32) as u8) << 3;
    if rng.one_in(2) {
        bag.size = rng.pick(&[bag.size, 1, 2, 3, 4]).max(bag.size);
        bag.off_bytes = rng.below(9);
    }
    if count == 0 && rng.one_in(2) {
        bag.size = 0;
    }
    if rng.one_in(8) {
        bag.total = Some(rng.next());
    }
    if rng.one_in(8) {
        bag.index = Some((0..count).map(|_| rng.next()).collect());
    }
    if rng.one_in(8) {
        bag.absent = rng.below(count - roots.len() + 1) as u64;
    }
    bag
}

/// A damaged copy of a bag's bytes.
pub fn damaged(rng: &mut Rng, bytes: &[u8]) -> Vec<u8> {
    let mut bytes = bytes.to_vec();
    for _ in 0..1 + rng.below(2) {
        if bytes.is_empty() {
            break;
        }
        let near = bytes.len().min(24);
        let at = if rng.one_in(2) { rng.below(bytes.len()) } else { rng.below(near) };
        match rng.below(8) {
            0 => bytes[at] ^= 1 << rng.below(8),
            1 => bytes[at] = rng.pick(&[0, 1, 2, 3, 4, 5, 7, 8, 0x80, 0xff]),
            2 => bytes[at] = bytes[at].wrapping_add(1),
            3 => bytes[at] = bytes[at].wrapping_sub(1),
            4 => {
                bytes.remove(at);
            }
            5 => bytes.insert(at, rng.next() as u8),
            6 => bytes.truncate(at),
            _ => {
                let more = 1 + rng.below(5);
                bytes.extend(rng.bytes(more));
            }
        }
    }
    if rng.one_in(2) && bytes.len() > 4 && bytes[4] & HAS_CRC != 0 {
        bytes = signed(bytes);
    }
    bytes
}
