//! What a Rust programmer would write without further thought: cells in a `Vec`, a `HashMap` that knows equal cells, `Vec` and `String`
//! for what comes out. The library's speed is held against it. It makes the same checks on a bag as the library, but trusts its
//! own store.

#![allow(dead_code)]

use std::collections::HashMap;

#[derive(Clone, PartialEq, Eq, Hash, Debug)]
pub struct PlainCell {
    pub exotic: bool,
    pub bits: usize,
    pub data: Vec<u8>,
    pub refs: Vec<u32>,
}

/// A refusal's number and place.
pub type Refused = (u32, usize);

#[derive(Clone, Default)]
pub struct PlainStore {
    pub room: usize,
    pub cells: Vec<PlainCell>,
    known: HashMap<PlainCell, u32>,
}

pub struct PlainRead {
    pub used: usize,
    pub roots: Vec<u32>,
    pub added: usize,
}

struct RawCell {
    exotic: bool,
    bits: usize,
    data: Vec<u8>,
    refs: Vec<u32>,
}

const TABLE: [u32; 256] = {
    let mut table = [0u32; 256];
    let mut byte = 0;
    while byte < 256 {
        let mut crc = byte as u32;
        let mut bit = 0;
        while bit < 8 {
            crc = if crc & 1 == 1 { (crc >> 1) ^ 0x82F6_3B78 } else { crc >> 1 };
            bit += 1;
        }
        table[byte] = crc;
        byte += 1;
    }
    table
};

/// CRC-32C by a table, a byte at a time.
pub fn crc32c(bytes: &[u8]) -> u32 {
    let mut crc = !0u32;
    for &byte in bytes {
        crc = (crc >> 8) ^ TABLE[((crc ^ byte as u32) & 0xff) as usize];
    }
    !crc
}

struct Reader<'a> {
    bytes: &'a [u8],
    at: usize,
}

impl<'a> Reader<'a> {
    #[inline]
    fn take(&mut self, len: usize) -> Result<&'a [u8], Refused> {
        match self.bytes.get(self.at..self.at + len) {
            Some(field) => {
                self.at += len;
                Ok(field)
            }
            None => Err((2, self.at)),
        }
    }

    #[inline]
    fn number(&mut self, len: usize) -> Result<u64, Refused> {
        let mut n = 0;
        for &byte in self.take(len)? {
            n = n << 8 | byte as u64;
        }
        Ok(n)
    }

    fn cell(&mut self, size: usize) -> Result<RawCell, Refused> {
        let first = self.at;
        let d1 = self.number(1)? as u8;
        let count = (d1 & 7) as usize;
        if count > 4 {
            return Err((11, first));
        }
        let d2 = self.number(1)? as usize;
        if d1 & 16 != 0 {
            self.take(34 * ((d1 >> 5).count_ones() as usize + 1))?;
        }
        let start = self.at;
        let mut data = self.take(d2.div_ceil(2))?.to_vec();
        let mut bits = data.len() * 8;
        if d2 % 2 == 1 {
            let zeros = data[data.len() - 1].trailing_zeros() as usize;
            if zeros == 8 {
                return Err((12, start));
            }
            bits -= zeros + 1;
            let last = data.len() - 1;
            data[last] &= !(1 << zeros);
            data.truncate(bits.div_ceil(8));
        }
        let mut refs = Vec::with_capacity(count);
        for _ in 0..count {
            refs.push(self.number(size)? as u32);
        }
        Ok(RawCell { exotic: d1 & 8 != 0, bits, data, refs })
    }
}

impl PlainStore {
    pub fn new(room: usize) -> PlainStore {
        PlainStore { room, cells: Vec::new(), known: HashMap::new() }
    }

    pub fn clear(&mut self) {
        self.cells.clear();
        self.known.clear();
    }

    /// Forgets the cells from `count` on.
    pub fn back_to(&mut self, count: usize) {
        for cell in self.cells.drain(count..) {
            self.known.remove(&cell);
        }
    }

    pub fn add(&mut self, cell: PlainCell) -> Result<u32, Refused> {
        if cell.bits > 1023 {
            return Err((21, 0));
        }
        if cell.refs.len() > 4 {
            return Err((11, 0));
        }
        if let Some(position) = cell.refs.iter().position(|&r| r as usize >= self.cells.len()) {
            return Err((19, position));
        }
        if let Some(&n) = self.known.get(&cell) {
            return Ok(n);
        }
        if self.cells.len() == self.room {
            return Err((18, 0));
        }
        Ok(self.append(cell))
    }

    fn append(&mut self, cell: PlainCell) -> u32 {
        let n = self.cells.len() as u32;
        self.known.insert(cell.clone(), n);
        self.cells.push(cell);
        n
    }

    /// The whole reading.
    pub fn read(&mut self, reply: &[u8]) -> Result<PlainRead, Refused> {
        let mut reader = Reader { bytes: reply, at: 0 };
        match reader.number(4)? {
            0xb5ee_9c72 => {}
            0x68ff_65f3 | 0xacc3_a728 => return Err((4, 0)),
            _ => return Err((3, 0)),
        }
        let options = reader.number(1)? as u8;
        let size = (options & 7) as usize;
        if size > 4 {
            return Err((5, 4));
        }
        let off_bytes = reader.number(1)? as usize;
        if off_bytes > 8 {
            return Err((6, 5));
        }
        let (cells, roots, absent) = (reader.number(size)?, reader.number(size)?, reader.number(size)?);
        if roots + absent > cells {
            return Err((7, 6));
        }
        if cells > 4096 {
            return Err((8, 6));
        }
        let cells = cells as usize;
        reader.number(off_bytes)?;
        let mut root_list = Vec::with_capacity(roots as usize);
        for _ in 0..roots {
            root_list.push(reader.number(size)? as usize);
        }
        if options & 0x80 != 0 {
            for _ in 0..cells {
                reader.number(off_bytes)?;
            }
        }
        let mut raw = Vec::with_capacity(cells);
        for _ in 0..cells {
            raw.push(reader.cell(size)?);
        }
        if options & 0x40 != 0 {
            let at = reader.at;
            if reader.take(4)? != crc32c(&reply[..at]).to_le_bytes() {
                return Err((13, at));
            }
        }
        if reader.at < reply.len() {
            return Err((14, reader.at));
        }
        for (i, cell) in raw.iter().enumerate().rev() {
            for &r in &cell.refs {
                if r as usize <= i {
                    return Err((15, i));
                }
                if r as usize >= cells {
                    return Err((16, i));
                }
            }
        }
        if let Some(position) = root_list.iter().position(|&r| r >= cells) {
            return Err((17, position));
        }
        let before = self.cells.len();
        let mut numbers = vec![0u32; cells];
        for (i, cell) in raw.into_iter().enumerate().rev() {
            let refs = cell.refs.iter().map(|&r| numbers[r as usize]).collect();
            let cell = PlainCell { exotic: cell.exotic, bits: cell.bits, data: cell.data, refs };
            numbers[i] = match self.known.get(&cell) {
                Some(&n) => n,
                None => self.append(cell),
            };
        }
        if self.cells.len() > self.room {
            self.back_to(before);
            return Err((18, 0));
        }
        let roots = root_list.iter().map(|&r| numbers[r]).collect();
        Ok(PlainRead { used: reader.at, roots, added: self.cells.len() - before })
    }

    /// The cells that a root reaches, parents before children.
    fn order(&self, root: usize) -> Vec<u32> {
        let mut waiting = vec![0u32; root + 1];
        let mut reached = vec![false; root + 1];
        reached[root] = true;
        for n in (0..=root).rev() {
            if reached[n] {
                for &r in &self.cells[n].refs {
                    reached[r as usize] = true;
                    waiting[r as usize] += 1;
                }
            }
        }
        let mut order = vec![root as u32];
        let mut front = 0;
        while front < order.len() {
            let n = order[front] as usize;
            front += 1;
            for (i, &r) in self.cells[n].refs.iter().enumerate() {
                // All mentions of a child by one parent are counted down at the first of them.
                if self.cells[n].refs[..i].contains(&r) {
                    continue;
                }
                waiting[r as usize] -= self.cells[n].refs.iter().filter(|&&other| other == r).count() as u32;
                if waiting[r as usize] == 0 {
                    order.push(r);
                }
            }
        }
        order
    }

    pub fn write(&self, root: usize, has_idx: bool, has_crc32c: bool) -> Vec<u8> {
        let order = self.order(root);
        let mut places = vec![0u32; root + 1];
        for (i, &n) in order.iter().enumerate() {
            places[n as usize] = i as u32;
        }
        let bytes_for = |n: usize| ((64 - (n as u64).leading_zeros()) as usize).div_ceil(8);
        let size = bytes_for(order.len());
        let mut starts = Vec::with_capacity(order.len());
        let mut total = 0;
        for &n in &order {
            starts.push(total);
            let cell = &self.cells[n as usize];
            total += 2 + cell.data.len() + cell.refs.len() * size;
        }
        let off_bytes = bytes_for(total);
        let put = |out: &mut Vec<u8>, n: usize, len: usize| out.extend_from_slice(&(n as u64).to_be_bytes()[8 - len..]);
        let mut out = Vec::with_capacity(total + 64);
        out.extend_from_slice(&[0xb5, 0xee, 0x9c, 0x72]);
        out.push((has_idx as u8) << 7 | (has_crc32c as u8) << 6 | size as u8);
        out.push(off_bytes as u8);
        put(&mut out, order.len(), size);
        put(&mut out, 1, size);
        put(&mut out, 0, size);
        put(&mut out, total, off_bytes);
        put(&mut out, 0, size);
        if has_idx {
            for start in starts {
                put(&mut out, start, off_bytes);
            }
        }
        for &n in &order {
            let cell = &self.cells[n as usize];
            out.push(cell.refs.len() as u8 + 8 * cell.exotic as u8);
            out.push((cell.bits / 8 + cell.bits.div_ceil(8)) as u8);
            out.extend_from_slice(&cell.data);
            if !cell.bits.is_multiple_of(8) {
                *out.last_mut().unwrap() |= 0x80 >> (cell.bits % 8);
            }
            for &r in &cell.refs {
                put(&mut out, places[r as usize] as usize, size);
            }
        }
        if has_crc32c {
            let sum = crc32c(&out);
            out.extend_from_slice(&sum.to_le_bytes());
        }
        out
    }

    /// The text of a cell; `None` past the budget or a path of 256 references.
    pub fn text(&self, n: usize, budget: usize) -> Option<String> {
        let mut out = String::new();
        let mut left = budget;
        self.print(n, 256, &mut left, &mut out)?;
        Some(out)
    }

    fn print(&self, n: usize, path: usize, left: &mut usize, out: &mut String) -> Option<()> {
        const DIGITS: &[u8; 16] = b"0123456789ABCDEF";
        *left = left.checked_sub(1)?;
        let cell = &self.cells[n];
        out.push_str(&cell.bits.to_string());
        out.push_str("[0x");
        for &byte in &cell.data {
            out.push(DIGITS[(byte >> 4) as usize] as char);
            out.push(DIGITS[(byte & 15) as usize] as char);
        }
        out.push(']');
        if !cell.refs.is_empty() {
            let path = path.checked_sub(1)?;
            out.push_str(" -> {");
            for (i, &r) in cell.refs.iter().enumerate() {
                if i > 0 {
                    out.push_str(", ");
                }
                self.print(r as usize, path, left, out)?;
            }
            out.push('}');
        }
        Some(())
    }
}
