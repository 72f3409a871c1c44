//! A plain model of document 01, written from its text, to compare the library with. It goes the paper's way, one slot at a time
//! and with lists where the library has loops; it shares no line with the library and no definition with its proofs.

/// Entry size, multipart, counted, keyed.
#[derive(Clone, Copy, Debug, PartialEq, Eq)]
pub struct Shape {
    pub entry_size: u64,
    pub multipart: bool,
    pub counted: bool,
    pub keyed: bool,
}

/// What a read gives.
#[derive(Debug)]
pub struct Read {
    pub content: Vec<u8>,
    pub mark: bool,
    pub count: u32,
    pub visits: u64,
}

/// What a count change gives.
#[derive(Debug, PartialEq, Eq)]
pub enum Change {
    Count(u32),
    LastReference,
}

/// A value, or the number of the refusal.
pub type Answer<T> = Result<T, u32>;

const FREE: [u8; 2] = [0xff, 0xff];
const CONTINUATION: [u8; 2] = [0xfe, 0xff];
const HEAD: [u8; 2] = [0xfd, 0xff];
const COMPRESSED_HEAD: [u8; 2] = [0xfd, 0x7f];
const LOCK: u64 = 0xffff_ffff;

/// Refuses with a number where the condition holds.
fn refuse(number: u32, when: bool) -> Answer<()> {
    if when {
        Err(number)
    } else {
        Ok(())
    }
}

/// The little endian number in these bytes.
fn number(bytes: &[u8]) -> u64 {
    bytes.iter().rev().fold(0, |n, &b| n << 8 | u64::from(b))
}

/// A chain that met no fault: its slots, the head first, and what it holds.
struct Chain {
    slots: Vec<u64>,
    read: Read,
}

/// A table that passed 1, 2 and 3, with its header at hand.
struct Open<'t> {
    table: &'t mut [u8],
    shape: Shape,
    e: usize,
    last_removed: u64,
    filled: u64,
    header_moved: bool,
}

impl<'t> Open<'t> {
    fn new(table: &'t mut [u8], shape: Shape) -> Answer<Open<'t>> {
        refuse(1, shape.entry_size < 32 || shape.entry_size > 32_760)?;
        refuse(1, shape.multipart && shape.entry_size != 4_096)?;
        let e = shape.entry_size as usize;
        let capacity = (table.len() / e) as u64;
        refuse(2, capacity == 0)?;
        let last_removed = number(&table[0..8]);
        let filled = number(&table[8..16]).max(1);
        refuse(3, last_removed >= filled || filled > capacity)?;
        Ok(Open { table, shape, e, last_removed, filled, header_moved: false })
    }

    fn slot(&self, i: u64) -> &[u8] {
        let at = i as usize * self.e;
        &self.table[at..at + self.e]
    }

    fn put(&mut self, i: u64, bytes: &[u8]) {
        assert!(bytes.len() <= self.e);
        let at = i as usize * self.e;
        self.table[at..at + bytes.len()].copy_from_slice(bytes);
    }

    fn prefix_len(&self) -> usize {
        let mut n = 0;
        if self.shape.counted {
            n += 4;
        }
        if self.shape.keyed {
            n += 26;
        }
        n
    }

    // ---- tests

    fn key_test(&self, key: &[u8]) -> Answer<()> {
        refuse(4, self.shape.keyed && key.len() != 32)
    }

    fn value_test(&self, content: &[u8]) -> Answer<()> {
        let n = content.len() + self.prefix_len();
        if self.shape.multipart {
            refuse(6, n <= 4_094)
        } else {
            refuse(6, n > self.e - 2)
        }
    }

    fn slot_test(&self, slot: u64) -> Answer<()> {
        refuse(7, slot == 0 || slot >= self.filled)
    }

    /// The head's tests; answers the count.
    fn head_test(&self, slot: u64, key: Option<&[u8]>) -> Answer<u32> {
        let b = self.slot(slot);
        let size = (number(&b[0..2]) & 0x7fff) as usize;
        let prefix_at = if self.shape.multipart {
            refuse(8, b[0..2] != HEAD && b[0..2] != COMPRESSED_HEAD)?;
            18
        } else {
            refuse(8, b[0..2] == FREE)?;
            refuse(9, size < self.prefix_len())?;
            2
        };
        let mut at = prefix_at;
        let mut count = 1;
        if self.shape.counted {
            count = number(&b[at..at + 4]) as u32;
            at += 4;
        }
        refuse(8, count == 0)?;
        if let (true, Some(key)) = (self.shape.keyed, key) {
            refuse(8, b[at..at + 26] != key[6..32])?;
        }
        refuse(9, !self.shape.multipart && size > self.e - 2)?;
        Ok(count)
    }

    /// The whole chain at a slot.
    fn chain(&self, slot: u64, key: Option<&[u8]>) -> Answer<Chain> {
        self.slot_test(slot)?;
        let count = self.head_test(slot, key)?;
        let b = self.slot(slot);
        let size = number(&b[0..2]) as usize & 0x7fff;
        if !self.shape.multipart {
            let content = b[2 + self.prefix_len()..2 + size].to_vec();
            let mark = b[1] & 0x80 != 0;
            return Ok(Chain { slots: vec![slot], read: Read { content, mark, count, visits: 1 } });
        }
        let mark = b[0..2] == COMPRESSED_HEAD;
        let total = number(&b[2..10]);
        let mut next = number(&b[10..18]);
        let mut content = b[18 + self.prefix_len()..].to_vec();
        let mut slots = vec![slot];
        loop {
            refuse(10, slots.len() as u64 + 1 > self.filled - 1)?;
            refuse(10, next == 0 || next >= self.filled)?;
            let b = self.slot(next);
            refuse(10, b[0..2] == FREE || b[0..2] == HEAD || b[0..2] == COMPRESSED_HEAD)?;
            slots.push(next);
            if b[0..2] == CONTINUATION {
                next = number(&b[2..10]);
                content.extend_from_slice(&b[10..]);
                continue;
            }
            let size = number(&b[0..2]) as usize & 0x7fff;
            refuse(9, size > 4_094)?;
            content.extend_from_slice(&b[2..2 + size]);
            break;
        }
        refuse(10, total != content.len() as u64)?;
        let visits = slots.len() as u64;
        Ok(Chain { slots, read: Read { content, mark, count, visits } })
    }

    /// The members of the free list.
    fn free_list(&self) -> Answer<Vec<u64>> {
        let mut members = Vec::new();
        let mut at = self.last_removed;
        while at != 0 {
            refuse(11, members.len() as u64 == self.filled - 1)?;
            refuse(11, at >= self.filled || self.slot(at)[0..2] != FREE)?;
            members.push(at);
            at = number(&self.slot(at)[2..10]);
        }
        Ok(members)
    }

    fn room_test(&self, needed: usize) -> Answer<()> {
        let unused = (self.table.len() / self.e) as u64 - self.filled;
        let free = self.free_list()?.len() as u64;
        refuse(12, needed as u64 > free + unused)
    }

    // ---- steps

    fn take(&mut self) -> u64 {
        self.header_moved = true;
        if self.last_removed != 0 {
            let taken = self.last_removed;
            self.last_removed = number(&self.slot(taken)[2..10]);
            taken
        } else {
            self.filled += 1;
            self.filled - 1
        }
    }

    fn free(&mut self, slot: u64) {
        self.header_moved = true;
        let mut bytes = FREE.to_vec();
        bytes.extend_from_slice(&self.last_removed.to_le_bytes());
        self.put(slot, &bytes);
        self.last_removed = slot;
    }

    fn store_header(&mut self) {
        if self.header_moved {
            let mut bytes = self.last_removed.to_le_bytes().to_vec();
            bytes.extend_from_slice(&self.filled.to_le_bytes());
            self.put(0, &bytes);
        }
    }

    /// Prefix and content, cut as they are stored.
    fn pieces(&self, key: &[u8], content: &[u8]) -> Vec<Vec<u8>> {
        let mut body = Vec::new();
        if self.shape.counted {
            body.extend_from_slice(&[1, 0, 0, 0]);
        }
        if self.shape.keyed {
            body.extend_from_slice(&key[6..32]);
        }
        body.extend_from_slice(content);
        if body.len() <= self.e - 2 {
            return vec![body];
        }
        let mut rest = body.split_off(4_078);
        let mut pieces = vec![body];
        while rest.len() > 4_094 {
            let more = rest.split_off(4_086);
            pieces.push(rest);
            rest = more;
        }
        pieces.push(rest);
        pieces
    }

    /// Writes a chain over the old one's slots, taking more if short and freeing what is left over; answers its head.
    fn write(&mut self, old: &[u64], pieces: &[Vec<u8>], content_len: usize, mark: bool) -> u64 {
        let mut slots = Vec::new();
        for i in 0..pieces.len() {
            let slot = if i < old.len() { old[i] } else { self.take() };
            slots.push(slot);
        }
        for (i, piece) in pieces.iter().enumerate() {
            let mut bytes = Vec::new();
            if i + 1 == pieces.len() {
                let top = if mark { 0x8000 } else { 0 };
                bytes.extend_from_slice(&(piece.len() as u16 | top).to_le_bytes());
            } else if i == 0 {
                bytes.extend_from_slice(if mark { &COMPRESSED_HEAD } else { &HEAD });
                bytes.extend_from_slice(&(content_len as u64).to_le_bytes());
                bytes.extend_from_slice(&slots[1].to_le_bytes());
            } else {
                bytes.extend_from_slice(&CONTINUATION);
                bytes.extend_from_slice(&slots[i + 1].to_le_bytes());
            }
            bytes.extend_from_slice(piece);
            self.put(slots[i], &bytes);
        }
        for &left_over in old.iter().skip(pieces.len()) {
            self.free(left_over);
        }
        self.store_header();
        slots[0]
    }
}

pub fn insert(table: &mut [u8], shape: Shape, key: &[u8], content: &[u8], mark: bool) -> Answer<u64> {
    let mut t = Open::new(table, shape)?;
    t.key_test(key)?;
    t.value_test(content)?;
    let pieces = t.pieces(key, content);
    t.room_test(pieces.len())?;
    Ok(t.write(&[], &pieces, content.len(), mark))
}

pub fn replace(table: &mut [u8], shape: Shape, slot: u64, key: &[u8], content: &[u8], mark: bool) -> Answer<()> {
    let mut t = Open::new(table, shape)?;
    t.key_test(key)?;
    t.value_test(content)?;
    let old = t.chain(slot, None)?.slots;
    let pieces = t.pieces(key, content);
    t.room_test(pieces.len().saturating_sub(old.len()))?;
    t.write(&old, &pieces, content.len(), mark);
    Ok(())
}

pub fn remove(table: &mut [u8], shape: Shape, slot: u64) -> Answer<()> {
    let mut t = Open::new(table, shape)?;
    let old = t.chain(slot, None)?.slots;
    t.free_list()?;
    for part in old {
        t.free(part);
    }
    t.store_header();
    Ok(())
}

pub fn change_count(table: &mut [u8], shape: Shape, slot: u64, step: i32) -> Answer<Change> {
    let mut t = Open::new(table, shape)?;
    refuse(5, !shape.counted)?;
    t.slot_test(slot)?;
    let count = u64::from(t.head_test(slot, None)?);
    let magnitude = u64::from(step.unsigned_abs());
    let new = if step > 0 {
        (count + magnitude).min(LOCK)
    } else if count == LOCK {
        LOCK
    } else if count <= magnitude {
        return Ok(Change::LastReference);
    } else {
        count - magnitude
    } as u32;
    let at = if shape.multipart { 18 } else { 2 };
    let mut front = t.slot(slot)[..at].to_vec();
    front.extend_from_slice(&new.to_le_bytes());
    t.put(slot, &front);
    Ok(Change::Count(new))
}

pub fn read(table: &[u8], shape: Shape, slot: u64, key: Option<&[u8]>, output: &mut [u8]) -> Answer<Read> {
    let mut copy = table.to_vec();
    let t = Open::new(&mut copy, shape)?;
    if let Some(key) = key {
        t.key_test(key)?;
    }
    let read = t.chain(slot, key)?.read;
    refuse(13, read.content.len() > output.len())?;
    output[..read.content.len()].copy_from_slice(&read.content);
    Ok(read)
}

/// The fixed read; beside what a read gives, where the content starts.
pub fn read_fixed(table: &[u8], shape: Shape, slot: u64, key: Option<&[u8]>) -> Answer<(u64, Read)> {
    refuse(1, shape.multipart)?;
    let mut copy = table.to_vec();
    let t = Open::new(&mut copy, shape)?;
    if let Some(key) = key {
        t.key_test(key)?;
    }
    let read = t.chain(slot, key)?.read;
    Ok((slot * shape.entry_size + 2 + t.prefix_len() as u64, read))
}

pub fn free_count(table: &[u8], shape: Shape) -> Answer<u64> {
    let mut copy = table.to_vec();
    let t = Open::new(&mut copy, shape)?;
    Ok(t.free_list()?.len() as u64)
}
