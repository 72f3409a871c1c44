//! A table written: records cut into parts, slots taken and freed, the header.

use super::chains::{number, Header, COMPRESSED_HEAD, CONTINUATION, FREE, HEAD};
use super::types::{Reading, Settings};

/// What a writing call works with once its tests have passed.
pub struct Writer<'a> {
    table: &'a mut [u8],
    s: Settings,
    header: Header,
    header_changed: bool,
    reading: Reading,
}

impl<'a> Writer<'a> {
    pub fn new(table: &'a mut [u8], s: Settings, header: Header, reading: Reading) -> Self {
        Writer { table, s, header, header_changed: false, reading }
    }

    fn put(&mut self, slot: u64, at: usize, bytes: &[u8]) {
        let from = (slot * self.s.size) as usize + at;
        self.table[from..from + bytes.len()].copy_from_slice(bytes);
    }

    fn take(&mut self) -> u64 {
        self.header_changed = true;
        if self.header.removed != 0 {
            let taken = self.header.removed;
            let at = (taken * self.s.size) as usize;
            self.header.removed = number(&self.table[at + 2..at + 10]);
            taken
        } else {
            self.header.filled += 1;
            self.header.filled - 1
        }
    }

    pub fn free(&mut self, slot: u64) {
        self.header_changed = true;
        self.put(slot, 0, &FREE);
        self.put(slot, 2, &self.header.removed.to_le_bytes());
        self.header.removed = slot;
    }

    /// Writes the header, unless no slot was taken or freed.
    pub fn store_header(&mut self) {
        if self.header_changed {
            self.put(0, 0, &self.header.removed.to_le_bytes());
            self.put(0, 8, &self.header.filled.to_le_bytes());
        }
    }

    /// Writes prefix and content over the old slots and as many more as needed, frees those left over; answers the head's slot.
    pub fn write(&mut self, body: &[u8], total: u64, mark: bool, old: &[u64]) -> u64 {
        let parts = cut(&self.s, body.len(), self.reading);
        let mut slots = old[..old.len().min(parts.len())].to_vec();
        while slots.len() < parts.len() {
            slots.push(self.take());
        }
        let mut from = 0;
        for (i, length) in parts.iter().enumerate() {
            let piece = &body[from..from + length];
            from += length;
            let slot = slots[i];
            if i + 1 == parts.len() {
                let word = *length as u16 | if mark { 0x8000 } else { 0 };
                self.put(slot, 0, &word.to_le_bytes());
                self.put(slot, 2, piece);
            } else if i == 0 {
                self.put(slot, 0, if mark { &COMPRESSED_HEAD } else { &HEAD });
                self.put(slot, 2, &total.to_le_bytes());
                self.put(slot, 10, &slots[1].to_le_bytes());
                self.put(slot, 18, piece);
            } else {
                self.put(slot, 0, &CONTINUATION);
                self.put(slot, 2, &slots[i + 1].to_le_bytes());
                self.put(slot, 10, piece);
            }
        }
        let mut left = old[old.len().min(parts.len())..].to_vec();
        if self.reading == Reading::TailFromItsEnd {
            left.reverse();
        }
        for slot in left {
            self.free(slot);
        }
        slots[0]
    }
}

/// The lengths of the parts of n bytes of prefix and content.
pub fn cut(s: &Settings, n: usize, reading: Reading) -> Vec<usize> {
    if !s.multipart {
        return vec![n];
    }
    let fits = if reading == Reading::LastPartOf4086 { 4_086 } else { 4_094 };
    let mut parts = vec![4_078];
    let mut rest = n - 4_078;
    while rest > fits {
        parts.push(4_086);
        rest -= 4_086;
    }
    parts.push(rest);
    parts
}

/// Prefix and content, as they are cut into parts.
pub fn body(s: &Settings, count: u32, key: &[u8], content: &[u8]) -> Vec<u8> {
    let mut body = Vec::with_capacity(content.len() + 30);
    if s.counted {
        body.extend_from_slice(&count.to_le_bytes());
    }
    if s.keyed {
        body.extend_from_slice(&key[6..32]);
    }
    body.extend_from_slice(content);
    body
}

/// The total that a head stores.
pub fn total(s: &Settings, content: &[u8], reading: Reading) -> u64 {
    let prefix = if reading == Reading::TotalWithPrefix { s.prefix() } else { 0 };
    (content.len() + prefix) as u64
}
