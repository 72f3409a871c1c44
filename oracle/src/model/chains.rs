//! A table read: its header, its chains and its free list, with 01's tests in 01's order. Nothing is written here.

use super::types::{Chain, Settings};

pub const HEAD: [u8; 2] = [0xfd, 0xff];
pub const COMPRESSED_HEAD: [u8; 2] = [0xfd, 0x7f];
pub const CONTINUATION: [u8; 2] = [0xfe, 0xff];
pub const FREE: [u8; 2] = [0xff, 0xff];

/// What the tests let through, or the number of the refusal.
pub type Tested<T> = Result<T, u32>;

/// The little-endian number in these bytes.
pub fn number(bytes: &[u8]) -> u64 {
    bytes.iter().rev().fold(0, |n, byte| n << 8 | *byte as u64)
}

/// A table that passed tests 1, 2 and 3.
pub struct Open<'a> {
    table: &'a [u8],
    s: Settings,
    pub header: Header,
    capacity: u64,
}

/// LAST_REMOVED and FILLED; a FILLED of 0 is 1.
#[derive(Clone, Copy)]
pub struct Header {
    pub removed: u64,
    pub filled: u64,
}

impl<'a> Open<'a> {
    pub fn new(table: &'a [u8], s: Settings) -> Tested<Self> {
        if s.bad() {
            return Err(1);
        }
        let capacity = table.len() as u64 / s.size;
        if capacity == 0 {
            return Err(2);
        }
        let removed = number(&table[0..8]);
        let filled = number(&table[8..16]).max(1);
        if removed >= filled || filled > capacity {
            return Err(3);
        }
        Ok(Open { table, s, header: Header { removed, filled }, capacity })
    }

    pub fn slot(&self, slot: u64) -> &'a [u8] {
        let at = (slot * self.s.size) as usize;
        &self.table[at..at + self.s.size as usize]
    }

    pub fn slot_test(&self, slot: u64) -> Tested<()> {
        if slot == 0 || slot >= self.header.filled {
            return Err(7);
        }
        Ok(())
    }

    pub fn prefix_at(&self) -> usize {
        if self.s.multipart {
            18
        } else {
            2
        }
    }

    pub fn count(&self, b: &[u8]) -> u32 {
        if self.s.counted {
            number(&b[self.prefix_at()..self.prefix_at() + 4]) as u32
        } else {
            1
        }
    }

    /// The head's tests, in 01's order.
    pub fn head_test(&self, slot: u64, key: Option<&[u8]>) -> Tested<()> {
        let b = self.slot(slot);
        let mark = [b[0], b[1]];
        let fixed = !self.s.multipart;
        if mark == FREE || (self.s.multipart && mark != HEAD && mark != COMPRESSED_HEAD) {
            return Err(8);
        }
        let size = number(&b[0..2]) & 0x7fff;
        if fixed && size < self.s.prefix() as u64 {
            return Err(9);
        }
        if self.count(b) == 0 {
            return Err(8);
        }
        if let Some(key) = key {
            if self.s.keyed {
                let at = self.prefix_at() + if self.s.counted { 4 } else { 0 };
                if b[at..at + 26] != key[6..32] {
                    return Err(8);
                }
            }
        }
        if fixed && size > self.s.size - 2 {
            return Err(9);
        }
        Ok(())
    }

    /// The whole chain at a slot: 7, the head, the parts in order, the total.
    pub fn chain(&self, slot: u64, key: Option<&[u8]>) -> Tested<Chain> {
        self.slot_test(slot)?;
        self.head_test(slot, key)?;
        if self.s.multipart {
            self.parts(slot)
        } else {
            Ok(self.fixed(slot))
        }
    }

    /// The record in a slot of a fixed table whose head passed its tests.
    fn fixed(&self, slot: u64) -> Chain {
        let b = self.slot(slot);
        let size = (number(&b[0..2]) & 0x7fff) as usize;
        let content = b[2 + self.s.prefix()..2 + size].to_vec();
        Chain { slots: vec![slot], content, mark: b[1] & 0x80 != 0, count: self.count(b) }
    }

    /// The chain from a head that passed its tests: the parts in order, the total.
    fn parts(&self, head: u64) -> Tested<Chain> {
        let b = self.slot(head);
        let (mark, count) = ([b[0], b[1]] == COMPRESSED_HEAD, self.count(b));
        let mut slots = vec![head];
        let mut content = b[18 + self.s.prefix()..].to_vec();
        let mut next = number(&b[10..18]);
        loop {
            if slots.len() as u64 >= self.header.filled - 1 {
                return Err(10);
            }
            if next == 0 || next >= self.header.filled {
                return Err(10);
            }
            let b = self.slot(next);
            let met = [b[0], b[1]];
            if met == FREE || met == HEAD || met == COMPRESSED_HEAD {
                return Err(10);
            }
            slots.push(next);
            if met == CONTINUATION {
                content.extend_from_slice(&b[10..]);
                next = number(&b[2..10]);
                continue;
            }
            let size = (number(&b[0..2]) & 0x7fff) as usize;
            if size > 4_094 {
                return Err(9);
            }
            content.extend_from_slice(&b[2..2 + size]);
            break;
        }
        if number(&self.slot(head)[2..10]) != content.len() as u64 {
            return Err(10);
        }
        Ok(Chain { slots, content, mark, count })
    }

    /// The members of the free list, in its order.
    pub fn free_list(&self) -> Tested<Vec<u64>> {
        let mut members = Vec::new();
        let mut next = self.header.removed;
        while next != 0 {
            if members.len() as u64 == self.header.filled - 1 || next >= self.header.filled {
                return Err(11);
            }
            let b = self.slot(next);
            if [b[0], b[1]] != FREE {
                return Err(11);
            }
            members.push(next);
            next = number(&b[2..10]);
        }
        Ok(members)
    }

    pub fn room_test(&self, needed: usize, free: usize) -> Tested<()> {
        if needed as u64 > free as u64 + (self.capacity - self.header.filled) {
            return Err(12);
        }
        Ok(())
    }
}
