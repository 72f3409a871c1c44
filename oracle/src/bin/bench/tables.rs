//! The tables that are measured: prepared by the library's calls, the same bytes lent to the library and laid into the Rust's file.

use crate::functions::{self, pyltarka_change_count, pyltarka_free_count, pyltarka_insert, pyltarka_read, pyltarka_read_fixed};
use crate::functions::{pyltarka_remove, pyltarka_replace};
use original::{Key, Outcome, Table};
use std::{
    alloc::{alloc_zeroed, dealloc, Layout},
    ops::{Deref, DerefMut, Range},
    path::PathBuf,
};

const PAGE: usize = 4_096;
/// The free list's members where it does not grow.
pub const FREE: usize = 10;

/// Bytes that start at a page, as the Rust's map does.
pub struct Pages(*mut u8, usize);

impl Pages {
    fn layout(len: usize) -> Layout {
        Layout::from_size_align(len.max(1), PAGE).expect("a length")
    }

    pub fn new(bytes: &[u8]) -> Self {
        let mut pages = Pages(unsafe { alloc_zeroed(Self::layout(bytes.len())) }, bytes.len());
        assert!(!pages.0.is_null(), "no memory");
        pages.copy_from_slice(bytes);
        pages
    }
}

impl Deref for Pages {
    type Target = [u8];

    fn deref(&self) -> &[u8] {
        unsafe { std::slice::from_raw_parts(self.0, self.1) }
    }
}

impl DerefMut for Pages {
    fn deref_mut(&mut self) -> &mut [u8] {
        unsafe { std::slice::from_raw_parts_mut(self.0, self.1) }
    }
}

impl Drop for Pages {
    fn drop(&mut self) {
        unsafe { dealloc(self.0, Self::layout(self.1)) }
    }
}

/// A kind of table, counted and keyed. Its functions are the library's calls, none of which may be refused here.
#[derive(Clone, Copy)]
pub struct Kind(functions::Settings);

pub const FIXED: Kind = Kind(functions::Settings { entry_size: 64, multipart: false, counted: true, keyed: true });
pub const MULTIPART: Kind = Kind(functions::Settings { entry_size: 4_096, multipart: true, counted: true, keyed: true });

fn accepted(number: u32) {
    assert!(number == 0, "refused with {number}");
}

impl Kind {
    pub fn size(self) -> usize {
        self.0.entry_size as usize
    }

    pub fn multipart(self) -> bool {
        self.0.multipart
    }

    #[inline(always)]
    pub fn insert(self, table: &mut [u8], key: &Key, content: &[u8]) -> u64 {
        let (t, n, k, c) = (table.as_mut_ptr(), table.len(), key.as_ptr(), content.as_ptr());
        let put = unsafe { pyltarka_insert(t, n, self.0, k, key.len(), c, content.len(), false) };
        accepted(put.number);
        put.slot
    }

    #[inline(always)]
    pub fn replace(self, table: &mut [u8], slot: u64, key: &Key, content: &[u8]) {
        let (t, n, k, c) = (table.as_mut_ptr(), table.len(), key.as_ptr(), content.as_ptr());
        accepted(unsafe { pyltarka_replace(t, n, self.0, slot, k, key.len(), c, content.len(), false) });
    }

    #[inline(always)]
    pub fn remove(self, table: &mut [u8], slot: u64) {
        accepted(unsafe { pyltarka_remove(table.as_mut_ptr(), table.len(), self.0, slot) });
    }

    #[inline(always)]
    pub fn change(self, table: &mut [u8], slot: u64, step: i32) -> u32 {
        let changed = unsafe { pyltarka_change_count(table.as_mut_ptr(), table.len(), self.0, slot, step) };
        accepted(changed.number);
        assert!(!changed.last_reference);
        changed.count
    }

    #[inline(always)]
    pub fn read(self, table: &[u8], slot: u64, key: &Key, output: &mut [u8]) -> functions::Record {
        let (t, n, k, o) = (table.as_ptr(), table.len(), key.as_ptr(), output.as_mut_ptr());
        let got = unsafe { pyltarka_read(t, n, self.0, slot, true, k, key.len(), o, output.len()) };
        accepted(got.number);
        got
    }

    /// A read whose output is too short: all its tests, and no byte copied.
    #[inline(always)]
    pub fn read_refused(self, table: &[u8], slot: u64, key: &Key, output: &mut [u8]) {
        let (t, n, k, o) = (table.as_ptr(), table.len(), key.as_ptr(), output.as_mut_ptr());
        let got = unsafe { pyltarka_read(t, n, self.0, slot, true, k, key.len(), o, output.len()) };
        assert!(got.number == 13, "not refused for its output");
    }

    #[inline(always)]
    pub fn read_fixed(self, table: &[u8], slot: u64, key: &Key) -> functions::Part {
        let got = unsafe { pyltarka_read_fixed(table.as_ptr(), table.len(), self.0, slot, true, key.as_ptr(), key.len()) };
        accepted(got.number);
        got
    }

    pub fn free_count(self, table: &[u8]) -> usize {
        let members = unsafe { pyltarka_free_count(table.as_ptr(), table.len(), self.0) };
        accepted(members.number);
        members.count as usize
    }
}

/// What is measured on: a table with a free list, one record in it, its count 5, and a content of the record's length to write.
pub struct Case {
    pub kind: Kind,
    pub bytes: Vec<u8>,
    pub slot: u64,
    pub key: Key,
    pub content: Vec<u8>,
    pub other: Vec<u8>,
}

/// Byte i is what the recorded answers' contents have there.
pub fn content(len: usize, seed: usize) -> Vec<u8> {
    (0..len).map(|i| (seed + 7 * i + i / 256) as u8).collect()
}

pub fn key(seed: usize) -> Key {
    std::array::from_fn(|i| (seed + i) as u8)
}

/// E = 64, a record of 32 bytes among ten, ten slots freed out of order.
pub fn fixed() -> Case {
    let kind = FIXED;
    let mut bytes = vec![0; 64 * kind.size()];
    for i in 1..=20 {
        assert!(kind.insert(&mut bytes, &key(i), &content(32, i)) == i as u64);
    }
    for slot in [3, 17, 8, 12, 1, 20, 6, 15, 10, 4] {
        kind.remove(&mut bytes, slot);
    }
    assert!(kind.free_count(&bytes) == FREE);
    kind.change(&mut bytes, 11, 4);
    Case { kind, bytes, slot: 11, key: key(11), content: content(32, 11), other: content(32, 99) }
}

/// Multipart, a record of `len` bytes, before it the ten slots of a removed one, and unused slots for another.
pub fn multipart(len: usize) -> Case {
    let kind = MULTIPART;
    let parts = len / 4_086 + 2;
    let mut bytes = vec![0; (1 + FREE + 2 * parts) * kind.size()];
    let ten_parts = 4_078 + 8 * 4_086 + 1_000 - 30;
    let removed = kind.insert(&mut bytes, &key(1), &content(ten_parts, 1));
    let slot = kind.insert(&mut bytes, &key(2), &content(len, 2));
    kind.remove(&mut bytes, removed);
    assert!(kind.free_count(&bytes) == FREE);
    kind.change(&mut bytes, slot, 4);
    Case { kind, bytes, slot, key: key(2), content: content(len, 2), other: content(len, 99) }
}

/// Where the content of a multipart record lies in its table, part by part.
pub fn parts(case: &Case) -> Vec<Range<usize>> {
    let number = |at: usize| u64::from_le_bytes(case.bytes[at..at + 8].try_into().expect("eight bytes")) as usize;
    let (size, mut left) = (case.kind.size(), case.content.len());
    let head = case.slot as usize * size;
    let (mut slot, mut start, mut next) = (head, head + 48, number(head + 10));
    let mut parts = Vec::new();
    loop {
        let end = (slot + size).min(start + left);
        parts.push(start..end);
        left -= end - start;
        if left == 0 {
            break;
        }
        slot = next * size;
        let last = case.bytes[slot..slot + 2] != [0xfe, 0xff];
        (start, next) = if last { (slot + 2, 0) } else { (slot + 10, number(slot + 2)) };
    }
    assert!(parts.iter().flat_map(|part| &case.bytes[part.clone()]).eq(&case.content), "the parts are not the content");
    parts
}

/// E = 64, a free list of `members` slots, linked by slots or in any order, and one unused slot for an insert without a free list.
pub fn grown(members: usize, shuffled: bool) -> Case {
    let kind = FIXED;
    let mut bytes = vec![0; (2 + members) * kind.size()];
    let mut order: Vec<usize> = (1..=members).collect();
    if shuffled {
        let mut seed: u64 = 1;
        for i in (1..members).rev() {
            seed = seed.wrapping_mul(6_364_136_223_846_793_005).wrapping_add(1_442_695_040_888_963_407);
            order.swap(i, (seed >> 33) as usize % (i + 1));
        }
    }
    // Written by hand: as many removals would each walk the list.
    let mut next = 0u64;
    for slot in order.into_iter().rev() {
        let at = slot * kind.size();
        bytes[at..at + 2].copy_from_slice(&[0xff, 0xff]);
        bytes[at + 2..at + 10].copy_from_slice(&next.to_le_bytes());
        next = slot as u64;
    }
    bytes[..8].copy_from_slice(&next.to_le_bytes());
    bytes[8..16].copy_from_slice(&(members as u64 + 1).to_le_bytes());
    assert!(kind.free_count(&bytes) == members);
    let slot = if members == 0 { 1 } else { next };
    Case { kind, bytes, slot, key: key(5), content: content(32, 5), other: content(32, 99) }
}

/// Where the Rust's files go, one folder a table. They are in memory where the system has a folder for that.
pub struct Folders {
    root: PathBuf,
    made: usize,
}

impl Folders {
    pub fn new() -> Self {
        let memory = PathBuf::from("/dev/shm");
        let root = if memory.is_dir() { memory } else { std::env::temp_dir() };
        Folders { root: root.join(format!("pyltarka-bench-{}", std::process::id())), made: 0 }
    }

    /// The case's table in both forms.
    pub fn table(&mut self, case: &Case) -> Both {
        let folder = self.root.join(self.made.to_string());
        self.made += 1;
        std::fs::create_dir_all(&folder).expect("a folder for the Rust's file");
        let size = if case.kind.multipart() { None } else { Some(case.kind.size() as u16) };
        match Table::open(&folder, &case.bytes, size, true) {
            Outcome::Is(rust) => Both { ours: Pages::new(&case.bytes), rust },
            _ => panic!("the Rust does not open the table"),
        }
    }
}

impl Drop for Folders {
    fn drop(&mut self) {
        let _ = std::fs::remove_dir_all(&self.root);
    }
}

/// One table, the library's and the Rust's.
pub struct Both {
    pub ours: Pages,
    pub rust: Table,
}

impl Both {
    /// Every byte is the same.
    pub fn agree(&self) {
        assert!(self.ours[..] == *self.rust.bytes(), "the tables differ");
    }
}
