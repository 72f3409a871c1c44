//! Tables over lent bytes: [`View`] reads, [`Table`] writes too.
use crate::{ffi, Refusal, Settings};

/// What a read tells of a record, its content aside.
#[derive(Clone, Copy, Debug, PartialEq, Eq, Hash)]
pub struct Record {
    /// The content's bytes.
    pub len: usize,
    /// The compressed mark.
    pub mark: bool,
    /// The stored count, 1 on an uncounted table.
    pub count: u32,
    /// The slots visited: the parts of the chain.
    pub visits: u64,
}

/// What a fixed read answers: the content, a part of the lent table, and what is told of the record.
#[derive(Clone, Copy, Debug, PartialEq, Eq, Hash)]
pub struct Part<'t> {
    /// The content's bytes where they stand in the table.
    pub content: &'t [u8],
    /// Length, mark, count and visits.
    pub record: Record,
}

/// What a change of the count answers.
#[derive(Clone, Copy, Debug, PartialEq, Eq, Hash)]
pub enum Changed {
    /// The count that was stored.
    Count(u32),
    /// Nothing was left of the count, and nothing was written: the record may be removed.
    LastReference,
}

/// The value where the number is 0, else the refusal with that number.
fn unless_refused<T>(number: u32, value: T) -> Result<T, Refusal> {
    match number {
        0 => Ok(value),
        n => Err(Refusal::from_number(n).expect("a refusal has a number from 1 to 13")),
    }
}

/// Whether a read checks a key, and the key.
fn checked(key: Option<&[u8]>) -> (bool, &[u8]) {
    (key.is_some(), key.unwrap_or(&[]))
}

/// A table lent for reading.
#[derive(Clone, Copy, Debug)]
pub struct View<'t> {
    bytes: &'t [u8],
    settings: Settings,
}

impl<'t> View<'t> {
    /// These bytes as a table with these settings. Nothing is tested here: each call tests what it needs.
    pub fn new(bytes: &'t [u8], settings: Settings) -> View<'t> {
        View { bytes, settings }
    }

    /// The lent bytes.
    pub fn bytes(&self) -> &'t [u8] {
        self.bytes
    }

    /// The settings.
    pub fn settings(&self) -> Settings {
        self.settings
    }

    /// Copies the content of the record at a slot to the front of the output, whose bytes past the content stay. With a key, the
    /// stored key must be that one, else the record is absent; an unkeyed table ignores it.
    ///
    /// Refusals, in order: 1, 2, 3, 4 (with a key), 7, 8 and 9 (head), 9 and 10 (parts), 13.
    pub fn read(&self, slot: u64, key: Option<&[u8]>, output: &mut [u8]) -> Result<Record, Refusal> {
        let (check, key) = checked(key);
        // SAFETY: each pointer has its slice's length behind it, and `output`, lent mutably, overlaps nothing.
        let r = unsafe {
            ffi::pyltarka_read(
                self.bytes.as_ptr(),
                self.bytes.len(),
                self.settings,
                slot,
                check,
                key.as_ptr(),
                key.len(),
                output.as_mut_ptr(),
                output.len(),
            )
        };
        unless_refused(r.number, Record { len: r.length as usize, mark: r.mark, count: r.count, visits: r.visits })
    }

    /// The content of the record at a slot of a fixed table, where it stands: a part of the lent bytes, not a copy. The key as for
    /// [`read`](View::read).
    ///
    /// Refusals, in order: 1 (also on a multipart table), 2, 3, 4 (with a key), 7, 8 and 9.
    pub fn read_fixed(&self, slot: u64, key: Option<&[u8]>) -> Result<Part<'t>, Refusal> {
        let (check, key) = checked(key);
        // SAFETY: each pointer has its slice's length behind it, and nothing is written.
        let p = unsafe {
            ffi::pyltarka_read_fixed(self.bytes.as_ptr(), self.bytes.len(), self.settings, slot, check, key.as_ptr(), key.len())
        };
        unless_refused(p.number, ())?;
        let (start, len) = (p.offset as usize, p.length as usize);
        Ok(Part {
            content: &self.bytes[start..start + len],
            record: Record { len, mark: p.mark, count: p.count, visits: p.visits },
        })
    }

    /// The members of the free list.
    ///
    /// Refusals, in order: 1, 2, 3, 11.
    pub fn free_count(&self) -> Result<u64, Refusal> {
        // SAFETY: the pointer has its slice's length behind it, and nothing is written.
        let c = unsafe { ffi::pyltarka_free_count(self.bytes.as_ptr(), self.bytes.len(), self.settings) };
        unless_refused(c.number, c.count)
    }
}

/// A table lent for writing.
#[derive(Debug)]
pub struct Table<'t> {
    bytes: &'t mut [u8],
    settings: Settings,
}

impl<'t> Table<'t> {
    /// These bytes as a table with these settings; bytes that start with 16 zeros are a fresh table. Nothing is tested here: each
    /// call tests what it needs.
    pub fn new(bytes: &'t mut [u8], settings: Settings) -> Table<'t> {
        Table { bytes, settings }
    }

    /// The same table for reading.
    pub fn view(&self) -> View<'_> {
        View::new(self.bytes, self.settings)
    }

    /// The lent bytes.
    pub fn bytes(&self) -> &[u8] {
        self.bytes
    }

    /// The settings.
    pub fn settings(&self) -> Settings {
        self.settings
    }

    /// Stores a record: its key (ignored if the table is unkeyed), its content, its compressed mark, and a count of 1. Answers the
    /// slot of its head.
    ///
    /// Refusals, in order: 1, 2, 3, 4, 6, 11, 12.
    pub fn insert(&mut self, key: &[u8], content: &[u8], mark: bool) -> Result<u64, Refusal> {
        // SAFETY: each pointer has its slice's length behind it, and the table, lent mutably, overlaps nothing.
        let i = unsafe {
            ffi::pyltarka_insert(
                self.bytes.as_mut_ptr(),
                self.bytes.len(),
                self.settings,
                key.as_ptr(),
                key.len(),
                content.as_ptr(),
                content.len(),
                mark,
            )
        };
        unless_refused(i.number, i.slot)
    }

    /// Stores another record in place of the one at a slot, which stays its head's slot. The count becomes 1 again; key and mark
    /// are written anew, and the lent key is not compared with the stored one.
    ///
    /// Refusals, in order: 1, 2, 3, 4, 6, 7, 8 and 9 (head), 9 and 10 (parts), 11, 12.
    pub fn replace(&mut self, slot: u64, key: &[u8], content: &[u8], mark: bool) -> Result<(), Refusal> {
        // SAFETY: each pointer has its slice's length behind it, and the table, lent mutably, overlaps nothing.
        let number = unsafe {
            ffi::pyltarka_replace(
                self.bytes.as_mut_ptr(),
                self.bytes.len(),
                self.settings,
                slot,
                key.as_ptr(),
                key.len(),
                content.as_ptr(),
                content.len(),
                mark,
            )
        };
        unless_refused(number, ())
    }

    /// Frees the slots of the record at a slot: its head first, then each part in order.
    ///
    /// Refusals, in order: 1, 2, 3, 7, 8 and 9 (head), 9 and 10 (parts), 11.
    pub fn remove(&mut self, slot: u64) -> Result<(), Refusal> {
        // SAFETY: the pointer has its slice's length behind it, and the table is lent mutably.
        let number = unsafe { ffi::pyltarka_remove(self.bytes.as_mut_ptr(), self.bytes.len(), self.settings, slot) };
        unless_refused(number, ())
    }

    /// Changes the count of the record at a slot by a signed step. A positive step adds, stopping at the lock; a zero or negative
    /// one leaves a locked count, else takes its magnitude off.
    ///
    /// Refusals, in order: 1, 2, 3, 5, 7, 8 and 9 (head).
    pub fn change_count(&mut self, slot: u64, step: i32) -> Result<Changed, Refusal> {
        // SAFETY: the pointer has its slice's length behind it, and the table is lent mutably.
        let c = unsafe { ffi::pyltarka_change_count(self.bytes.as_mut_ptr(), self.bytes.len(), self.settings, slot, step) };
        let changed = if c.last_reference { Changed::LastReference } else { Changed::Count(c.count) };
        unless_refused(c.number, changed)
    }

    /// The copying read: [`View::read`].
    pub fn read(&self, slot: u64, key: Option<&[u8]>, output: &mut [u8]) -> Result<Record, Refusal> {
        self.view().read(slot, key, output)
    }

    /// The fixed read: [`View::read_fixed`].
    pub fn read_fixed(&self, slot: u64, key: Option<&[u8]>) -> Result<Part<'_>, Refusal> {
        self.view().read_fixed(slot, key)
    }

    /// The members of the free list: [`View::free_count`].
    pub fn free_count(&self) -> Result<u64, Refusal> {
        self.view().free_count()
    }
}
