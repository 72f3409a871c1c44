//! The structs and functions of `include/pyltarka.h`, declared once for this crate. [`Table`](crate::Table) and [`View`](crate::View) are their
//! safe face.
//!
//! Each pointer must have as many bytes behind it as the length beside it says; null with length 0 is an empty buffer. A buffer
//! that a call may write must not overlap another buffer lent to that call. Nothing else is asked.
use crate::Settings;

/// What insert answers: the slot of the new record's head.
#[repr(C)]
#[derive(Clone, Copy, Debug, PartialEq, Eq)]
#[allow(missing_docs)]
pub struct Inserted {
    pub slot: u64,
    pub number: u32,
}

/// What a count change answers: the count stored, or that this was the last reference and nothing was written.
#[repr(C)]
#[derive(Clone, Copy, Debug, PartialEq, Eq)]
#[allow(missing_docs)]
pub struct Changed {
    pub number: u32,
    pub count: u32,
    pub last_reference: bool,
}

/// What the copying read answers: content length, slots visited, count and compressed mark.
#[repr(C)]
#[derive(Clone, Copy, Debug, PartialEq, Eq)]
#[allow(missing_docs)]
pub struct Record {
    pub length: u64,
    pub visits: u64,
    pub number: u32,
    pub count: u32,
    pub mark: bool,
}

/// What the fixed read answers: where the content starts in the table, and the same as [`Record`].
#[repr(C)]
#[derive(Clone, Copy, Debug, PartialEq, Eq)]
#[allow(missing_docs)]
pub struct Part {
    pub offset: u64,
    pub length: u64,
    pub visits: u64,
    pub number: u32,
    pub count: u32,
    pub mark: bool,
}

/// What the free count answers: the members of the free list.
#[repr(C)]
#[derive(Clone, Copy, Debug, PartialEq, Eq)]
#[allow(missing_docs)]
pub struct Counted {
    pub count: u64,
    pub number: u32,
}

extern "C" {
    /// Stores a record; answers the head's slot.
    pub fn pyltarka_insert(
        table: *mut u8,
        table_len: usize,
        s: Settings,
        key: *const u8,
        key_len: usize,
        content: *const u8,
        content_len: usize,
        mark: bool,
    ) -> Inserted;

    /// Stores another record in place of the one at a slot; answers 0 or the refusal.
    pub fn pyltarka_replace(
        table: *mut u8,
        table_len: usize,
        s: Settings,
        slot: u64,
        key: *const u8,
        key_len: usize,
        content: *const u8,
        content_len: usize,
        mark: bool,
    ) -> u32;

    /// Frees the slots of the record at a slot; answers 0 or the refusal.
    pub fn pyltarka_remove(table: *mut u8, table_len: usize, s: Settings, slot: u64) -> u32;

    /// Changes the count of the record at a slot by a signed step.
    pub fn pyltarka_change_count(table: *mut u8, table_len: usize, s: Settings, slot: u64, step: i32) -> Changed;

    /// Copies the content of the record at a slot to the front of the output.
    pub fn pyltarka_read(
        table: *const u8,
        table_len: usize,
        s: Settings,
        slot: u64,
        checked: bool,
        key: *const u8,
        key_len: usize,
        output: *mut u8,
        output_len: usize,
    ) -> Record;

    /// Finds the content of the record at a slot of a fixed table.
    pub fn pyltarka_read_fixed(
        table: *const u8,
        table_len: usize,
        s: Settings,
        slot: u64,
        checked: bool,
        key: *const u8,
        key_len: usize,
    ) -> Part;

    /// Counts the members of the free list.
    pub fn pyltarka_free_count(table: *const u8, table_len: usize, s: Settings) -> Counted;
}
