//! The buffers that calls are lent, and the C functions called on them.

use crate::call::{Answer, Call};
use crate::fence::{Fence, Place};
use pyltarka::{ffi, Settings};
use std::ptr;

/// The four buffers that calls are lent.
pub struct Desk {
    table: Fence,
    key: Fence,
    content: Fence,
    output: Fence,
}

/// A buffer's pointer; an empty buffer's is null if so wanted.
fn lent(fence: &mut Fence, null: bool) -> (*mut u8, usize) {
    let len = fence.bytes().len();
    if len == 0 && null {
        return (ptr::null_mut(), 0);
    }
    (fence.ptr(), len)
}

impl Desk {
    pub fn new() -> Desk {
        Desk { table: Fence::new(1 << 18), key: Fence::new(256), content: Fence::new(1 << 17), output: Fence::new(1 << 17) }
    }

    /// Lays down a table and what a call is lent: table, key, content and output, each at its place.
    pub fn lay(&mut self, table: &[u8], call: &Call, places: [Place; 4]) {
        let (key, content) = call.lent();
        self.table.lay(table, places[0]);
        self.key.lay(key, places[1]);
        self.content.lay(content, places[2]);
        self.output.lay(call.output(), places[3]);
    }

    /// The first buffer that does not hold what it should: this table, this output, and the call's own key and content.
    pub fn differing(&mut self, table: &[u8], output: &[u8], call: &Call) -> Option<&'static str> {
        let (key, content) = call.lent();
        if self.table.bytes() != table {
            return Some("table");
        }
        if self.output.bytes() != output {
            return Some("output");
        }
        (self.key.bytes() != key || self.content.bytes() != content).then_some("key or content")
    }

    /// Are the guard bytes around all four as they were laid down?
    pub fn guards_stand(&mut self) -> bool {
        [&mut self.table, &mut self.key, &mut self.content, &mut self.output].into_iter().all(Fence::guards_stand)
    }

    /// What the C function answers on the buffers as they lie.
    pub fn call(&mut self, call: &Call, s: Settings, null: bool) -> Answer {
        let (table, table_len) = lent(&mut self.table, null);
        let (k, k_len) = lent(&mut self.key, null);
        let (c, c_len) = lent(&mut self.content, null);
        let (out, out_len) = lent(&mut self.output, null);
        // SAFETY: each pointer has its length behind it, and the four buffers lie apart.
        unsafe {
            match *call {
                Call::Insert { mark, .. } => ffi::pyltarka_insert(table, table_len, s, k, k_len, c, c_len, mark).into(),
                Call::Replace { slot, mark, .. } => {
                    Answer::number_alone(ffi::pyltarka_replace(table, table_len, s, slot, k, k_len, c, c_len, mark))
                }
                Call::Remove { slot } => Answer::number_alone(ffi::pyltarka_remove(table, table_len, s, slot)),
                Call::Change { slot, step } => ffi::pyltarka_change_count(table, table_len, s, slot, step).into(),
                Call::Read { slot, checked, .. } => {
                    ffi::pyltarka_read(table, table_len, s, slot, checked, k, k_len, out, out_len).into()
                }
                Call::ReadFixed { slot, checked, .. } => {
                    ffi::pyltarka_read_fixed(table, table_len, s, slot, checked, k, k_len).into()
                }
                Call::FreeCount => ffi::pyltarka_free_count(table, table_len, s).into(),
            }
        }
    }
}

impl From<ffi::Inserted> for Answer {
    fn from(a: ffi::Inserted) -> Answer {
        Answer { number: a.number, slot: a.slot, ..Answer::default() }
    }
}

impl From<ffi::Changed> for Answer {
    fn from(a: ffi::Changed) -> Answer {
        Answer { number: a.number, count: u64::from(a.count), last_reference: a.last_reference, ..Answer::default() }
    }
}

impl From<ffi::Record> for Answer {
    fn from(a: ffi::Record) -> Answer {
        let (length, visits, count) = (a.length, a.visits, u64::from(a.count));
        Answer { number: a.number, length, visits, count, mark: a.mark, ..Answer::default() }
    }
}

impl From<ffi::Part> for Answer {
    fn from(a: ffi::Part) -> Answer {
        let (offset, length, visits, count) = (a.offset, a.length, a.visits, u64::from(a.count));
        Answer { number: a.number, offset, length, visits, count, mark: a.mark, ..Answer::default() }
    }
}

impl From<ffi::Counted> for Answer {
    fn from(a: ffi::Counted) -> Answer {
        Answer { number: a.number, count: a.count, ..Answer::default() }
    }
}
