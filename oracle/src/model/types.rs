//! What calls are given and what they answer.

/// 01's five readings that look right and are not, to be planted one at a time.
#[derive(Debug, Clone, Copy, PartialEq, Eq)]
pub enum Reading {
    Right,
    TotalWithPrefix,
    TailFromItsEnd,
    StepCastFirst,
    LastPartOf4086,
    CountKept,
}

#[derive(Debug, Clone, Copy, PartialEq, Eq)]
pub struct Settings {
    pub size: u64,
    pub multipart: bool,
    pub counted: bool,
    pub keyed: bool,
}

/// What a read tells of a record.
#[derive(Debug, Clone, Copy, PartialEq, Eq)]
pub struct Record {
    pub length: u64,
    pub mark: bool,
    pub count: u32,
    pub visits: u64,
}

#[derive(Debug, Clone, PartialEq, Eq)]
pub enum Answer {
    Refused(u32),
    /// insert: the head's slot
    At(u64),
    /// replace and remove
    Accepted,
    /// change: the count stored
    Count(u32),
    LastReference,
    /// copying read
    Found(Record),
    /// fixed read: where the content starts, and its companion's answer
    Part(u64, Record),
    /// free count
    Members(u64),
}

/// A chain that was walked: its slots in order, and its content.
pub struct Chain {
    pub slots: Vec<u64>,
    pub content: Vec<u8>,
    pub mark: bool,
    pub count: u32,
}

/// A call with all that it is given but table and settings. `room` is the length of the lent output.
#[derive(Debug, Clone, PartialEq, Eq)]
pub enum Call {
    Insert { key: Vec<u8>, content: Vec<u8>, mark: bool },
    Replace { slot: u64, key: Vec<u8>, content: Vec<u8>, mark: bool },
    Remove { slot: u64 },
    Change { slot: u64, step: i32 },
    Read { slot: u64, checked: bool, key: Vec<u8>, room: usize },
    ReadFixed { slot: u64, checked: bool, key: Vec<u8> },
    FreeCount,
}

/// What an output holds before a read.
pub const UNTOUCHED: u8 = 0xa5;

impl Settings {
    pub fn bad(&self) -> bool {
        self.size < 32 || self.size > 32_760 || (self.multipart && self.size != 4_096)
    }

    pub fn prefix(&self) -> usize {
        (if self.counted { 4 } else { 0 }) + (if self.keyed { 26 } else { 0 })
    }

    pub(super) fn value_bad(&self, content: usize) -> bool {
        let n = content as u64 + self.prefix() as u64;
        if self.multipart {
            n <= 4_094
        } else {
            n > self.size - 2
        }
    }

    pub(super) fn key_bad(&self, key: &[u8]) -> bool {
        self.keyed && key.len() != 32
    }
}
