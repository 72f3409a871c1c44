//! The refusals.
use std::error::Error;
use std::fmt;

/// Why a call was refused: document 01's numbers, 1 to 13. A refused call has changed nothing.
#[derive(Clone, Copy, Debug, PartialEq, Eq, PartialOrd, Ord, Hash)]
#[repr(u32)]
pub enum Refusal {
    /// E below 32 or above 32,760; multipart with E not 4,096; a fixed read of a multipart table.
    Settings = 1,
    /// The buffer has no room for one slot.
    Buffer = 2,
    /// LAST_REMOVED not below FILLED, or FILLED above capacity.
    Header = 3,
    /// Keyed table, a key is used by the call and is not 32 bytes long.
    Key = 4,
    /// Count change on an uncounted table.
    Uncounted = 5,
    /// N is content plus prefix. Fixed: N above E - 2; multipart: N at most 4,094.
    Value = 6,
    /// Slot 0, or not below FILLED.
    Slot = 7,
    /// Free slot; multipart slot that is no head; stored count 0; checked key differs.
    Absent = 8,
    /// Plain size below the prefix, or above E - 2; last part above 4,094.
    Size = 9,
    /// Link 0 or not below FILLED; a free slot or a head met as a later part; more than FILLED - 1 parts; total differs from the
    /// content length.
    Chain = 10,
    /// A member of the free list not below FILLED or not marked free, or no end after FILLED - 1 members.
    FreeList = 11,
    /// The new slots needed exceed the free ones and the unused ones at the end.
    Room = 12,
    /// Copying read: content longer than the output.
    Output = 13,
}

impl Refusal {
    /// All of them, in the order of their numbers.
    pub const ALL: [Refusal; 13] = [
        Refusal::Settings,
        Refusal::Buffer,
        Refusal::Header,
        Refusal::Key,
        Refusal::Uncounted,
        Refusal::Value,
        Refusal::Slot,
        Refusal::Absent,
        Refusal::Size,
        Refusal::Chain,
        Refusal::FreeList,
        Refusal::Room,
        Refusal::Output,
    ];

    /// Document 01's number, 1 to 13.
    pub const fn number(self) -> u32 {
        self as u32
    }

    /// The refusal with this number, if there is one.
    pub fn from_number(number: u32) -> Option<Refusal> {
        Refusal::ALL.into_iter().find(|r| r.number() == number)
    }

    /// Document 01's name.
    pub const fn name(self) -> &'static str {
        match self {
            Refusal::Settings => "SETTINGS",
            Refusal::Buffer => "BUFFER",
            Refusal::Header => "HEADER",
            Refusal::Key => "KEY",
            Refusal::Uncounted => "UNCOUNTED",
            Refusal::Value => "VALUE",
            Refusal::Slot => "SLOT",
            Refusal::Absent => "ABSENT",
            Refusal::Size => "SIZE",
            Refusal::Chain => "CHAIN",
            Refusal::FreeList => "FREE LIST",
            Refusal::Room => "ROOM",
            Refusal::Output => "OUTPUT",
        }
    }

    /// When it is given, in document 01's words.
    pub const fn words(self) -> &'static str {
        match self {
            Refusal::Settings => "E below 32 or above 32,760; multipart with E not 4,096; a fixed read of a multipart table",
            Refusal::Buffer => "capacity 0",
            Refusal::Header => "LAST_REMOVED not below FILLED, or FILLED above capacity",
            Refusal::Key => "keyed table and a key is used by the call, not 32 bytes long",
            Refusal::Uncounted => "count change on an uncounted table",
            Refusal::Value => "fixed: N above E - 2; multipart: N at most 4,094",
            Refusal::Slot => "slot 0, or not below FILLED",
            Refusal::Absent => "free slot; multipart slot that is no head; stored count 0; checked key differs",
            Refusal::Size => "plain size below the prefix, or above E - 2; last part above 4,094",
            Refusal::Chain => {
                "link 0 or not below FILLED; a free slot or a head met as a later part; more than FILLED - 1 parts; \
                 total differs from the content length"
            }
            Refusal::FreeList => "a member not below FILLED or not marked free, or no end after FILLED - 1 members",
            Refusal::Room => "the new slots needed exceed free plus unused ones",
            Refusal::Output => "copying read: content longer than the output",
        }
    }
}

impl fmt::Display for Refusal {
    fn fmt(&self, f: &mut fmt::Formatter<'_>) -> fmt::Result {
        write!(f, "{} {}: {}", self.number(), self.name(), self.words())
    }
}

impl Error for Refusal {}
