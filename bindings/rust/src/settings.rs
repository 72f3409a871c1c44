//! A table's settings.

/// A table's settings. They are not stored: lend the same ones with the same table each time.
///
/// Any values may stand here; a call under settings that no table has answers [`Refusal::Settings`](crate::Refusal::Settings).
#[repr(C)]
#[derive(Clone, Copy, Debug, PartialEq, Eq, Hash)]
pub struct Settings {
    /// E, the bytes of a slot: 32 to 32,760; 4,096 if multipart.
    pub entry_size: u64,
    /// Records are chains of slots; else each fits into one.
    pub multipart: bool,
    /// Each record has a count of references.
    pub counted: bool,
    /// Each record has a key.
    pub keyed: bool,
}

impl Settings {
    /// A fixed table with slots of so many bytes, uncounted and unkeyed.
    pub const fn fixed(entry_size: u64) -> Settings {
        Settings { entry_size, multipart: false, counted: false, keyed: false }
    }

    /// A multipart table, whose slots have 4,096 bytes, uncounted and unkeyed.
    pub const fn multipart() -> Settings {
        Settings { entry_size: 4096, multipart: true, counted: false, keyed: false }
    }

    /// The same, counted.
    #[must_use]
    pub const fn counted(self) -> Settings {
        Settings { counted: true, ..self }
    }

    /// The same, keyed.
    #[must_use]
    pub const fn keyed(self) -> Settings {
        Settings { keyed: true, ..self }
    }

    /// The bytes before each content: 4 of count if counted, then 26 of key if keyed.
    pub const fn prefix_len(self) -> usize {
        (if self.counted { 4 } else { 0 }) + (if self.keyed { 26 } else { 0 })
    }
}
