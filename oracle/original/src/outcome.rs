//! What a call of the original came to.

/// A record as the original reads it, and how many slots it looked at.
#[derive(Debug, Clone, PartialEq, Eq)]
pub struct Read {
    pub content: Vec<u8>,
    pub mark: bool,
    pub count: u32,
    pub looks: u64,
}

#[derive(Debug, Clone, PartialEq, Eq)]
pub enum Outcome<T> {
    /// `Ok`
    Is(T),
    /// `Err(Corruption)`
    Corruption(String),
    /// another `Err`
    Error(String),
    /// a panic of the original: an assertion, an index, an overflow
    Panic(String),
    /// a place past the mapped file was asked for: the stand-in stops the call there
    PastFile,
    /// more looks than any walk over this table can need: the stand-in stops the call there
    Endless,
    /// the file has grown past all that is compared: the stand-in stops the call there
    TooLong,
}

impl<T> Outcome<T> {
    pub fn is(&self) -> Option<&T> {
        match self {
            Outcome::Is(x) => Some(x),
            _ => None,
        }
    }

    pub fn map<U>(self, f: impl FnOnce(T) -> U) -> Outcome<U> {
        match self {
            Outcome::Is(x) => Outcome::Is(f(x)),
            Outcome::Corruption(m) => Outcome::Corruption(m),
            Outcome::Error(m) => Outcome::Error(m),
            Outcome::Panic(m) => Outcome::Panic(m),
            Outcome::PastFile => Outcome::PastFile,
            Outcome::Endless => Outcome::Endless,
            Outcome::TooLong => Outcome::TooLong,
        }
    }
}
