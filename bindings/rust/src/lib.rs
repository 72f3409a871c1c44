//! The value tables of parity-db, every function proved, for Rust: a safe face over the functions of `include/pyltarka.h`.
//!
//! A table is a buffer that the caller lends. [`Table`] holds it for writing, [`View`] for reading; neither allocates, copies or
//! keeps anything beside it, and each call reads the header anew. Any bytes may be lent as a table: each call tests what it needs
//! and answers a [`Refusal`] where a test fails, having changed no byte.
//!
//! ```
//! use pyltarka::{Changed, Refusal, Settings, Table};
//!
//! let mut bytes = [0; 4 * 64];
//! let mut table = Table::new(&mut bytes, Settings::fixed(64).counted().keyed());
//! let key = [7; 32];
//! let slot = table.insert(&key, b"fan -20", false)?;
//! assert_eq!(table.read_fixed(slot, Some(&key))?.content, b"fan -20");
//! assert_eq!(table.change_count(slot, 1)?, Changed::Count(2));
//! assert_eq!(table.read_fixed(slot, Some(&[8; 32])), Err(Refusal::Absent));
//! # Ok::<(), Refusal>(())
//! ```
#![deny(missing_docs)]
#![warn(unreachable_pub)]

pub mod ffi;
mod refusal;
mod settings;
mod table;

pub use refusal::Refusal;
pub use settings::Settings;
pub use table::{Changed, Part, Record, Table, View};

/// The bytes of a key: a 32-byte hash, of which bytes 6 to 31 are stored.
pub const KEY_BYTES: usize = 32;

/// The locked count: no step changes it any more.
pub const LOCKED: u32 = 0xffff_ffff;
