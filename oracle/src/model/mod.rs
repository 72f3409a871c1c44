//! A plain model of document 01, written from its text alone: the calls over a slice, for any bytes, settings, keys, slots, steps
//! and lengths. It is slow and direct, and shares nothing with the library or its definition.

mod calls;
mod chains;
mod sound;
mod types;
mod writer;

pub use calls::{call, read};
pub use sound::{free_list, heads, sound};
pub use types::*;
