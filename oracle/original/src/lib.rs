//! The original's value table: table.rs, display.rs, error.rs and file.rs of parity-db, compiled unchanged from where ../build.rs finds
//! them, over stand-ins for what is not there. `PRESENT` says whether they were found.

#[cfg(original)]
include!(concat!(env!("OUT_DIR"), "/modules.rs"));

/// Stand-in for column.rs: the number of a column.
#[cfg(original)]
pub mod column {
    pub type ColId = u8;
}

/// Stand-in for options.rs: the two options that a value table looks at.
#[cfg(original)]
pub mod options {
    #[derive(Debug, Default)]
    pub struct ColumnOptions {
        pub multitree: bool,
        pub ref_counted: bool,
    }
}

/// Stand-in for parking_lot.rs: the crate's lock under the original's own name.
#[cfg(original)]
pub mod parking_lot {
    pub use ::parking_lot::RwLock;
}

#[cfg(original)]
pub mod log;
#[cfg(original)]
pub mod mmap;

/// As lib.rs has it.
pub const KEY_SIZE: usize = 32;
pub type Key = [u8; KEY_SIZE];

mod outcome;
pub use outcome::{Outcome, Read};

#[cfg(original)]
mod commit;
#[cfg(original)]
pub use commit::{Entry, Plan, Planned, Query, Table};

#[cfg(not(original))]
mod absent;
#[cfg(not(original))]
pub use absent::{Entry, Plan, Planned, Query, Table};

/// Whether the original's files were there when this was built.
pub const PRESENT: bool = cfg!(original);
