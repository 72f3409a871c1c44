//! 01's five readings that look right and are not, each planted in the model: the comparison with the Rust has to catch it.

use super::sequences;
use crate::model::{Reading, Settings};
use std::path::PathBuf;

pub const READINGS: [(Reading, &str); 5] = [
    (Reading::TotalWithPrefix, "the total includes the prefix"),
    (Reading::TailFromItsEnd, "a leftover tail is freed from its end"),
    (Reading::StepCastFirst, "the step is cast to unsigned before its sign is tested"),
    (Reading::LastPartOf4086, "4,086 instead of 4,094 decides whether the rest fits a last part"),
    (Reading::CountKept, "replace keeps the old count"),
];

/// The suites that are run with a planted reading; the first difference that each finds.
pub fn caught(folder: PathBuf, reading: Reading) -> Vec<(&'static str, Option<String>)> {
    let s = Settings { size: 4_096, multipart: true, counted: true, keyed: true };
    vec![
        ("boundaries", sequences::boundaries(folder.clone(), s, reading).err()),
        ("steps", sequences::steps(folder.clone(), s, reading).err()),
        ("random", sequences::random(folder, s, 1, 4_000, reading).err()),
    ]
}
