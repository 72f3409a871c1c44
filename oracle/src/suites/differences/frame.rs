//! What the entries are shown with: tables and calls made in a few words, and a call's outcome here and in the Rust.

use crate::{
    compare::{as_rust, partial, rust_call, Got},
    model::{self, Answer, Call, Reading, Settings},
    station,
};
use original::{Outcome, Read, Table};
use std::path::Path;

/// Nothing, or where an outcome is not what the entry says.
pub type Shown = Result<(), String>;

pub const FIXED: Settings = Settings { size: 32, multipart: false, counted: false, keyed: false };
pub const COUNTED: Settings = Settings { counted: true, ..FIXED };
pub const KEYED: Settings = Settings { keyed: true, ..FIXED };
pub const CHAINS: Settings = Settings { size: 4_096, multipart: true, counted: false, keyed: false };
pub const COUNTED_CHAINS: Settings = Settings { counted: true, ..CHAINS };

/// A table of `len` bytes: LAST_REMOVED, FILLED, and the front of some slots; all else is zero.
pub fn table(s: Settings, len: usize, removed: u64, filled: u64, slots: &[(usize, &[u8])]) -> Vec<u8> {
    let mut table = vec![0; len];
    if len >= 16 {
        table[..8].copy_from_slice(&removed.to_le_bytes());
        table[8..16].copy_from_slice(&filled.to_le_bytes());
    }
    for (slot, front) in slots {
        let at = slot * s.size as usize;
        table[at..at + front.len()].copy_from_slice(front);
    }
    table
}

/// A head: mark, total, link.
pub fn head(total: u64, link: u64) -> Vec<u8> {
    [&[0xfd, 0xff][..], &total.to_le_bytes(), &link.to_le_bytes()].concat()
}

pub fn insert(length: usize) -> Call {
    Call::Insert { key: vec![0; 32], content: vec![0; length], mark: false }
}

pub fn replace(slot: u64, length: usize) -> Call {
    Call::Replace { slot, key: vec![0; 32], content: vec![0; length], mark: false }
}

pub fn remove(slot: u64) -> Call {
    Call::Remove { slot }
}

pub fn change(slot: u64, step: i32) -> Call {
    Call::Change { slot, step }
}

pub fn read(slot: u64) -> Call {
    Call::Read { slot, checked: false, key: Vec::new(), room: 20_000 }
}

/// The call here: the model's answer and, if it is linked, the library's, which must be this one. The table afterwards.
pub fn here(table: &[u8], s: Settings, call: &Call, want: Answer) -> Result<Vec<u8>, String> {
    let mut after = table.to_vec();
    let (answer, output) = model::call(&mut after, s, call, Reading::Right);
    if answer != want {
        return Err(format!("{call:?} here: {answer:?}, not {want:?}"));
    }
    if matches!(want, Answer::Refused(_)) && after != table {
        return Err("a refused call changed the table".into());
    }
    if station::PRESENT {
        let mut ours = table.to_vec();
        if station::call(&mut ours, s, call) != (answer, output) || ours != after {
            return Err(format!("{call:?}: the library is not the model"));
        }
    }
    Ok(after)
}

/// The call here is refused with this number.
pub fn refused(table: &[u8], s: Settings, call: &Call, number: u32) -> Shown {
    here(table, s, call, Answer::Refused(number)).map(|_| ())
}

pub fn open(folder: &Path, table: &[u8], s: Settings) -> Result<Table, String> {
    match Table::open(folder, table, as_rust(s), s.counted) {
        Outcome::Is(opened) => Ok(opened),
        other => Err(format!("the Rust does not open the table: {:?}", other.map(|_| ()))),
    }
}

/// The call in the Rust: what it gives, and its table afterwards.
pub fn there(folder: &Path, table: &[u8], s: Settings, call: &Call) -> Result<(Outcome<Got>, Vec<u8>), String> {
    let mut opened = open(folder, table, s)?;
    let got = rust_call(&mut opened, s, call);
    Ok((got, opened.bytes().to_vec()))
}

pub fn must<T: PartialEq + std::fmt::Debug>(what: &str, got: T, want: T) -> Shown {
    if got != want {
        let mut told = format!("{got:?}");
        told.truncate(300);
        return Err(format!("{what}: {told}, not {want:?}"));
    }
    Ok(())
}

/// What the Rust's read gives of so many zeros in two parts: it looks at two slots.
pub fn content(length: usize) -> Outcome<Got> {
    content_in(length, 2)
}

/// The same, with so many slots looked at.
pub fn content_in(length: usize, looks: u64) -> Outcome<Got> {
    Outcome::Is(Got::Record(Some(Read { content: vec![0; length], mark: false, count: 1, looks })))
}

pub const DONE: Outcome<Got> = Outcome::Is(Got::Done);

pub fn corruption<T>(what: &str, got: &Outcome<T>) -> Shown {
    if let Outcome::Corruption(_) = got {
        return Ok(());
    }
    Err(format!("{what}: no Err(Corruption)"))
}

pub fn panics<T>(what: &str, got: &Outcome<T>, words: &str) -> Shown {
    match got {
        Outcome::Panic(message) if message.contains(words) => Ok(()),
        Outcome::Panic(message) => Err(format!("{what}: another panic: {message}")),
        _ => Err(format!("{what}: no panic")),
    }
}

/// Whether the table of the smallest input is sound, as the list says.
pub fn soundness(table: &[u8], s: Settings, sound: bool) -> Shown {
    must("sound", model::sound(table, s), sound)
}

/// The same call in the Rust built with overflow checks: whether it panics with an overflow.
pub fn overflows(folder: &Path, table: &[u8], s: Settings, call: &Call) -> Shown {
    use original_checked::{Outcome, Query, Table};
    let Outcome::Is(mut opened) = Table::open(folder, table, as_rust(s), s.counted) else {
        return Err("the checked Rust does not open the table".into());
    };
    let outcome = match call {
        Call::Insert { key, content, mark } => {
            let key = partial(s, key);
            opened.commit(|plan| plan.insert(key.as_ref(), content, *mark)).map(|_| ())
        },
        Call::Change { slot, step } => opened.commit(|plan| plan.change(*slot, *step)).map(|_| ()),
        Call::Read { slot, key, .. } => match if s.keyed { partial(s, key) } else { None } {
            Some(key) => opened.read(*slot, Query::Check(&key)).map(|_| ()),
            None => opened.read(*slot, Query::NoKey).map(|_| ()),
        },
        _ => unreachable!(),
    };
    match outcome {
        Outcome::Panic(message) if message.contains("overflow") => Ok(()),
        _ => Err("no overflow with checks on".into()),
    }
}

/// A table with one chain of two parts, slots 1 and 2, of zeros.
pub fn one_chain(s: Settings, mark: bool) -> Result<Vec<u8>, String> {
    let content = vec![0; 4_095 - s.prefix()];
    here(&[0; 12_288], s, &Call::Insert { key: vec![0; 32], content, mark }, Answer::At(1))
}
