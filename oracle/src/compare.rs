//! The comparison, three ways: the model, the library, the Rust. After an accepted call the answers and every byte of the table must
//! be the same in all three; after a refused one the library must answer as the model, and the Rust must do, to the byte, what is foreseen.

use crate::{
    explain::{explain, Explained},
    foresee::{Foreseen, Stop},
    model::{self, Answer, Call, Reading, Settings},
    station,
};
use original::{Outcome, Query, Read, Table};
use std::{collections::BTreeMap, path::PathBuf};

/// What a call of the Rust's gives.
#[derive(Debug, Clone, PartialEq, Eq)]
pub enum Got {
    Slot(u64),
    Done,
    Changed(bool),
    Record(Option<Read>),
    Members(u64),
}

/// What was run, counted.
#[derive(Default, Clone)]
pub struct Tally {
    pub calls: u64,
    pub accepted: u64,
    pub refused: BTreeMap<u32, u64>,
    /// calls answered by the Rust
    pub rust: u64,
    /// refused calls by the entry of docs/DIFFERENCES.md that says what the Rust does; 0 is its table of answers
    pub entries: BTreeMap<u32, u64>,
    /// the same by what the Rust comes to
    pub outcomes: BTreeMap<&'static str, u64>,
    /// refused calls that the Rust was not asked
    pub not_asked: BTreeMap<u32, u64>,
}

/// Adds counts to counts.
fn join<K: Copy + Ord>(into: &mut BTreeMap<K, u64>, from: &BTreeMap<K, u64>) {
    for (k, n) in from {
        *into.entry(*k).or_default() += n;
    }
}

impl Tally {
    pub fn add(&mut self, other: &Tally) {
        self.calls += other.calls;
        self.accepted += other.accepted;
        self.rust += other.rust;
        join(&mut self.refused, &other.refused);
        join(&mut self.entries, &other.entries);
        join(&mut self.outcomes, &other.outcomes);
        join(&mut self.not_asked, &other.not_asked);
    }

    fn row<K: std::fmt::Display>(counts: &BTreeMap<K, u64>) -> String {
        counts.iter().map(|(k, n)| format!("{k}: {n}")).collect::<Vec<_>>().join(", ")
    }

    pub fn show(&self) {
        println!("  {} calls, {} accepted, {} answered by the Rust", self.calls, self.accepted, self.rust);
        println!("  refused, by number: {}", Tally::row(&self.refused));
        println!("  refused, by entry of docs/DIFFERENCES.md (0: its table of answers): {}", Tally::row(&self.entries));
        println!("  refused, by what the Rust comes to: {}", Tally::row(&self.outcomes));
        println!("  refused, the Rust not asked, by entry: {}", Tally::row(&self.not_asked));
    }
}

/// One table in three copies.
pub struct Bench {
    pub s: Settings,
    pub table: Vec<u8>,
    library: Vec<u8>,
    rust: Option<Table>,
    folder: PathBuf,
    reading: Reading,
    with_library: bool,
    pub tally: Tally,
}

pub fn as_rust(s: Settings) -> Option<u16> {
    if s.multipart {
        None
    } else {
        Some(s.size as u16)
    }
}

pub fn partial(s: Settings, key: &[u8]) -> Option<original::Key> {
    s.keyed.then(|| key.try_into().expect("a key of 32 bytes"))
}

/// A call of the Rust's, in a commit of its own.
pub fn rust_call(table: &mut Table, s: Settings, call: &Call) -> Outcome<Got> {
    match call {
        Call::Insert { key, content, mark } => {
            let key = partial(s, key);
            table.commit(|plan| plan.insert(key.as_ref(), content, *mark)).map(Got::Slot)
        },
        Call::Replace { slot, key, content, mark } => {
            let key = partial(s, key);
            table.commit(|plan| plan.replace(*slot, key.as_ref(), content, *mark)).map(|()| Got::Done)
        },
        Call::Remove { slot } => table.commit(|plan| plan.remove(*slot)).map(|()| Got::Done),
        Call::Change { slot, step } => table.commit(|plan| plan.change(*slot, *step)).map(Got::Changed),
        Call::Read { slot, checked, key, .. } | Call::ReadFixed { slot, checked, key } => {
            let key = if *checked { partial(s, key) } else { None };
            let query = match &key {
                Some(key) => Query::Check(key),
                None if s.keyed => Query::Fetch,
                None => Query::NoKey,
            };
            table.read(*slot, query).map(Got::Record)
        },
        Call::FreeCount => table.free_count().map(Got::Members),
    }
}

pub fn writes(call: &Call) -> bool {
    matches!(call, Call::Insert { .. } | Call::Replace { .. } | Call::Remove { .. } | Call::Change { .. })
}

/// Where two tables differ first, in words.
pub fn first_difference(a: &[u8], b: &[u8], s: Settings) -> String {
    match a.iter().zip(b).position(|(x, y)| x != y) {
        Some(i) => format!("byte {} of slot {}: {:02x} and {:02x}", i as u64 % s.size, i as u64 / s.size, a[i], b[i]),
        None => format!("{} and {} bytes", a.len(), b.len()),
    }
}

/// A call in few words: lengths for long contents.
pub fn brief(call: &Call) -> String {
    let bytes = |b: &[u8]| {
        if b.len() <= 8 {
            format!("{b:02x?}")
        } else {
            format!("{} bytes from {:02x?}", b.len(), &b[..4])
        }
    };
    match call {
        Call::Insert { key, content, mark } => format!("insert {} under {} mark {mark}", bytes(content), bytes(key)),
        Call::Replace { slot, key, content, mark } => {
            format!("replace {slot} by {} under {} mark {mark}", bytes(content), bytes(key))
        },
        Call::Read { slot, checked, key, room } => format!("read {slot} checked {checked} {} room {room}", bytes(key)),
        Call::ReadFixed { slot, checked, key } => format!("fixed read {slot} checked {checked} {}", bytes(key)),
        other => format!("{other:?}"),
    }
}

impl Bench {
    pub fn new(folder: PathBuf, s: Settings, table: Vec<u8>, reading: Reading) -> Self {
        let with_library = station::PRESENT && reading == Reading::Right;
        let library = table.clone();
        Bench { s, table, library, rust: None, folder, reading, with_library, tally: Tally::default() }
    }

    /// Another table under the same settings.
    pub fn set(&mut self, table: &[u8]) {
        self.table.clear();
        self.table.extend_from_slice(table);
        self.library.clear();
        self.library.extend_from_slice(table);
        self.rust = None;
    }

    fn open(&mut self) -> Outcome<()> {
        if self.rust.is_some() {
            return Outcome::Is(());
        }
        match Table::open(&self.folder, &self.table, as_rust(self.s), self.s.counted) {
            Outcome::Is(table) => {
                self.rust = Some(table);
                Outcome::Is(())
            },
            other => other.map(|_| ()),
        }
    }

    /// One call on all three. The model's answer, or what differs.
    pub fn step(&mut self, call: &Call) -> Result<Answer, String> {
        // The Rust has to be open on the table as it was.
        let opened = if original::PRESENT && model::free_list(&self.table, self.s).err().is_none_or(|n| n == 11) {
            self.open()
        } else {
            Outcome::Error("not opened".into())
        };
        let (answer, output) = model::call(&mut self.table, self.s, call, self.reading);
        self.tally.calls += 1;
        match &answer {
            Answer::Refused(number) => *self.tally.refused.entry(*number).or_default() += 1,
            _ => self.tally.accepted += 1,
        }
        if self.with_library {
            let (ours, our_output) = station::call(&mut self.library, self.s, call);
            if ours != answer {
                return Err(format!("{}: the library answers {ours:?}, the model {answer:?}", brief(call)));
            }
            if our_output != output {
                return Err(format!("{}: the library's output is not the model's", brief(call)));
            }
            if self.library != self.table {
                let at = first_difference(&self.library, &self.table, self.s);
                return Err(format!("{}: the library's table is not the model's: {at}", brief(call)));
            }
        }
        if original::PRESENT {
            let judged = match &answer {
                Answer::Refused(number) => self.refused(call, *number),
                accepted => self.accepted(call, accepted, &output, opened),
            };
            judged.map_err(|m| format!("{}: {m}", brief(call)))?;
        }
        Ok(answer)
    }

    fn accepted(&mut self, call: &Call, answer: &Answer, output: &[u8], opened: Outcome<()>) -> Result<(), String> {
        let Outcome::Is(()) = opened else { return Err(format!("accepted, and the Rust does not open the table: {opened:?}")) };
        let rust = self.rust.as_mut().unwrap();
        let got = rust_call(rust, self.s, call);
        self.tally.rust += 1;
        let same = match (answer, &got) {
            (Answer::At(slot), Outcome::Is(Got::Slot(theirs))) => slot == theirs,
            (Answer::Accepted, Outcome::Is(Got::Done)) => true,
            (Answer::Count(_), Outcome::Is(Got::Changed(true))) => true,
            (Answer::LastReference, Outcome::Is(Got::Changed(false))) => true,
            (Answer::Found(r), Outcome::Is(Got::Record(Some(theirs)))) => {
                let read = Read { content: output[..r.length as usize].to_vec(), mark: r.mark, count: r.count, looks: r.visits };
                read == *theirs
            },
            (Answer::Part(offset, r), Outcome::Is(Got::Record(Some(theirs)))) => {
                let at = *offset as usize;
                let content = self.table[at..at + r.length as usize].to_vec();
                Read { content, mark: r.mark, count: r.count, looks: r.visits } == *theirs
            },
            (Answer::Members(n), Outcome::Is(Got::Members(theirs))) => n == theirs,
            _ => false,
        };
        if !same {
            let mut told = format!("{got:?}");
            told.truncate(200);
            return Err(format!("the answer is {answer:?}, the Rust's {told}"));
        }
        if rust.bytes() != self.table {
            return Err(format!("the Rust's table differs: {}", first_difference(&self.table, rust.bytes(), self.s)));
        }
        if writes(call) && rust.file_len() != self.table.len() as u64 {
            return Err("accepted, and the Rust's file has grown".into());
        }
        Ok(())
    }

    fn refused(&mut self, call: &Call, number: u32) -> Result<(), String> {
        let (entry, seen) = match explain(&self.table, self.s, call, number) {
            Explained::NotAsked(entry) => {
                *self.tally.not_asked.entry(entry).or_default() += 1;
                return Ok(());
            },
            Explained::OnNoList(seen) => return Err(format!("refused with {number}, and no entry says what is foreseen: {:?}", seen.got)),
            Explained::Does(entry, seen) => (entry, seen),
        };
        *self.tally.entries.entry(entry).or_default() += 1;
        *self.tally.outcomes.entry(seen.word()).or_default() += 1;
        self.tally.rust += 1;
        let judged = self.as_foreseen(call, entry, seen);
        if writes(call) || judged.is_err() {
            self.rust = None;
        }
        judged.map_err(|m| format!("refused with {number}, entry {entry}: {m}"))
    }

    /// A refused call of the Rust's: its answer, its file, and after a failure what the next commit stores.
    fn as_foreseen(&mut self, call: &Call, entry: u32, seen: Foreseen) -> Result<(), String> {
        let opened = self.open();
        let (Outcome::Is(()), Some(rust)) = (&opened, &mut self.rust) else { return seen.judge(&opened.map(|()| unreachable!())) };
        seen.judge(&rust_call(rust, self.s, call))?;
        if !writes(call) {
            return if rust.bytes() == self.table { Ok(()) } else { Err("a read of the Rust's changed its table".into()) };
        }
        if !seen.same_file(&rust.file()) {
            return Err(format!("the Rust's file is not as foreseen: {}", first_difference(&seen.file, &rust.file(), self.s)));
        }
        if let (3, Ok(Got::Slot(slot))) = (entry, &seen.got) {
            let again = rust.read(*slot, if self.s.keyed { Query::Fetch } else { Query::NoKey });
            return if again == Outcome::Is(None) { Ok(()) } else { Err("the short content can be read".into()) };
        }
        if let Err(Stop::Corruption(_)) = seen.got {
            let settled = seen.settled();
            if rust.commit(|_| Ok(())) != Outcome::Is(()) || !settled.same_file(&rust.file()) {
                return Err("an empty commit after the failed call does not store what is foreseen".into());
            }
        }
        Ok(())
    }
}
