//! The calls, every member of their answers, and what the model answers to each.

use crate::model::{self, Shape};

#[derive(Clone, Debug)]
pub enum Call {
    Insert { key: Vec<u8>, content: Vec<u8>, mark: bool },
    Replace { slot: u64, key: Vec<u8>, content: Vec<u8>, mark: bool },
    Remove { slot: u64 },
    Change { slot: u64, step: i32 },
    Read { slot: u64, checked: bool, key: Vec<u8>, output: Vec<u8> },
    ReadFixed { slot: u64, checked: bool, key: Vec<u8> },
    FreeCount,
}

/// Every member of every answer, zero where a call has none of the kind.
#[derive(Clone, Copy, Debug, Default, PartialEq, Eq)]
pub struct Answer {
    pub number: u32,
    pub slot: u64,
    pub offset: u64,
    pub length: u64,
    pub visits: u64,
    pub count: u64,
    pub mark: bool,
    pub last_reference: bool,
}

impl Answer {
    /// A number and nothing else: a refusal, or an acceptance that hands nothing back.
    pub fn number_alone(number: u32) -> Answer {
        Answer { number, ..Answer::default() }
    }
}

impl Call {
    pub fn name(&self) -> &'static str {
        match self {
            Call::Insert { .. } => "insert",
            Call::Replace { .. } => "replace",
            Call::Remove { .. } => "remove",
            Call::Change { .. } => "change",
            Call::Read { .. } => "read",
            Call::ReadFixed { .. } => "read_fixed",
            Call::FreeCount => "free_count",
        }
    }

    pub fn output(&self) -> &[u8] {
        match self {
            Call::Read { output, .. } => output,
            _ => &[],
        }
    }

    /// Key and content, empty where a call has none.
    pub fn lent(&self) -> (&[u8], &[u8]) {
        match self {
            Call::Insert { key, content, .. } | Call::Replace { key, content, .. } => (key, content),
            Call::Read { key, .. } | Call::ReadFixed { key, .. } => (key, &[]),
            _ => (&[], &[]),
        }
    }

    /// What the model answers, having changed table and output.
    pub fn by_model(&self, table: &mut [u8], s: Shape, output: &mut [u8]) -> Answer {
        let found = |r: model::Read| Answer {
            length: r.content.len() as u64,
            visits: r.visits,
            count: u64::from(r.count),
            mark: r.mark,
            ..Answer::default()
        };
        let answer = match self {
            Call::Insert { key, content, mark } => {
                model::insert(table, s, key, content, *mark).map(|slot| Answer { slot, ..Answer::default() })
            }
            Call::Replace { slot, key, content, mark } => {
                model::replace(table, s, *slot, key, content, *mark).map(|()| Answer::default())
            }
            Call::Remove { slot } => model::remove(table, s, *slot).map(|()| Answer::default()),
            Call::Change { slot, step } => model::change_count(table, s, *slot, *step).map(|c| match c {
                model::Change::Count(n) => Answer { count: u64::from(n), ..Answer::default() },
                model::Change::LastReference => Answer { last_reference: true, ..Answer::default() },
            }),
            Call::Read { slot, checked, key, .. } => {
                model::read(table, s, *slot, checked.then_some(key.as_slice()), output).map(found)
            }
            Call::ReadFixed { slot, checked, key } => model::read_fixed(table, s, *slot, checked.then_some(key.as_slice()))
                .map(|(offset, r)| Answer { offset, ..found(r) }),
            Call::FreeCount => model::free_count(table, s).map(|count| Answer { count, ..Answer::default() }),
        };
        answer.unwrap_or_else(Answer::number_alone)
    }
}
