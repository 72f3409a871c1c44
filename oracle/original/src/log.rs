//! Stand-in for log.rs: what one commit has written, one entry a slot, the last write of a slot counting. A query copies as much of
//! an entry as both sides hold. Entries are read back, to be enacted, in the order of their slots.

use crate::{error::Result, mmap::look, parking_lot::RwLock, table::TableId};
use std::collections::BTreeMap;

/// The entries of one table: from slot to record number and bytes.
#[derive(Debug, Default, Clone)]
pub struct Changes {
    pub map: BTreeMap<u64, (u64, Vec<u8>)>,
}

/// What commits before this one have left in the log. Each commit is enacted before the next, so there is nothing.
#[derive(Debug, Default)]
pub struct LogOverlays;

impl LogOverlays {
    pub fn with_columns(_columns: usize) -> Self {
        LogOverlays
    }
}

pub trait LogQuery {
    type ValueRef<'a>: std::ops::Deref<Target = [u8]>
    where
        Self: 'a;

    fn value_ref<'a>(&'a self, table: TableId, index: u64) -> Option<Self::ValueRef<'a>>;

    fn value(&self, table: TableId, index: u64, dest: &mut [u8]) -> bool;
}

#[derive(Debug)]
pub struct LogWriter<'a> {
    _overlays: &'a RwLock<LogOverlays>,
    record: u64,
    values: Vec<(TableId, Changes)>,
}

impl<'a> LogWriter<'a> {
    pub fn new(overlays: &'a RwLock<LogOverlays>, record: u64) -> Self {
        LogWriter { _overlays: overlays, record, values: Vec::new() }
    }

    fn entry(&self, table: TableId, index: u64) -> Option<&[u8]> {
        let (_, changes) = self.values.iter().find(|(id, _)| *id == table)?;
        let (_, bytes) = changes.map.get(&index)?;
        look();
        Some(bytes)
    }

    pub fn value(&self, table: TableId, index: u64, dest: &mut [u8]) -> bool {
        match self.entry(table, index) {
            Some(bytes) => {
                let len = dest.len().min(bytes.len());
                dest[..len].copy_from_slice(&bytes[..len]);
                true
            },
            None => false,
        }
    }

    pub fn insert_value(&mut self, table: TableId, index: u64, bytes: Vec<u8>) {
        if !self.values.iter().any(|(id, _)| *id == table) {
            self.values.push((table, Changes::default()));
        }
        let (_, changes) = self.values.iter_mut().find(|(id, _)| *id == table).unwrap();
        changes.map.insert(index, (self.record, bytes));
    }

    pub fn drain(self) -> LogChange {
        LogChange { values: self.values }
    }
}

impl LogQuery for LogWriter<'_> {
    type ValueRef<'b>
        = &'b [u8]
    where
        Self: 'b;

    fn value_ref(&self, table: TableId, index: u64) -> Option<&[u8]> {
        self.entry(table, index)
    }

    fn value(&self, table: TableId, index: u64, dest: &mut [u8]) -> bool {
        LogWriter::value(self, table, index, dest)
    }
}

#[derive(Debug)]
pub struct LogChange {
    values: Vec<(TableId, Changes)>,
}

impl LogChange {
    pub fn local_values_changes(&self, table: TableId) -> Option<&Changes> {
        self.values.iter().find(|(id, _)| *id == table).map(|(_, changes)| changes)
    }
}

/// One entry, read from its front.
#[derive(Debug)]
pub struct LogReader<'a> {
    entry: &'a [u8],
}

impl<'a> LogReader<'a> {
    pub fn new(entry: &'a [u8]) -> Self {
        LogReader { entry }
    }

    pub fn read(&mut self, dest: &mut [u8]) -> Result<()> {
        if dest.len() > self.entry.len() {
            return Err(crate::error::Error::Corruption("a log entry shorter than what it says".into()));
        }
        let (front, rest) = self.entry.split_at(dest.len());
        dest.copy_from_slice(front);
        self.entry = rest;
        Ok(())
    }
}
