//! The driver: a table of the original's over a file, one commit a call. A commit plans its calls, completes the plan, enacts every
//! entry of the log and reads the header again.

use crate::{
    error::{Error, Result},
    log::{LogChange, LogOverlays, LogReader, LogWriter},
    mmap::{self, Mmap, Stopped},
    options::ColumnOptions,
    parking_lot::RwLock,
    table::{
        key::{TableKey, TableKeyQuery},
        TableId, ValueTable,
    },
    Key, Outcome, Read,
};
use std::{
    fs,
    os::unix::fs::FileExt,
    panic::{catch_unwind, AssertUnwindSafe},
    path::{Path, PathBuf},
    sync::Arc,
};

/// The first version whose rules 01 takes.
const DB_VERSION: u32 = 9;
/// More looks than any walk over the tables compared needs.
const LOOKS: u64 = 20_000;

/// How a read treats the key.
pub enum Query<'a> {
    /// keyed table, key checked
    Check(&'a Key),
    /// keyed table, no key checked
    Fetch,
    /// unkeyed table
    NoKey,
}

pub struct Table {
    table: ValueTable,
    overlays: RwLock<LogOverlays>,
    path: PathBuf,
    view: Option<Mmap>,
    len: usize,
}

/// The calls of one commit.
pub struct Plan<'a> {
    table: &'a ValueTable,
    log: LogWriter<'a>,
}

fn run<T>(call: impl FnOnce() -> Result<T>) -> Outcome<T> {
    mmap::allow(LOOKS);
    match catch_unwind(AssertUnwindSafe(call)) {
        Ok(Ok(answer)) => Outcome::Is(answer),
        Ok(Err(Error::Corruption(message))) => Outcome::Corruption(message),
        Ok(Err(error)) => Outcome::Error(error.to_string()),
        Err(payload) => match payload.downcast_ref::<Stopped>() {
            Some(Stopped::PastFile) => Outcome::PastFile,
            Some(Stopped::Endless) => Outcome::Endless,
            Some(Stopped::TooLong) => Outcome::TooLong,
            None => Outcome::Panic(
                payload
                    .downcast_ref::<String>()
                    .cloned()
                    .or_else(|| payload.downcast_ref::<&str>().map(|m| m.to_string()))
                    .unwrap_or_default(),
            ),
        },
    }
}

fn table_key(key: Option<&Key>) -> TableKey {
    key.map_or(TableKey::NoHash, |key| TableKey::Partial(*key))
}

/// Makes the file hold these bytes and no more, in place: a file cut to nothing and written anew is slow on some systems.
fn put(path: &Path, bytes: &[u8]) -> std::io::Result<()> {
    let file = fs::OpenOptions::new().create(true).truncate(false).write(true).open(path)?;
    file.set_len(bytes.len() as u64)?;
    file.write_all_at(bytes, 0)
}

impl Table {
    /// A table over a file with these bytes in the folder `dir`; `size` is the entry size, none for a multipart table.
    pub fn open(dir: &Path, bytes: &[u8], size: Option<u16>, counted: bool) -> Outcome<Table> {
        let id = TableId::new(0, 0);
        let path = dir.join(id.file_name());
        put(&path, bytes).expect("the table's file");
        let opened = Self::open_file(dir, size, counted);
        opened.map(|mut table| {
            table.len = bytes.len();
            table.see();
            table
        })
    }

    /// The same where no file is there.
    pub fn open_missing(dir: &Path, size: Option<u16>, counted: bool) -> Outcome<Table> {
        let _ = fs::remove_file(dir.join(TableId::new(0, 0).file_name()));
        Self::open_file(dir, size, counted)
    }

    fn open_file(dir: &Path, size: Option<u16>, counted: bool) -> Outcome<Table> {
        let id = TableId::new(0, 0);
        let options = ColumnOptions { multitree: false, ref_counted: counted };
        run(|| {
            let mut table = ValueTable::open(Arc::new(dir.to_path_buf()), id, size, &options, DB_VERSION)?;
            table.init_table_data()?;
            Ok(Table { table, overlays: RwLock::new(LogOverlays::with_columns(1)), path: dir.join(id.file_name()), view: None, len: 0 })
        })
    }

    /// Maps the file, to see its bytes.
    fn see(&mut self) {
        let file = fs::OpenOptions::new().read(true).write(true).open(&self.path).expect("the table's file");
        self.view = Some(Mmap::map_growable(&file, 0).expect("a map of the table's file"));
    }

    /// The table's bytes: the file's front, as long as the table was when it was opened.
    pub fn bytes(&self) -> &[u8] {
        self.view.as_ref().map_or(&[], |view| &view.all()[..self.len])
    }

    /// The whole file as it is now.
    pub fn file(&self) -> Vec<u8> {
        fs::read(&self.path).expect("the table's file")
    }

    pub fn file_len(&self) -> u64 {
        fs::metadata(&self.path).map_or(0, |found| found.len())
    }

    /// Plans calls and commits them together.
    pub fn commit<T>(&mut self, calls: impl FnOnce(&mut Plan) -> Result<T>) -> Outcome<T> {
        let Table { table, overlays, .. } = self;
        run(|| {
            let mut plan = Plan { table, log: LogWriter::new(overlays, 0) };
            let answer = calls(&mut plan)?;
            let mut log = plan.log;
            table.complete_plan(&mut log)?;
            let changes = log.drain();
            if let Some(changes) = changes.local_values_changes(table.id) {
                for (slot, (_, entry)) in &changes.map {
                    table.validate_plan(*slot, &mut LogReader::new(entry))?;
                    table.enact_plan(*slot, &mut LogReader::new(entry))?;
                }
            }
            table.refresh_metadata()?;
            Ok(answer)
        })
    }

    pub fn read(&self, slot: u64, query: Query) -> Outcome<Option<Read>> {
        let log = LogWriter::new(&self.overlays, 0);
        let mut partial = Default::default();
        let key;
        let mut query = match query {
            Query::Check(checked) => {
                key = TableKey::Partial(*checked);
                TableKeyQuery::Check(&key)
            },
            Query::Fetch => TableKeyQuery::Fetch(Some(&mut partial)),
            Query::NoKey => {
                key = TableKey::NoHash;
                TableKeyQuery::Check(&key)
            },
        };
        let found = run(|| self.table.query(&mut query, slot, &log));
        let looks = mmap::looks();
        found.map(|record| record.map(|(content, mark, count)| Read { content, mark, count, looks }))
    }

    pub fn size(&self, slot: u64, query: Query) -> Outcome<Option<(u32, bool)>> {
        let log = LogWriter::new(&self.overlays, 0);
        let key = match query {
            Query::Check(checked) => TableKey::Partial(*checked),
            _ => TableKey::NoHash,
        };
        run(|| self.table.size(&key, slot, &log))
    }

    pub fn free_count(&self) -> Outcome<u64> {
        run(|| self.table.check_free_refs())
    }
}

impl Plan<'_> {
    pub fn insert(&mut self, key: Option<&Key>, content: &[u8], mark: bool) -> Result<u64> {
        self.table.write_insert_plan(&table_key(key), content, &mut self.log, mark)
    }

    pub fn replace(&mut self, slot: u64, key: Option<&Key>, content: &[u8], mark: bool) -> Result<()> {
        self.table.write_replace_plan(slot, &table_key(key), content, &mut self.log, mark)
    }

    pub fn remove(&mut self, slot: u64) -> Result<()> {
        self.table.write_remove_plan(slot, &mut self.log)
    }

    pub fn change(&mut self, slot: u64, step: i32) -> Result<bool> {
        self.table.change_ref(slot, step, &mut self.log)
    }

    /// The free count before the commit.
    pub fn free_count(&mut self) -> Result<u64> {
        self.table.check_free_refs()
    }
}

/// A plan that is completed: what the log holds of it.
pub struct Planned(LogChange);

/// One entry of the log: a slot, and what is written over its front.
pub type Entry = (u64, Vec<u8>);

impl Planned {
    /// A copy of the entries of the table's log.
    pub fn entries(&self, table: &Table) -> Vec<Entry> {
        let changes = self.0.local_values_changes(table.table.id);
        changes.iter().flat_map(|changes| &changes.map).map(|(slot, (_, bytes))| (*slot, bytes.clone())).collect()
    }
}

/// What the benchmark times: the original's own steps of a commit, with nothing around them. The entries are not validated, since a
/// running database validates none, and the header is not read again.
impl Table {
    /// Lifts the limit on looks, which is not meant for many calls in a row.
    pub fn unlimited() {
        mmap::allow(u64::MAX);
    }

    /// Plans calls and completes the plan.
    pub fn plan<T>(&self, calls: impl FnOnce(&mut Plan) -> Result<T>) -> Result<(T, Planned)> {
        let mut plan = Plan { table: &self.table, log: LogWriter::new(&self.overlays, 0) };
        let answer = calls(&mut plan)?;
        let mut log = plan.log;
        self.table.complete_plan(&mut log)?;
        Ok((answer, Planned(log.drain())))
    }

    /// Enacts every entry of a plan.
    pub fn enact(&self, planned: &Planned) -> Result<()> {
        if let Some(changes) = planned.0.local_values_changes(self.table.id) {
            for (slot, (_, entry)) in &changes.map {
                self.table.enact_plan(*slot, &mut LogReader::new(entry))?;
            }
        }
        Ok(())
    }

    /// The record in a slot, its key checked: content, compressed mark, count.
    pub fn query(&self, slot: u64, key: &Key) -> Result<Option<(Vec<u8>, bool, u32)>> {
        let log = LogWriter::new(&self.overlays, 0);
        self.table.query(&mut TableKeyQuery::Check(&TableKey::Partial(*key)), slot, &log)
    }

    /// Puts bytes into the file at a place and reads the header again.
    pub fn restore(&mut self, at: usize, bytes: &[u8]) {
        // The table's own slices of the file live no longer than its calls.
        unsafe { self.view.as_ref().expect("an open table").write_at(bytes, at) };
        self.table.refresh_metadata().expect("a header");
    }

    /// The log's own share of a commit, which is the stand-in's: each entry asked for and put into a new log, and the log dropped.
    pub fn log_alone(&self, entries: Vec<Entry>) {
        let mut log = LogWriter::new(&self.overlays, 0);
        for (slot, bytes) in entries {
            log.value(self.table.id, slot, &mut [0; 18]);
            log.insert_value(self.table.id, slot, bytes);
        }
        drop(log.drain());
    }
}
