//! The measures. Each round times a batch of the library's calls and the same batch of the Rust's, either first in turn, on tables
//! with the same bytes; what prepares and restores the tables is not timed. Times are nanoseconds a call.

use crate::tables::{self, Both, Case, Folders, Pages};
use original::{Entry, Planned, Table};
use std::{hint::black_box, time::Instant};

/// Each measure comes up this often, all others in between.
const PASSES: usize = 5;

/// Times of one thing, round by round.
#[derive(Default)]
pub struct Samples(Vec<f64>);

impl Samples {
    pub fn time(&mut self, calls: usize, batch: impl FnOnce()) {
        let start = Instant::now();
        batch();
        self.0.push(start.elapsed().as_nanos() as f64 / calls as f64);
    }

    pub fn median(&self) -> f64 {
        let mut sorted = self.0.clone();
        sorted.sort_by(f64::total_cmp);
        sorted[sorted.len() / 2]
    }
}

#[derive(Default)]
pub struct Times {
    pub ours: Samples,
    /// the Rust's plan and enactment, or its read
    pub rust: Samples,
    /// its plan alone
    pub plan: Samples,
    /// the log's share of plan and enactment
    pub log: Samples,
    pub memcpy: Samples,
    /// a read that is refused once its chain is walked
    pub walk: Samples,
}

pub struct Measure {
    pub call: &'static str,
    /// the content's bytes, or the free list's members where it grows
    pub bytes: usize,
    pub times: Times,
    rounds: usize,
    round: Box<dyn FnMut(&mut Times, bool)>,
}

impl Measure {
    pub fn new(call: &'static str, bytes: usize, rounds: usize, round: impl FnMut(&mut Times, bool) + 'static) -> Self {
        Measure { call, bytes, times: Times::default(), rounds, round: Box::new(round) }
    }
}

/// Runs all measures, in turn and several times over; `part` is how many of their rounds.
pub fn run(measures: &mut [Measure], part: f64) {
    for _ in 0..PASSES {
        for measure in measures.iter_mut() {
            let rounds = (measure.rounds as f64 * part).ceil() as usize;
            for i in 0..rounds.div_ceil(PASSES) {
                (measure.round)(&mut measure.times, i % 2 == 0);
            }
        }
    }
}

/// What makes up the measure of a writing call.
struct Writing<O, T, R> {
    call: &'static str,
    /// tables that each have the calls made on them in turn
    tables: usize,
    /// calls on each table between two restorations
    calls: usize,
    rounds: usize,
    ours: O,
    rust: T,
    restore: R,
}

impl<O, T, R> Writing<O, T, R>
where
    O: Fn(&Case, &mut [u8], usize) -> u64 + 'static,
    T: Fn(&Case, &Table, usize) -> (u64, Planned) + 'static,
    R: Fn(&Case, &mut Both) + 'static,
{
    fn measure(self, bytes: usize, case: Case, folders: &mut Folders) -> Measure {
        let mut tables: Vec<Both> = (0..self.tables).map(|_| folders.table(&case)).collect();
        let entries = self.agree(&case, &mut tables[0]);
        let Writing { call, calls, rounds, ours, rust, restore, .. } = self;
        let batch = tables.len() * calls;
        let round = move |times: &mut Times, ours_first: bool| {
            for side in [ours_first, !ours_first] {
                tables.iter_mut().for_each(|both| restore(&case, both));
                if side {
                    times.ours.time(batch, || {
                        for both in &mut tables {
                            for i in 0..calls {
                                black_box(ours(black_box(&case), &mut both.ours, i));
                            }
                        }
                    });
                } else {
                    times.rust.time(batch, || {
                        for both in &tables {
                            for i in 0..calls {
                                let (answer, planned) = rust(black_box(&case), &both.rust, i);
                                both.rust.enact(&planned).expect("an enactment");
                                black_box(answer);
                            }
                        }
                    });
                }
            }
            tables.iter_mut().for_each(|both| restore(&case, both));
            let mut planned = Vec::with_capacity(batch);
            times.plan.time(batch, || {
                for both in &tables {
                    for i in 0..calls {
                        planned.push(rust(black_box(&case), &both.rust, i));
                    }
                }
            });
            drop(planned);
            let mut again: Vec<Vec<Entry>> = vec![entries.clone(); batch];
            times.log.time(batch, || {
                while let Some(entries) = again.pop() {
                    tables[0].rust.log_alone(entries);
                }
            });
        };
        Measure::new(call, bytes, rounds, round)
    }

    /// The first calls, compared: answers and every byte. Answers the log's entries of the first.
    fn agree(&self, case: &Case, both: &mut Both) -> Vec<Entry> {
        let mut entries = Vec::new();
        for i in 0..self.calls.min(2) {
            let answer = (self.ours)(case, &mut both.ours, i);
            let (theirs, planned) = (self.rust)(case, &both.rust, i);
            both.rust.enact(&planned).expect("an enactment");
            assert!(answer == theirs, "{}: {answer} here, {theirs} in the Rust", self.call);
            both.agree();
            if i == 0 {
                entries = planned.entries(&both.rust);
            }
        }
        (self.restore)(case, both);
        entries
    }
}

/// All bytes as they were.
fn whole(case: &Case, both: &mut Both) {
    both.ours.copy_from_slice(&case.bytes);
    both.rust.restore(0, &case.bytes);
}

/// The header and the slot that an insert takes, as they were.
fn one_slot(case: &Case, both: &mut Both) {
    for at in [0, case.slot as usize * case.kind.size()] {
        let bytes = &case.bytes[at..at + case.kind.size()];
        both.ours[at..at + case.kind.size()].copy_from_slice(bytes);
        both.rust.restore(at, bytes);
    }
}

fn insert_ours(c: &Case, table: &mut [u8], _: usize) -> u64 {
    c.kind.insert(table, &c.key, &c.other)
}

fn insert_rust(c: &Case, table: &Table, _: usize) -> (u64, Planned) {
    table.plan(|plan| plan.insert(Some(&c.key), &c.other, false)).expect("a plan")
}

/// The content of the i-th replacement: another one each time.
fn turn(c: &Case, i: usize) -> &[u8] {
    if i.is_multiple_of(2) {
        &c.other
    } else {
        &c.content
    }
}

/// The step of the i-th change: up, then down again.
fn step(i: usize) -> i32 {
    if i.is_multiple_of(2) {
        1
    } else {
        -1
    }
}

/// The five calls at one size, and the fixed read where there is one.
fn calls(make: impl Fn() -> Case, bytes: usize, folders: &mut Folders) -> Vec<Measure> {
    let multipart = make().kind.multipart();
    let (tables, calls, rounds) = if multipart { (4, 8, 2_000) } else { (32, 64, 10_000) };
    let mut all = vec![
        Writing { call: "insert", tables, calls: 1, rounds, ours: insert_ours, rust: insert_rust, restore: whole }.measure(
            bytes,
            make(),
            folders,
        ),
        Writing {
            call: "replace",
            tables: 1,
            calls,
            rounds,
            ours: |c: &Case, table: &mut [u8], i| {
                c.kind.replace(table, c.slot, &c.key, turn(c, i));
                0
            },
            rust: |c: &Case, table: &Table, i| {
                let ((), planned) = table.plan(|plan| plan.replace(c.slot, Some(&c.key), turn(c, i), false)).expect("a plan");
                (0, planned)
            },
            restore: whole,
        }
        .measure(bytes, make(), folders),
        Writing {
            call: "remove",
            tables,
            calls: 1,
            rounds,
            ours: |c: &Case, table: &mut [u8], _| {
                c.kind.remove(table, c.slot);
                0
            },
            rust: |c: &Case, table: &Table, _| {
                let ((), planned) = table.plan(|plan| plan.remove(c.slot)).expect("a plan");
                (0, planned)
            },
            restore: whole,
        }
        .measure(bytes, make(), folders),
        Writing {
            call: "change",
            tables: 1,
            calls: 64,
            rounds,
            ours: |c: &Case, table: &mut [u8], i| (c.kind.change(table, c.slot, step(i)) > 0) as u64,
            rust: |c: &Case, table: &Table, i| {
                let (stored, planned) = table.plan(|plan| plan.change(c.slot, step(i))).expect("a plan");
                (stored as u64, planned)
            },
            restore: whole,
        }
        .measure(bytes, make(), folders),
        read(make(), bytes, calls, rounds, folders),
    ];
    if !multipart {
        all.push(read_fixed(make(), bytes, calls, rounds, folders));
    }
    all
}

/// The Rust's read, its answer dropped.
fn query(case: &Case, table: &Table) {
    black_box(table.query(case.slot, &case.key).expect("a read").expect("a record"));
}

fn agree_read(case: &Case, both: &Both, content: &[u8], mark: bool, count: u32) {
    let theirs = both.rust.query(case.slot, &case.key).expect("a read").expect("a record");
    assert!((theirs.0.as_slice(), theirs.1, theirs.2) == (content, mark, count), "the reads differ");
    assert!(content == case.content);
}

fn read(case: Case, bytes: usize, calls: usize, rounds: usize, folders: &mut Folders) -> Measure {
    let both = folders.table(&case);
    let source = Pages::new(&case.content);
    let mut output = Pages::new(&vec![0; bytes]);
    let got = case.kind.read(&both.ours, case.slot, &case.key, &mut output);
    agree_read(&case, &both, &output[..got.length as usize], got.mark, got.count);
    let round = move |times: &mut Times, ours_first: bool| {
        for side in [ours_first, !ours_first] {
            if side {
                times.ours.time(calls, || {
                    for _ in 0..calls {
                        let c = black_box(&case);
                        black_box(c.kind.read(&both.ours, c.slot, &c.key, black_box(&mut output)));
                    }
                });
            } else {
                times.rust.time(calls, || (0..calls).for_each(|_| query(black_box(&case), &both.rust)));
            }
        }
        times.memcpy.time(calls, || {
            for _ in 0..calls {
                let n = black_box(bytes);
                black_box(&mut output[..n]).copy_from_slice(black_box(&source[..n]));
            }
        });
    };
    Measure::new("read", bytes, rounds * 2, round)
}

fn read_fixed(case: Case, bytes: usize, calls: usize, rounds: usize, folders: &mut Folders) -> Measure {
    let both = folders.table(&case);
    let got = case.kind.read_fixed(&both.ours, case.slot, &case.key);
    let at = got.offset as usize;
    agree_read(&case, &both, &both.ours[at..at + got.length as usize], got.mark, got.count);
    let round = move |times: &mut Times, ours_first: bool| {
        for side in [ours_first, !ours_first] {
            if side {
                times.ours.time(calls, || {
                    for _ in 0..calls {
                        let c = black_box(&case);
                        black_box(c.kind.read_fixed(&both.ours, c.slot, &c.key));
                    }
                });
            } else {
                times.rust.time(calls, || (0..calls).for_each(|_| query(black_box(&case), &both.rust)));
            }
        }
    };
    Measure::new("fixed read", bytes, rounds * 2, round)
}

/// The calls at the three sizes.
pub fn sizes(folders: &mut Folders) -> Vec<Measure> {
    let mut all = calls(tables::fixed, 32, folders);
    for bytes in [20_480, 65_536] {
        all.extend(calls(|| tables::multipart(bytes), bytes, folders));
    }
    all
}

/// Insert as the free list grows, its members linked slot by slot or in any order.
pub fn growth(shuffled: bool, folders: &mut Folders) -> Vec<Measure> {
    let measure = |members: usize| {
        let tables = (4_000 / (members + 1)).clamp(1, 16);
        let rounds = (8_000_000 / (members + 1)).clamp(200, 4_000);
        Writing { call: "insert", tables, calls: 1, rounds, ours: insert_ours, rust: insert_rust, restore: one_slot }.measure(
            members,
            tables::grown(members, shuffled),
            folders,
        )
    };
    [0, 1, 3, 10, 30, 100, 300, 1_000, 3_000, 10_000, 30_000].into_iter().map(measure).collect()
}
