//! The oracle: the library against the original Rust, with a plain model of document 01 beside both.
//!
//! With no argument every suite runs, as in the gate. With arguments: a suite's name, then how many calls, then a seed. `record`
//! writes recorded/calls.txt and recorded/answers.txt anew. The last line is 'N passed, K failed'.

mod compare;
mod explain;
mod foresee;
#[cfg(station)]
mod functions;
mod make;
mod model;
mod random;
mod station;
mod suites;

use compare::Tally;
use model::Reading;
use std::{
    panic::{catch_unwind, AssertUnwindSafe},
    path::PathBuf,
    time::Instant,
};
use suites::{batched, differences, figures, planted, recorded, sequences};

/// Calls of each random suite in the gate, over all settings.
const RANDOM: u64 = 100_000;
const DAMAGED: u64 = 60_000;
const BATCHED: u64 = 30_000;

/// A case: what it ran, or the first difference.
type Case = Box<dyn FnOnce() -> Result<Tally, String>>;

struct Run {
    folder: PathBuf,
    calls: Option<u64>,
    seed: u64,
    passed: u64,
    failed: u64,
    total: Tally,
}

impl Run {
    fn case(&mut self, name: &str, result: Result<(), String>) {
        match result {
            Ok(()) => self.passed += 1,
            Err(message) => {
                self.failed += 1;
                println!("FAILED {name}: {message}");
            },
        }
    }

    /// Cases that are counted together; each is one case of the last line.
    fn suite(&mut self, name: &str, cases: Vec<(String, Case)>) {
        let start = Instant::now();
        let mut tally = Tally::default();
        let n = cases.len();
        for (case, run) in cases {
            let result = catch_unwind(AssertUnwindSafe(run)).unwrap_or_else(|_| Err(format!("panic: {}", last_panic())));
            let result = result.map(|done| tally.add(&done));
            self.case(&format!("{name}, {case}"), result);
        }
        println!("{name}: {n} cases, {:.1} s", start.elapsed().as_secs_f64());
        tally.show();
        self.total.add(&tally);
    }

    fn over_settings(&mut self, name: &str, run: impl Fn(PathBuf, model::Settings, u64) -> Result<Tally, String> + Clone + 'static) {
        let cases = make::settings()
            .into_iter()
            .enumerate()
            .map(|(i, s)| {
                let (folder, run, seed) = (self.folder.clone(), run.clone(), self.seed + i as u64);
                let boxed: Case = Box::new(move || run(folder, s, seed));
                (make::name(s), boxed)
            })
            .collect();
        self.suite(name, cases);
    }

    fn each(&self, default: u64) -> u64 {
        self.calls.unwrap_or(default).div_ceil(make::settings().len() as u64)
    }

    fn figures(&mut self) {
        let cases = figures::FIGURES
            .iter()
            .map(|(name, figure)| {
                let folder = self.folder.clone();
                let boxed: Case = Box::new(move || {
                    let mut tally = Tally::default();
                    figure(&folder, &mut tally).map(|()| tally)
                });
                (name.to_string(), boxed)
            })
            .collect();
        self.suite("figures", cases);
    }

    fn random(&mut self) {
        let calls = self.each(RANDOM);
        self.over_settings("random", move |folder, s, seed| sequences::random(folder, s, seed, calls, Reading::Right));
    }

    fn damaged(&mut self) {
        let calls = self.each(DAMAGED);
        self.over_settings("damaged", move |folder, s, seed| sequences::damaged(folder, s, seed, calls));
        let (folder, seed) = (self.folder.clone(), self.seed);
        self.suite("settings and buffers", vec![("refused".into(), Box::new(move || sequences::refused_settings(folder, seed)))]);
    }

    fn batched(&mut self) {
        let calls = self.each(BATCHED);
        self.over_settings("batched", move |folder, s, seed| batched::batched(folder, s, seed, calls));
    }

    fn differences(&mut self) {
        for (entry, show) in differences::ENTRIES {
            let result = catch_unwind(|| show(&self.folder)).unwrap_or_else(|_| Err(format!("panic: {}", last_panic())));
            self.case(&format!("difference {entry}"), result);
        }
        println!("differences: {} entries of docs/DIFFERENCES.md", differences::ENTRIES.len());
    }

    fn planted(&mut self) {
        for (reading, words) in planted::READINGS {
            let found = planted::caught(self.folder.clone(), reading);
            println!("planted: {words}");
            for (suite, what) in &found {
                match what {
                    Some(what) => println!("  caught by {suite}: {}", what.lines().next().unwrap_or_default()),
                    None => println!("  not met by {suite}"),
                }
            }
            let result = if found.iter().any(|(_, what)| what.is_some()) { Ok(()) } else { Err("not caught".into()) };
            self.case(&format!("planted: {words}"), result);
        }
    }

    fn recorded(&mut self) {
        for (words, text) in [("recorded answers, replayed", recorded::ANSWERS), ("figures of the program, replayed", recorded::FIGURES)] {
            let replayed = recorded::replay(text);
            println!("{words}: {} calls", replayed.as_ref().unwrap_or(&0));
            self.case(words, replayed.map(|_| ()));
        }
        if original::PRESENT {
            let same = recorded::record(self.folder.clone()).and_then(|(calls, answers)| {
                match calls == recorded::CALLS && answers == recorded::ANSWERS {
                    true => Ok(()),
                    false => Err("recorded/calls.txt and recorded/answers.txt are not what `record` writes today".into()),
                }
            });
            self.case("recorded answers, recorded anew", same);
        }
    }

    /// The suite of this name, if what it compares is here.
    fn named(&mut self, name: &str) {
        let two = original::PRESENT || station::PRESENT;
        match name {
            "figures" => self.figures(),
            "exhaustive" if two => self.over_settings(name, |folder, s, _| sequences::exhaustive(folder, s, Reading::Right)),
            "boundaries" if two => self.over_settings(name, |folder, s, _| sequences::boundaries(folder, s, Reading::Right)),
            "steps" if two => self.over_settings(name, |folder, s, _| sequences::steps(folder, s, Reading::Right)),
            "random" if two => self.random(),
            "damaged" if two => self.damaged(),
            "batched" if original::PRESENT => self.batched(),
            "differences" if original::PRESENT => self.differences(),
            "planted" if original::PRESENT => self.planted(),
            "recorded" => self.recorded(),
            _ => (),
        }
    }
}

/// Every suite, in the order in which they run.
const SUITES: [&str; 10] =
    ["figures", "exhaustive", "boundaries", "steps", "random", "damaged", "batched", "differences", "planted", "recorded"];

thread_local! {
    static PANIC: std::cell::RefCell<String> = const { std::cell::RefCell::new(String::new()) };
}

fn last_panic() -> String {
    PANIC.with(|last| last.borrow().clone())
}

/// Writes recorded/calls.txt and recorded/answers.txt anew; nothing is written unless all agree.
fn record(folder: PathBuf) -> Result<(), String> {
    if !original::PRESENT {
        return Err("answers are recorded with the Rust at hand".into());
    }
    let (calls, answers) = recorded::record(folder)?;
    let recorded = PathBuf::from(concat!(env!("CARGO_MANIFEST_DIR"), "/recorded"));
    std::fs::write(recorded.join("calls.txt"), calls).map_err(|e| e.to_string())?;
    std::fs::write(recorded.join("answers.txt"), answers).map_err(|e| e.to_string())
}

fn say_what_is_absent() {
    if !original::PRESENT {
        println!("skipped: the Rust; its files are not in ../shared/docs/src, and PYLTARKA_RUST names no other folder");
    }
    if !station::PRESENT {
        println!("skipped: the library; target/staticlib/libstation.a was not there when the oracle was built");
    }
    if !original::PRESENT && !station::PRESENT {
        println!("skipped: sequences; only the model is here, and nothing to compare it with");
    }
}

/// The suites that are asked for, all where none is named; how many cases failed.
fn run_suites(only: Option<String>, calls: Option<u64>, seed: u64, folder: PathBuf) -> u64 {
    let mut run = Run { folder, calls, seed, passed: 0, failed: 0, total: Tally::default() };
    say_what_is_absent();
    println!("seed {}", run.seed);
    match only {
        None => SUITES.iter().for_each(|name| run.named(name)),
        Some(name) if SUITES.contains(&name.as_str()) => run.named(&name),
        Some(name) => run.case(&name, Err("there is no suite of this name".into())),
    }
    println!("all suites: {} calls, {} answered by the Rust", run.total.calls, run.total.rust);
    println!("{} passed, {} failed", run.passed, run.failed);
    run.failed
}

fn main() {
    // The Rust's panics are answers here: none is printed unless it ends a case.
    std::panic::set_hook(Box::new(|info| PANIC.with(|last| *last.borrow_mut() = info.to_string())));
    let mut arguments = std::env::args().skip(1);
    let only = arguments.next();
    let folder = std::env::temp_dir().join(format!("pyltarka-oracle-{}", std::process::id()));
    std::fs::create_dir_all(&folder).expect("a folder for the Rust's files");
    let status = if only.as_deref() == Some("record") {
        let done = record(folder.clone());
        if let Err(message) = &done {
            eprintln!("{message}");
        }
        done.is_err()
    } else {
        let calls = arguments.next().map(|n| n.parse().expect("a number of calls"));
        let seed = arguments.next().map_or(1, |n| n.parse().expect("a seed"));
        run_suites(only, calls, seed, folder.clone()) > 0
    };
    let _ = std::fs::remove_dir_all(&folder);
    std::process::exit(status as i32);
}
