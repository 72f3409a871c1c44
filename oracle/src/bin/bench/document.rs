//! What was measured, in words: the tables that are printed and written into docs/SPEED.md, and which targets are met.

use crate::measure::Measure;
use std::{fmt::Write, fs, path::Path, process::Command};

const START: &str = "<!-- measured: written by ./bench -->";
const END: &str = "<!-- end of what was measured -->";

/// A read of so many bytes may take so many times memcpy.
pub const COPY_TARGETS: [(usize, f64); 2] = [(20_480, 1.6), (65_536, 1.3)];

/// With a comma at each thousand.
pub fn grouped(n: usize) -> String {
    let digits = n.to_string();
    let mut text = String::new();
    for (i, digit) in digits.chars().enumerate() {
        if i > 0 && (digits.len() - i) % 3 == 0 {
            text.push(',');
        }
        text.push(digit);
    }
    text
}

/// Nanoseconds.
pub fn nanoseconds(x: f64) -> String {
    if x < 99.95 {
        format!("{x:.1}")
    } else {
        grouped(x.round() as usize)
    }
}

pub fn ratio(x: f64) -> String {
    if x < 0.0995 {
        format!("{x:.3}")
    } else {
        format!("{x:.2}")
    }
}

pub fn is_read(measure: &Measure) -> bool {
    measure.call.ends_with("read")
}

/// The library's time over the Rust's.
pub fn to_rust(measure: &Measure) -> f64 {
    measure.times.ours.median() / measure.times.rust.median()
}

/// The same with the log's share taken off the Rust's.
pub fn to_rust_without_log(measure: &Measure) -> f64 {
    measure.times.ours.median() / (measure.times.rust.median() - measure.times.log.median())
}

pub fn to_memcpy(measure: &Measure) -> f64 {
    measure.times.ours.median() / measure.times.memcpy.median()
}

/// What a program says of itself on its first line, or nothing.
fn version(program: &str, argument: &str) -> Option<String> {
    let said = Command::new(program).arg(argument).output().ok()?;
    let line = String::from_utf8_lossy(&said.stdout).lines().next()?.trim().to_string();
    said.status.success().then_some(line)
}

/// The machine and how busy it was.
pub fn machine() -> String {
    let cpu = fs::read_to_string("/proc/cpuinfo").unwrap_or_default();
    let model = cpu
        .lines()
        .find_map(|line| line.strip_prefix("model name"))
        .map_or("a CPU that is not named", |rest| rest.trim_matches([' ', '\t', ':']));
    let cores = std::thread::available_parallelism().map_or(1, |n| n.get());
    let load = fs::read_to_string("/proc/loadavg").unwrap_or_default();
    let load = load.split(' ').next().unwrap_or("unknown");
    let mut text = format!("{model}, {cores} cores; load average over the minute before the run {load}");
    for said in [version("rustc", "--version"), version("rt", "version")].into_iter().flatten() {
        write!(text, "; {said}").unwrap();
    }
    text + "."
}

fn writing(text: &mut String, measures: &[Measure]) {
    *text += "Writing calls, ns a call. The ratios are the library's time over the Rust's; the target is at most 1.\n\n";
    *text +=
        "| Call | Content | Library | Rust, plan and enactment | its plan alone | the log's share | Ratio | without the log's share |\n";
    *text += "|---|---:|---:|---:|---:|---:|---:|---:|\n";
    for m in measures.iter().filter(|m| !is_read(m)) {
        let t = &m.times;
        let cells = [&t.ours, &t.rust, &t.plan, &t.log].map(|samples| nanoseconds(samples.median())).join(" | ");
        let ratios = format!("{} | {}", ratio(to_rust(m)), ratio(to_rust_without_log(m)));
        writeln!(text, "| {} | {} | {cells} | {ratios} |", m.call, grouped(m.bytes)).unwrap();
    }
}

fn reading(text: &mut String, measures: &[Measure]) {
    *text +=
        "\nReads, ns a call. The target is at most 1 over the Rust, and over memcpy at most 1.6 at 20,480 bytes and 1.3 at 65,536.\n\n";
    *text += "| Call | Content | Library | Rust | memcpy | Library / Rust | Library / memcpy | Rust / memcpy |\n";
    *text += "|---|---:|---:|---:|---:|---:|---:|---:|\n";
    for m in measures.iter().filter(|m| is_read(m)) {
        let t = &m.times;
        let (ours, rust) = (t.ours.median(), t.rust.median());
        write!(text, "| {} | {} | {} | {} ", m.call, grouped(m.bytes), nanoseconds(ours), nanoseconds(rust)).unwrap();
        if m.call == "read" {
            let copy = t.memcpy.median();
            let ratios = format!("{} | {} | {}", ratio(to_rust(m)), ratio(to_memcpy(m)), ratio(rust / copy));
            writeln!(text, "| {} | {ratios} |", nanoseconds(copy)).unwrap();
        } else {
            writeln!(text, "| | {} | | |", ratio(to_rust(m))).unwrap();
        }
    }
}

fn leaves(text: &mut String, leaves: &[Measure]) {
    *text += "\nWhat a read is made of, ns: its tests alone (its output is a byte too short), and its bytes by memcpy, each part from where it lies, ";
    *text += "beside one memcpy from page to page.\n\n";
    *text += "| Content | Tests alone | Part by part | In one piece | Part by part / in one piece |\n|---:|---:|---:|---:|---:|\n";
    for m in leaves {
        let t = &m.times;
        let cells = [&t.walk, &t.ours, &t.rust].map(|samples| nanoseconds(samples.median())).join(" | ");
        writeln!(text, "| {} | {cells} | {} |", grouped(m.bytes), ratio(to_rust(m))).unwrap();
    }
}

fn numbers(text: &mut String, numbers: &[Measure]) {
    *text += "\nA million eight-byte numbers read and added up, or stored, µs: in one slice, and in a slice of a thousand again and again. The target is at most 1.05.\n\n";
    *text += "| | Numbers in the slice | Library | Rust | Library / Rust |\n|---|---:|---:|---:|---:|\n";
    for m in numbers {
        let cells = [&m.times.ours, &m.times.rust].map(|samples| nanoseconds(samples.median() / 1e3)).join(" | ");
        writeln!(text, "| {} | {} | {cells} | {} |", m.call, grouped(m.bytes), ratio(to_rust(m))).unwrap();
    }
}

fn growing(text: &mut String, in_order: &[Measure], shuffled: &[Measure]) {
    *text += "\nInsert of 32 bytes at E = 64 as the free list grows, ns a call.\n\n";
    *text += "| Members | Library, linked slot by slot | Library, in any order | Rust, in any order |\n";
    *text += "|---:|---:|---:|---:|\n";
    for (a, b) in in_order.iter().zip(shuffled) {
        let cells = [&a.times.ours, &b.times.ours, &b.times.rust].map(|samples| nanoseconds(samples.median())).join(" | ");
        writeln!(text, "| {} | {cells} |", grouped(a.bytes)).unwrap();
    }
    if let Some(members) = crossing(shuffled) {
        writeln!(text, "\nIn any order the library's insert is the faster one up to about {members:.0} members.").unwrap();
    }
}

/// Where two lines cross, between members: the library's rises from below the Rust's.
fn crossing(measures: &[Measure]) -> Option<f64> {
    let over = |m: &Measure| (m.times.ours.median() / m.times.rust.median()).ln();
    let pair = measures.windows(2).find(|pair| over(&pair[0]) <= 0.0 && over(&pair[1]) > 0.0)?;
    let (a, b) = (over(&pair[0]), over(&pair[1]));
    let (x, y) = ((pair[0].bytes.max(1) as f64).ln(), (pair[1].bytes as f64).ln());
    Some((x + (y - x) * a / (a - b)).exp())
}

/// A target and those that miss it.
fn target(text: &mut String, words: &str, misses: Vec<String>) {
    let found = if misses.is_empty() { "met".to_string() } else { format!("missed by {}", misses.join(", ")) };
    writeln!(text, "- {words}: {found}.").unwrap();
}

fn targets(text: &mut String, measures: &[Measure], numbers: &[Measure]) {
    let missing = |judged: &dyn Fn(&Measure) -> Option<f64>, most: f64| -> Vec<String> {
        let over = |m: &Measure| {
            judged(m).filter(|found| *found > most).map(|found| format!("{} of {} bytes ({})", m.call, grouped(m.bytes), ratio(found)))
        };
        measures.iter().filter_map(over).collect()
    };
    *text += "\nTargets:\n\n";
    let words = "each writing call at least as fast as the Rust's plan and enactment";
    target(text, words, missing(&|m| (!is_read(m)).then(|| to_rust(m)), 1.0));
    let words = "the same with the log's share taken off the Rust's time";
    target(text, words, missing(&|m| (!is_read(m)).then(|| to_rust_without_log(m)), 1.0));
    target(text, "reads no slower than the Rust's read", missing(&|m| is_read(m).then(|| to_rust(m)), 1.0));
    for (bytes, most) in COPY_TARGETS {
        let words = format!("a read of {} bytes at most {most} times memcpy", grouped(bytes));
        target(text, &words, missing(&|m| (m.call == "read" && m.bytes == bytes).then(|| to_memcpy(m)), most));
    }
    let slower = numbers
        .iter()
        .filter(|m| to_rust(m) > 1.05)
        .map(|m| format!("{} of {} ({})", m.call, grouped(m.bytes), ratio(to_rust(m))))
        .collect();
    target(text, "eight-byte numbers read and stored in at most 1.05 times the Rust's time", slower);
}

/// All that was measured, as it stands in the document.
pub fn text(machine: &str, measures: &[Measure], apart: [&[Measure]; 2], grown: [&[Measure]; 2]) -> String {
    let mut text = format!("{machine}\n\n");
    writing(&mut text, measures);
    reading(&mut text, measures);
    leaves(&mut text, apart[0]);
    numbers(&mut text, apart[1]);
    growing(&mut text, grown[0], grown[1]);
    targets(&mut text, measures, apart[1]);
    text
}

/// Puts the text between the document's two marks.
pub fn write(path: &Path, text: &str) {
    let document = fs::read_to_string(path).expect("docs/SPEED.md");
    let (before, rest) = document.split_once(START).expect("the mark where the measured part starts");
    let (_, after) = rest.split_once(END).expect("the mark where the measured part ends");
    fs::write(path, format!("{before}{START}\n\n{text}\n{END}{after}")).expect("docs/SPEED.md");
}
