//! Recorded answers: a sample of lines that the program `figures` takes, each with its answer, so that the proved program replays them with
//! no Rust at hand. README.md has the words; 01's figures in crates/figures are the same kind of lines, and are replayed here too.

use crate::{
    compare::Bench,
    make,
    model::{self, Answer, Call, Reading, Record, Settings},
    station,
};
use std::path::PathBuf;

pub const CALLS: &str = include_str!("../../recorded/calls.txt");
pub const ANSWERS: &str = include_str!("../../recorded/answers.txt");
pub const FIGURES: &str = include_str!("../../../crates/figures/stdout");

/// Written before a call whose answer the Rust does not give.
const BY_01: &str = "# by 01 alone:";

// ---- the words

/// What a line asks for.
enum Line {
    Table(Settings, usize),
    Call(Call),
    Set(usize, u8),
    Bytes(usize, usize),
    Value(Vec<u8>),
}

fn content(length: usize, seed: u64) -> Vec<u8> {
    (0..length as u64).map(|i| (seed + 7 * i + i / 256) as u8).collect()
}

/// From 256 on the first six bytes are zero.
fn key(k: u64) -> Vec<u8> {
    (0..32).map(|i| if k > 255 && i < 6 { 0 } else { (k + i) as u8 }).collect()
}

fn value(word: &str) -> Option<Vec<u8>> {
    match (word.split_once(':'), word.split_once('@')) {
        (Some(("text", letters)), _) => Some(letters.into()),
        (Some(("hex", digits)), _) => (0..digits.len()).step_by(2).map(|i| u8::from_str_radix(digits.get(i..i + 2)?, 16).ok()).collect(),
        (None, Some((length, seed))) => Some(content(length.parse().ok()?, seed.parse().ok()?)),
        _ if word == "none" => Some(Vec::new()),
        _ => Some(key(word.parse().ok()?)),
    }
}

/// A line, if it is one of those that the program takes.
fn parse(line: &str) -> Option<Line> {
    let number = |word: &str| word.parse::<u64>().ok();
    let (line, mark) = line.strip_suffix(" compressed").map_or((line, false), |line| (line, true));
    let call = match line.split(' ').collect::<Vec<_>>().as_slice() {
        ["table", size, kind, counted, keyed, length] => {
            let s =
                Settings { size: number(size)?, multipart: *kind == "multipart", counted: *counted == "counted", keyed: *keyed == "keyed" };
            return Some(Line::Table(s, number(length)? as usize));
        },
        ["set", at, byte] => return Some(Line::Set(number(at)? as usize, byte.parse().ok()?)),
        ["bytes", from, many] => return Some(Line::Bytes(number(from)? as usize, number(many)? as usize)),
        ["value", word] => return Some(Line::Value(value(word)?)),
        ["insert", "key", key, "content", content] => Call::Insert { key: value(key)?, content: value(content)?, mark },
        ["replace", slot, "key", key, "content", content] => {
            Call::Replace { slot: number(slot)?, key: value(key)?, content: value(content)?, mark }
        },
        ["remove", slot] => Call::Remove { slot: number(slot)? },
        ["change", slot, step] => Call::Change { slot: number(slot)?, step: step.parse().ok()? },
        ["read", slot, checked, "key", key, "output", room] => {
            Call::Read { slot: number(slot)?, checked: *checked == "checked", key: value(key)?, room: number(room)? as usize }
        },
        ["read_fixed", slot, checked, "key", key] => {
            Call::ReadFixed { slot: number(slot)?, checked: *checked == "checked", key: value(key)? }
        },
        ["free_count"] => Call::FreeCount,
        _ => return None,
    };
    Some(Line::Call(call))
}

// ---- the answers

/// The sum of some bytes.
fn sum(bytes: &[u8]) -> u64 {
    bytes.iter().fold(0, |sum, byte| (sum * 257 + *byte as u64 + 1) % 4_294_967_291)
}

fn digits(bytes: &[u8]) -> String {
    bytes.iter().map(|byte| format!(" {byte:02x}")).collect()
}

/// All of some bytes: up to 64 one by one, of more the sum.
fn all(bytes: &[u8]) -> String {
    if bytes.len() <= 64 {
        digits(bytes)
    } else {
        format!(" sum {}", sum(bytes))
    }
}

fn told(r: &Record) -> String {
    let mark = if r.mark { ", compressed" } else { "" };
    format!("length {}{mark}, count {}, visits {}", r.length, r.count, r.visits)
}

/// An answer in words: the refusal or the values, then the whole table, the whole output, or the part handed back.
fn answered(call: &Call, answer: &Answer, table: &[u8], output: &[u8]) -> String {
    let values = match answer {
        Answer::Refused(number) => format!("refused {number}"),
        Answer::At(slot) => format!("slot {slot}"),
        Answer::Accepted => "accepted".into(),
        Answer::Count(n) => format!("count {n}"),
        Answer::LastReference => "LAST REFERENCE".into(),
        Answer::Found(r) | Answer::Part(_, r) => told(r),
        Answer::Members(n) => format!("free {n}"),
    };
    let bytes = match (call, answer) {
        (Call::FreeCount, _) => String::new(),
        (Call::Read { .. }, _) => format!(", output{}", all(output)),
        (Call::ReadFixed { .. }, Answer::Part(at, r)) => format!(", part{}", all(&table[*at as usize..(*at + r.length) as usize])),
        (Call::ReadFixed { .. }, _) => ", part".into(),
        _ => format!(", table{}", all(table)),
    };
    values + &bytes
}

// ---- the sample

fn table(s: Settings, length: usize) -> String {
    let word = |is: bool, yes: &'static str, no: &'static str| if is { yes } else { no };
    let kind = word(s.multipart, "multipart", "fixed");
    format!("table {} {kind} {} {} {length}", s.size, word(s.counted, "counted", "uncounted"), word(s.keyed, "keyed", "unkeyed"))
}

fn marked(mark: bool) -> &'static str {
    if mark {
        " compressed"
    } else {
        ""
    }
}

fn insert(key: u64, length: usize, seed: u64, mark: bool) -> String {
    format!("insert key {key} content {length}@{seed}{}", marked(mark))
}

fn replace(slot: u64, key: u64, length: usize, seed: u64, mark: bool) -> String {
    format!("replace {slot} key {key} content {length}@{seed}{}", marked(mark))
}

fn remove(slot: u64) -> String {
    format!("remove {slot}")
}

fn change(slot: u64, step: i32) -> String {
    format!("change {slot} {step}")
}

fn read(slot: u64, key: &str, room: usize) -> String {
    format!("read {slot} checked key {key} output {room}")
}

fn fetch(slot: u64, room: usize) -> String {
    format!("read {slot} unchecked key none output {room}")
}

fn free_count() -> String {
    "free_count".into()
}

fn sample() -> Vec<String> {
    let mut all = vec![
        "# Recorded answers: the lines are those of crates/figures. Before a call whose answer the Rust does not give stands".to_string(),
        format!("# '{}', and docs/DIFFERENCES.md says what the Rust does.", &BY_01[2..]),
        "# Each setting of a fixed table: the longest content, one byte more, the empty one.".into(),
    ];
    for s in make::settings().into_iter().filter(|s| !s.multipart) {
        let most = s.size as usize - 2 - s.prefix();
        all.extend([table(s, 3 * s.size as usize + 5), insert(3, most, 11, true), insert(3, most + 1, 11, true), read(1, "3", most)]);
        all.extend([replace(1, 4, most.saturating_sub(1), 99, false), "read_fixed 1 checked key 4".into(), insert(5, 0, 0, true)]);
        all.extend([remove(1), free_count()]);
    }
    all.push("# The free list's order; no room; slots that hold nothing.".into());
    let plain = Settings { size: 32, multipart: false, counted: false, keyed: false };
    all.extend([table(plain, 160), insert(0, 2, 0x41, false), insert(0, 1, 1, false), insert(0, 3, 2, false), remove(1), remove(3)]);
    all.extend([free_count(), insert(0, 1, 3, false), insert(0, 30, 4, true), insert(0, 1, 5, false), insert(0, 1, 6, false), remove(2)]);
    all.extend([insert(0, 1, 6, false), fetch(0, 9), fetch(5, 9), remove(5), remove(4), fetch(4, 9), remove(4), change(1, 1)]);
    all.push("# Counts at the limits; keys that differ, in stored bytes and in others; outputs too short.".into());
    let full = Settings { size: 64, multipart: false, counted: true, keyed: true };
    all.extend([table(full, 200), insert(7, 32, 1, false)]);
    all.extend([4, -5, 0, -4, i32::MAX, i32::MIN, i32::MIN + 1, i32::MAX, i32::MAX, -1, i32::MIN, 1].map(|step| change(1, step)));
    all.extend([read(1, "7", 40), read(1, "263", 32), read(1, "8", 32), read(1, "none", 32), read(1, "7", 31), change(0, 1), change(2, 1)]);
    all.extend([replace(1, 8, 31, 2, true), read(1, "8", 31), fetch(1, 31), remove(1), change(1, 1)]);
    all.push("insert key none content 1@1".into());
    all.push("# Chains at and either side of each boundary, replaced by shorter and longer ones.".into());
    for s in make::settings().into_iter().filter(|s| s.multipart) {
        let p = s.prefix();
        all.extend([table(s, 9 * 4_096 + 7), insert(9, 4_094 - p, 1, false), insert(9, 4_095 - p, 2, true), read(1, "9", 4_095 - p)]);
        all.extend([insert(9, 8_172 - p, 3, false), insert(9, 8_173 - p, 4, false), fetch(5, 8_173)]);
        all.extend([remove(1), change(3, 3), replace(5, 10, 4_095 - p, 5, false), free_count()]);
        all.extend([replace(3, 10, 12_259 - p, 6, true), read(3, "10", 12_259), replace(3, 9, 12_258 - p, 7, false), fetch(3, 12_258)]);
        all.extend([insert(1, 16_345 - p, 8, false), fetch(4, 9), remove(4), change(4, 1), remove(3), remove(5)]);
        all.extend([insert(1, 16_344 - p, 9, true), fetch(5, 16_344), fetch(7, 16_344)]);
        all.extend(["read_fixed 5 unchecked key none".into(), free_count()]);
    }
    all.extend(damaged(plain, full));
    all
}

/// What no call leaves: refused settings and buffers, then a byte set by hand and set back once each call was tried.
fn damaged(plain: Settings, full: Settings) -> Vec<String> {
    let mut all = vec!["# Refused settings; a buffer with no room for a slot.".to_string()];
    for (size, multipart, length) in [(31, false, 64), (32_761, false, 64), (4_095, true, 8_192), (32, false, 31)] {
        all.push(table(Settings { size, multipart, ..full }, length));
        all.extend([insert(1, 1, 1, false), replace(1, 1, 1, 1, true), remove(1), change(1, 1), read(1, "1", 8)]);
        all.extend(["read_fixed 1 unchecked key none".into(), free_count()]);
    }
    let mut tried = |words: &str, calls: &[String], places: &[(usize, u8, u8)]| {
        all.push(format!("# {words}"));
        let (start, calls) = calls.split_at(calls.iter().position(String::is_empty).expect("an empty line"));
        all.extend_from_slice(start);
        for (at, byte, back) in places {
            all.push(format!("set {at} {byte}"));
            all.extend_from_slice(&calls[1..]);
            all.push(format!("set {at} {back}"));
        }
    };
    let (a, b, c) = (insert(0, 2, 1, false), insert(0, 2, 2, false), insert(0, 2, 3, false));
    let start = [table(plain, 160), a.clone(), b, c, remove(1), remove(2), String::new()];
    let calls = [free_count(), replace(3, 0, 1, 4, false), remove(3), a];
    tried(
        "Free lists: a loop, FILLED, a slot that is not free, the header.",
        &[start.as_slice(), &calls].concat(),
        &[(34, 2, 0), (34, 4, 0), (34, 3, 0), (0, 4, 2)],
    );
    let start = [table(full, 128), insert(7, 3, 1, false), String::new()];
    let calls = [read(1, "7", 40), change(1, 1), remove(1), replace(1, 7, 2, 2, false)];
    tried(
        "Sizes below the prefix and above E - 2; a count of 0.",
        &[start.as_slice(), &calls].concat(),
        &[(64, 29, 33), (64, 63, 33), (66, 0, 1)],
    );
    let chains = Settings { size: 4_096, multipart: true, counted: false, keyed: false };
    let (long, short) = (insert(0, 8_173, 1, false), insert(0, 4_095, 2, true));
    let start = [table(chains, 8 * 4_096), long, short.clone(), short, remove(6), String::new()];
    let calls = [fetch(1, 8_173), replace(1, 0, 4_095, 3, false), remove(1)];
    tried(
        "Chains 1-2-3: a loop, a head, a free slot, 0, FILLED, a part left out, a total, a last part's size, no head.",
        &[start.as_slice(), &calls].concat(),
        &[
            (8_194, 2, 3),
            (4_106, 4, 2),
            (4_106, 6, 2),
            (4_106, 0, 2),
            (4_106, 8, 2),
            (4_106, 3, 2),
            (4_098, 238, 237),
            (12_289, 16, 0),
            (4_096, 254, 253),
        ],
    );
    all
}

// ---- recording and replaying

/// The sample, and the sample with its answers, each compared with the Rust's.
pub fn record(folder: PathBuf) -> Result<(String, String), String> {
    let (mut calls, mut answers) = (String::new(), String::new());
    let none = Settings { size: 0, multipart: false, counted: false, keyed: false };
    let mut bench = Bench::new(folder.clone(), none, Vec::new(), Reading::Right);
    for line in sample() {
        let mut answer = String::new();
        match parse(&line) {
            Some(Line::Table(s, length)) => bench = Bench::new(folder.clone(), s, vec![0; length], Reading::Right),
            Some(Line::Set(at, byte)) => {
                let mut table = bench.table.clone();
                table[at] = byte;
                bench.set(&table);
                answer = format!(": table{}", all(&table));
            },
            Some(Line::Call(call)) => {
                let matched = bench.tally.entries.get(&0).copied();
                let output = model::call(&mut bench.table.clone(), bench.s, &call, Reading::Right).1;
                let given = bench.step(&call).map_err(|m| format!("{line}: {m}"))?;
                if matches!(given, Answer::Refused(_)) && bench.tally.entries.get(&0).copied() == matched {
                    calls += &format!("{BY_01}\n");
                    answers += &format!("{BY_01}\n");
                }
                answer = format!(": {}", answered(&call, &given, &bench.table, &output));
            },
            _ if line.starts_with('#') => (),
            _ => return Err(format!("no line: {line}")),
        }
        calls += &format!("{line}\n");
        answers += &format!("{line}{answer}\n");
    }
    Ok((calls, answers))
}

/// Lines with their answers, replayed on the model and, if it is linked, on the library: how many calls. A line that is answered '?' asks
/// for nothing.
pub fn replay(text: &str) -> Result<u64, String> {
    let mut calls = 0;
    let mut s = Settings { size: 0, multipart: false, counted: false, keyed: false };
    let (mut table, mut library) = (Vec::new(), Vec::new());
    for line in text.lines() {
        let (asked, want) = line.split_once(": ").unwrap_or((line, ""));
        if line.is_empty() || line.starts_with('#') || want == "?" {
            continue;
        }
        let got = match parse(asked).ok_or_else(|| format!("no line: {line}"))? {
            Line::Table(named, length) => {
                s = named;
                table = vec![0; length];
                library = vec![0; length];
                String::new()
            },
            Line::Set(at, byte) => {
                table[at] = byte;
                library[at] = byte;
                format!("table{}", all(&table))
            },
            Line::Bytes(from, many) => digits(&table[from..from + many])[1..].into(),
            Line::Value(bytes) => all(&bytes)[1..].into(),
            Line::Call(call) => {
                calls += 1;
                let (answer, output) = model::call(&mut table, s, &call, Reading::Right);
                if station::PRESENT && (station::call(&mut library, s, &call) != (answer.clone(), output.clone()) || library != table) {
                    return Err(format!("{asked}: the library is not as the model"));
                }
                answered(&call, &answer, &table, &output)
            },
        };
        if got != want {
            return Err(format!("{asked}: recorded {want}, the model gives {got}"));
        }
    }
    Ok(calls)
}
