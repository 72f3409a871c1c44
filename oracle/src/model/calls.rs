//! The calls: 01's tests in 01's order, then what an accepted call does.

use super::chains::{Open, Tested};
use super::types::{Answer, Call, Chain, Reading, Record, Settings, UNTOUCHED};
use super::writer::{body, cut, total, Writer};

/// A count that no step changes any more.
const LOCKED: u32 = 0xffff_ffff;

/// A call on a table. The output of a read comes with it, else an empty one.
pub fn call(table: &mut [u8], s: Settings, call: &Call, reading: Reading) -> (Answer, Vec<u8>) {
    let mut output = match call {
        Call::Read { room, .. } => vec![UNTOUCHED; *room],
        _ => Vec::new(),
    };
    let answer = tried(table, s, call, reading, &mut output).unwrap_or_else(Answer::Refused);
    (answer, output)
}

fn tried(table: &mut [u8], s: Settings, call: &Call, reading: Reading, output: &mut [u8]) -> Tested<Answer> {
    match call {
        Call::Insert { key, content, mark } => insert(table, s, key, content, *mark, reading),
        Call::Replace { slot, key, content, mark } => replace(table, s, *slot, key, content, *mark, reading),
        Call::Remove { slot } => remove(table, s, *slot, reading),
        Call::Change { slot, step } => change(table, s, *slot, *step, reading),
        Call::Read { slot, checked, key, .. } => {
            let chain = read(table, s, *slot, *checked, key)?;
            if chain.content.len() > output.len() {
                return Err(13);
            }
            output[..chain.content.len()].copy_from_slice(&chain.content);
            Ok(Answer::Found(told(&chain)))
        },
        Call::ReadFixed { slot, checked, key } => {
            if s.multipart {
                return Err(1);
            }
            let chain = read(table, s, *slot, *checked, key)?;
            Ok(Answer::Part(slot * s.size + 2 + s.prefix() as u64, told(&chain)))
        },
        Call::FreeCount => Ok(Answer::Members(Open::new(table, s)?.free_list()?.len() as u64)),
    }
}

/// The tests of a key and a content that are to be stored.
fn stored_test(s: Settings, key: &[u8], content: &[u8]) -> Tested<()> {
    if s.key_bad(key) {
        return Err(4);
    }
    if s.value_bad(content.len()) {
        return Err(6);
    }
    Ok(())
}

fn insert(table: &mut [u8], s: Settings, key: &[u8], content: &[u8], mark: bool, reading: Reading) -> Tested<Answer> {
    let open = Open::new(table, s)?;
    stored_test(s, key, content)?;
    let free = open.free_list()?;
    let body = body(&s, 1, key, content);
    open.room_test(cut(&s, body.len(), reading).len(), free.len())?;
    let header = open.header;
    let mut writer = Writer::new(table, s, header, reading);
    let at = writer.write(&body, total(&s, content, reading), mark, &[]);
    writer.store_header();
    Ok(Answer::At(at))
}

fn replace(table: &mut [u8], s: Settings, slot: u64, key: &[u8], content: &[u8], mark: bool, reading: Reading) -> Tested<Answer> {
    let open = Open::new(table, s)?;
    stored_test(s, key, content)?;
    let chain = open.chain(slot, None)?;
    let free = open.free_list()?;
    let count = if reading == Reading::CountKept { chain.count } else { 1 };
    let body = body(&s, count, key, content);
    open.room_test(cut(&s, body.len(), reading).len().saturating_sub(chain.slots.len()), free.len())?;
    let header = open.header;
    let mut writer = Writer::new(table, s, header, reading);
    writer.write(&body, total(&s, content, reading), mark, &chain.slots);
    writer.store_header();
    Ok(Answer::Accepted)
}

fn remove(table: &mut [u8], s: Settings, slot: u64, reading: Reading) -> Tested<Answer> {
    let open = Open::new(table, s)?;
    let chain = open.chain(slot, None)?;
    open.free_list()?;
    let header = open.header;
    let mut writer = Writer::new(table, s, header, reading);
    for slot in chain.slots {
        writer.free(slot);
    }
    writer.store_header();
    Ok(Answer::Accepted)
}

fn change(table: &mut [u8], s: Settings, slot: u64, step: i32, reading: Reading) -> Tested<Answer> {
    let open = Open::new(table, s)?;
    if !s.counted {
        return Err(5);
    }
    open.slot_test(slot)?;
    open.head_test(slot, None)?;
    let at = (slot * s.size) as usize + open.prefix_at();
    let count = open.count(open.slot(slot)) as i64;
    let step = if reading == Reading::StepCastFirst { step as u32 as i64 } else { step as i64 };
    let next = if step > 0 {
        (count + step).min(LOCKED as i64)
    } else if count == LOCKED as i64 {
        count
    } else if count + step <= 0 {
        return Ok(Answer::LastReference);
    } else {
        count + step
    };
    table[at..at + 4].copy_from_slice(&(next as u32).to_le_bytes());
    Ok(Answer::Count(next as u32))
}

fn told(chain: &Chain) -> Record {
    Record { length: chain.content.len() as u64, mark: chain.mark, count: chain.count, visits: chain.slots.len() as u64 }
}

/// The tests of a read before its output, and the chain.
pub fn read(table: &[u8], s: Settings, slot: u64, checked: bool, key: &[u8]) -> Tested<Chain> {
    let open = Open::new(table, s)?;
    if checked && s.key_bad(key) {
        return Err(4);
    }
    open.chain(slot, checked.then_some(key))
}
