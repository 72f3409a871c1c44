//! Tables to start from: fresh ones, and sound ones that calls have made.

use crate::call::Call;
use crate::draw::{any_call, any_content, any_key};
use crate::model::Shape;
use crate::random::Random;

/// How many whole slots a table has room for, slot 0 among them.
pub fn capacity(table: &[u8], s: Shape) -> u64 {
    table.len() as u64 / s.entry_size.max(1)
}

/// FILLED as it is stored, 0 for a table too short to have one.
pub fn filled(table: &[u8]) -> u64 {
    table.get(8..16).map_or(0, |b| u64::from_le_bytes(b.try_into().unwrap()))
}

/// A fresh table of few slots, stale bytes in them, a rest past the last whole slot.
pub fn fresh_table(rng: &mut Random, s: Shape) -> Vec<u8> {
    let e = s.entry_size as usize;
    let slots = match e {
        0..=600 => 2 + rng.index(14),
        601..=4096 => 2 + rng.index(10),
        _ => 1 + rng.index(4),
    };
    let len = slots * e + if rng.yes(2) { rng.index(e) } else { 0 };
    let mut table = rng.bytes(len);
    table[..16].fill(0);
    table
}

/// A table that calls have made: sound.
pub fn sound_table(rng: &mut Random, s: Shape) -> Vec<u8> {
    let mut table = fresh_table(rng, s);
    for _ in 0..rng.below(14) {
        let slots = filled(&table);
        let call = match rng.below(3) {
            0 => any_call(rng, &table, s, slots),
            _ => Call::Insert { key: any_key(rng), content: any_content(rng, s), mark: rng.yes(2) },
        };
        call.by_model(&mut table, s, &mut []);
    }
    table
}
