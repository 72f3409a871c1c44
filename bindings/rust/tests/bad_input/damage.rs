//! Tables that no calls have made: faults in sound ones, and slots put together at random.

use crate::draw::prefix_len;
use crate::model::Shape;
use crate::random::Random;
use crate::tables::{capacity, filled, fresh_table};

/// The marks of 01, and the two that differ from a mark in the top bit alone.
const MARKS: [[u8; 2]; 6] = [[0xff, 0xff], [0xfe, 0xff], [0xfd, 0xff], [0xfd, 0x7f], [0xff, 0x7f], [0xfe, 0x7f]];

/// Counts at and beside the limits of 01, and two small ones.
const COUNTS: [u32; 8] = [0, 1, 2, 5, 0x7fff_ffff, 0x8000_0000, 0xffff_fffe, 0xffff_ffff];

/// Puts bytes at a place, if the table reaches so far.
fn put(table: &mut [u8], at: usize, bytes: &[u8]) {
    if let Some(place) = table.get_mut(at..at + bytes.len()) {
        place.copy_from_slice(bytes);
    }
}

fn any_link(rng: &mut Random, table: &[u8], slots: u64) -> u64 {
    match rng.below(4) {
        0 => rng.near(filled(table)),
        1 => rng.next() >> rng.below(64),
        _ => rng.below(slots + 1),
    }
}

/// The first two bytes of a slot: a size near one of 01's limits, or any, with or without the top bit.
fn any_size_word(rng: &mut Random, s: Shape) -> [u8; 2] {
    let any = rng.below(0x8000);
    let size = rng.pick(&[0, prefix_len(s) as u64, s.entry_size - 2, 4_094, 0x7ffc, any]);
    let word = rng.near(size) as u16 | (u16::from(rng.yes(2)) << 15);
    word.to_le_bytes()
}

/// Half of them among the first bytes of the slot at a place, where marks, sizes, links, counts and keys stand.
fn flip_a_bit(rng: &mut Random, table: &mut [u8], at: usize) {
    let i = if rng.yes(2) { rng.index(table.len()) } else { at + rng.index(50) };
    if let Some(b) = table.get_mut(i) {
        *b ^= 1 << rng.below(8);
    }
}

/// One fault: a bit flipped, a field of a slot or of the header set to something near what could stand there, or the table cut.
pub fn damage(rng: &mut Random, table: &mut Vec<u8>, s: Shape) {
    if table.is_empty() {
        return;
    }
    let slots = capacity(table, s).max(1);
    let link = any_link(rng, table, slots);
    // Slot 0 has faults of its own.
    let slot = if slots > 1 { 1 + rng.below(slots - 1) } else { 0 };
    let at = (slot * s.entry_size) as usize;
    match rng.below(30) {
        0 => {
            let n = rng.index(table.len() + 1);
            table.truncate(n);
        }
        1 | 2 => put(table, 0, &link.to_le_bytes()),
        3 => put(table, 8, &rng.near(slots).to_le_bytes()),
        4..=6 => flip_a_bit(rng, table, at),
        7..=12 => put(table, at, &rng.pick(&MARKS)),
        13..=16 => put(table, at, &any_size_word(rng, s)),
        17..=22 => put(table, at + 2, &link.to_le_bytes()),
        23 | 24 => put(table, at + 10, &link.to_le_bytes()),
        25..=27 => {
            let overhead = if s.multipart { 18 } else { 2 };
            put(table, at + overhead, &rng.pick(&COUNTS).to_le_bytes());
        }
        _ => {
            if let Some(b) = table.get_mut(at + 2) {
                *b = b.wrapping_add(rng.pick(&[1, 255, 8]));
            }
        }
    }
}

/// A fault that leaves the header and the length alone.
fn damage_in_place(rng: &mut Random, table: &mut Vec<u8>, s: Shape) {
    let (header, len) = (table[..16].to_vec(), table.len());
    let mut copy = table.clone();
    damage(rng, &mut copy, s);
    if copy.len() == len {
        *table = copy;
        table[..16].copy_from_slice(&header);
    }
}

/// Slots of every kind, sizes, links and counts drawn at random: chains and lists that cross, loop and break.
pub fn patchwork(rng: &mut Random, s: Shape) -> Vec<u8> {
    let mut table = fresh_table(rng, s);
    let slots = capacity(&table, s);
    table[..8].copy_from_slice(&rng.below(slots).to_le_bytes());
    table[8..16].copy_from_slice(&(slots - rng.below(2).min(slots - 1)).to_le_bytes());
    for _ in 0..3 * slots {
        damage_in_place(rng, &mut table, s);
    }
    table
}
