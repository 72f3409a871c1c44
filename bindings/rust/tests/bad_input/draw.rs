//! Shapes, keys, contents and calls, drawn at random: near the limits of 01 more often than not.

use crate::call::Call;
use crate::model::{self, Shape};
use crate::random::Random;

/// A shape that is not refused.
pub fn good_shape(rng: &mut Random) -> Shape {
    let multipart = rng.yes(2);
    let entry_size = match (multipart, rng.below(8)) {
        (true, _) => 4096,
        (_, 0 | 1) => 32,
        (_, 2) => rng.pick(&[33, 36, 40, 63, 65, 4095, 4096, 4097, 32_759, 32_760]),
        (_, 3) => 32 + rng.below(500),
        _ => 64,
    };
    Shape { entry_size, multipart, counted: !rng.yes(3), keyed: !rng.yes(3) }
}

/// A shape that may be refused: sizes near the limits, far past them, or anything.
pub fn any_shape(rng: &mut Random) -> Shape {
    let entry_size = match rng.below(6) {
        0 => rng.pick(&[0, 1, 31, 32_761, 65_536, 1 << 32, (1 << 32) + 64, 1 << 63, u64::MAX, u64::MAX - 4095]),
        1 => rng.near(32),
        2 => rng.near(32_760),
        3 => rng.near(4_096),
        _ => rng.below(40_001),
    };
    Shape { entry_size, multipart: rng.yes(3), counted: rng.yes(2), keyed: rng.yes(2) }
}

pub fn prefix_len(s: Shape) -> usize {
    4 * usize::from(s.counted) + 26 * usize::from(s.keyed)
}

/// A key of few, so that some are met again; sometimes of another length.
pub fn any_key(rng: &mut Random) -> Vec<u8> {
    let mut key = vec![0x40 + rng.below(3) as u8; 32];
    key[rng.index(32)] ^= rng.below(2) as u8;
    match rng.below(24) {
        0 => rng.bytes(32),
        1 => key[..31].to_vec(),
        2 => [key.as_slice(), &[9]].concat(),
        3 => {
            let n = rng.index(65);
            rng.bytes(n)
        }
        4 => Vec::new(),
        _ => key,
    }
}

/// A content whose length is at or either side of a boundary of the shape, or anything.
pub fn any_content(rng: &mut Random, s: Shape) -> Vec<u8> {
    let pre = prefix_len(s) as u64;
    let n = if s.multipart {
        let boundary = match rng.below(8) {
            0 => 4_094,
            1 => 4_094 + 4_086 - 8,
            k => 4_078 + 4_094 + rng.below(k) * 4_086,
        };
        match rng.below(4) {
            0 => rng.below(20_000),
            _ => rng.near(boundary).saturating_sub(pre),
        }
    } else {
        let most = s.entry_size.clamp(32, 40_000).saturating_sub(2 + pre);
        match rng.below(5) {
            0 => rng.below(4),
            1 => rng.below(most + 2),
            _ => rng.near(most).min(70_000),
        }
    };
    rng.bytes(n as usize)
}

fn any_slot(rng: &mut Random, slots: u64) -> u64 {
    match rng.below(20) {
        0 => 0,
        1 => rng.next(),
        2 => rng.near(slots),
        3 => rng.pick(&[1 << 32, (1 << 32) + 1, 1 << 52, 1 << 63, u64::MAX]),
        _ => 1 + rng.below(slots.max(2) - 1),
    }
}

fn any_step(rng: &mut Random) -> i32 {
    match rng.below(3) {
        0 => rng.pick(&[i32::MIN, i32::MIN + 1, -1, 0, 1, i32::MAX, i32::MAX - 1]),
        1 => rng.next() as i32,
        _ => rng.below(9) as i32 - 4,
    }
}

/// A call; where it names a slot, one among so many.
pub fn any_call(rng: &mut Random, table: &[u8], s: Shape, slots: u64) -> Call {
    let slot = any_slot(rng, slots);
    match rng.below(9) {
        0 | 1 => Call::Insert { key: any_key(rng), content: any_content(rng, s), mark: rng.yes(2) },
        2 | 3 => Call::Replace { slot, key: any_key(rng), content: any_content(rng, s), mark: rng.yes(2) },
        4 => Call::Remove { slot },
        5 => Call::Change { slot, step: any_step(rng) },
        6 => {
            let (checked, key) = (rng.yes(2), any_key(rng));
            let stored = model::read(table, s, slot, None, &mut vec![0; 1 << 17]).map_or(30, |r| r.content.len() as u64);
            let n = match rng.below(4) {
                0 => stored,
                1 => rng.near(stored).min(1 << 16),
                2 => rng.below(100),
                _ => stored + rng.below(3_000),
            };
            Call::Read { slot, checked, key, output: rng.bytes(n as usize) }
        }
        7 => Call::ReadFixed { slot, checked: rng.yes(2), key: any_key(rng) },
        _ => Call::FreeCount,
    }
}
