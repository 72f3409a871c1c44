//! Random settings, tables, keys, contents and calls.

use crate::{
    model::{self, Call, Settings},
    random::Random,
};

/// Every setting that is compared: the fixed sizes and the multipart one, counted or not, keyed or not.
pub fn settings() -> Vec<Settings> {
    let mut all = Vec::new();
    for (size, multipart) in [(32, false), (33, false), (64, false), (100, false), (4_096, false), (32_760, false), (4_096, true)] {
        for (counted, keyed) in [(false, false), (true, false), (false, true), (true, true)] {
            all.push(Settings { size, multipart, counted, keyed });
        }
    }
    all
}

pub fn name(s: Settings) -> String {
    let kind = if s.multipart { "multipart" } else { "fixed" };
    let counted = if s.counted { ", counted" } else { "" };
    let keyed = if s.keyed { ", keyed" } else { "" };
    format!("E {} {kind}{counted}{keyed}", s.size)
}

/// Keys: the first two differ in their last byte alone, the third from the first only in bytes that are not stored.
pub fn key(i: u64) -> Vec<u8> {
    let mut key: Vec<u8> = (0..32).map(|k| 0x40 + k as u8).collect();
    match i % 4 {
        0 => (),
        1 => key[31] ^= 1,
        2 => key[..6].fill(0),
        _ => key[6] ^= 0x80,
    }
    key
}

/// Content lengths at and either side of each boundary of these settings, the refused ones too.
pub fn boundaries(s: Settings) -> Vec<usize> {
    let prefix = s.prefix();
    if !s.multipart {
        let most = s.size as usize - 2 - prefix;
        let mut all = vec![0, 1, most.saturating_sub(1), most, most + 1, most + 2];
        all.sort_unstable();
        all.dedup();
        return all;
    }
    let mut all = vec![0, 1];
    // N: the least that is taken; a head and a full continuation; a head and a full last part; then one and two more continuations
    for n in [4_078, 4_086, 4_094, 8_164, 8_172, 8_182, 12_250, 12_258, 16_336, 16_344] {
        for n in [n - 1, n, n + 1] {
            all.push(n - prefix);
        }
    }
    all.sort_unstable();
    all.dedup();
    all
}

pub fn content_length(r: &mut Random, s: Settings, longest: usize) -> usize {
    let all = boundaries(s);
    let least = if s.multipart { 4_095 - s.prefix() } else { 0 };
    loop {
        let length = if r.once_in(3) { r.below(longest as u64 + 1) as usize } else { r.pick(&all) };
        if (length >= least || r.once_in(20)) && length <= longest {
            return length;
        }
    }
}

/// The longest content that random calls write.
pub fn longest(s: Settings) -> usize {
    if s.multipart {
        17_000
    } else {
        s.size as usize - s.prefix() - 1
    }
}

/// A fresh table: sixteen zeros, then zeros or any bytes. Some bytes after the last whole slot.
pub fn fresh(r: &mut Random, s: Settings, capacity: u64) -> Vec<u8> {
    let len = (capacity * s.size + if r.coin() { r.below(s.size) } else { 0 }) as usize;
    if r.coin() {
        return vec![0; len];
    }
    let mut table = r.bytes(len);
    table[..16].fill(0);
    table
}

fn put(table: &mut [u8], at: usize, bytes: &[u8]) {
    table[at..at + bytes.len()].copy_from_slice(bytes);
}

/// A random sound table, built slot by slot and not by calls: chains and the free list lie in any order.
pub fn sound(r: &mut Random, s: Settings, capacity: u64) -> Vec<u8> {
    let mut table = fresh(r, s, capacity);
    let filled = 1 + r.below(capacity);
    let mut slots: Vec<u64> = (1..filled).collect();
    for i in (1..slots.len()).rev() {
        slots.swap(i, r.below(i as u64 + 1) as usize);
    }
    let prefix = |r: &mut Random| {
        let mut bytes = Vec::new();
        if s.counted {
            let any = r.next() as u32;
            bytes.extend_from_slice(&r.pick(&[1, 1, 2, 5, 0x7fff_ffff, 0x8000_0000, 0xffff_fffe, 0xffff_ffff, any.max(1)]).to_le_bytes());
        }
        if s.keyed {
            bytes.extend_from_slice(&key(r.next())[6..]);
        }
        bytes
    };
    let mut removed = 0u64;
    while let Some(slot) = slots.pop() {
        let at = (slot * s.size) as usize;
        let mark = r.coin();
        if r.once_in(3) || (s.multipart && slots.is_empty()) {
            put(&mut table, at, &[0xff, 0xff]);
            put(&mut table, at + 2, &removed.to_le_bytes());
            removed = slot;
        } else if !s.multipart {
            let prefix = prefix(r);
            let most = s.size - 2 - prefix.len() as u64;
            let length = r.pick(&[0, most, r.clone().below(most + 1)]);
            let word = (prefix.len() as u64 + length) as u16 | if mark { 0x8000 } else { 0 };
            put(&mut table, at, &word.to_le_bytes());
            put(&mut table, at + 2, &prefix);
        } else {
            let more = (1 + r.below(3)).min(slots.len() as u64) as usize;
            let chain: Vec<u64> = slots.split_off(slots.len() - more);
            let prefix = prefix(r);
            let last = r.pick(&[0, 1, 17, 4_093, 4_094, r.clone().below(4_095)]);
            let total = 4_078 - prefix.len() as u64 + (more as u64 - 1) * 4_086 + last;
            put(&mut table, at, if mark { &[0xfd, 0x7f] } else { &[0xfd, 0xff] });
            put(&mut table, at + 2, &total.to_le_bytes());
            put(&mut table, at + 10, &chain[0].to_le_bytes());
            put(&mut table, at + 18, &prefix);
            for (i, part) in chain.iter().enumerate() {
                let at = (part * s.size) as usize;
                if i + 1 < chain.len() {
                    put(&mut table, at, &[0xfe, 0xff]);
                    put(&mut table, at + 2, &chain[i + 1].to_le_bytes());
                } else {
                    let word = last as u16 | if r.coin() { 0x8000 } else { 0 };
                    put(&mut table, at, &word.to_le_bytes());
                }
            }
        }
    }
    put(&mut table, 0, &removed.to_le_bytes());
    if filled > 1 || r.coin() {
        put(&mut table, 8, &filled.to_le_bytes());
    }
    assert!(model::sound(&table, s), "the table made is sound");
    table
}

/// One or two places of a table changed: header, marks, sizes, links, totals, counts, or any byte.
pub fn damage(r: &mut Random, s: Settings, table: &mut [u8]) {
    let capacity = table.len() as u64 / s.size;
    for _ in 0..1 + r.below(2) {
        let filled = u64::from_le_bytes(table[8..16].try_into().unwrap()).clamp(1, capacity);
        let slot = if filled > 1 { 1 + r.below(filled - 1) } else { 0 };
        let at = (slot * s.size) as usize;
        let any = r.next();
        let number = r.pick(&[0, 1, 2, filled - 1, filled, filled + 1, capacity, capacity + 1, any, any >> 40, u64::MAX, 1 << 63]);
        match r.below(9) {
            0 => put(table, r.clone().pick(&[0, 8]), &number.to_le_bytes()),
            1 | 2 => {
                let marks = [[0xff, 0xff], [0xfe, 0xff], [0xfd, 0xff], [0xfd, 0x7f], [0xfe, 0x7f], [0xff, 0x7f]];
                put(table, at, &r.pick(&marks));
            },
            3 => {
                let e = s.size as u16;
                let p = s.prefix() as u16;
                let size =
                    r.pick(&[0, 1, 3, 4, p.wrapping_sub(1) & 0x7fff, p, e - 3, e - 2, e - 1, 4_094, 4_095, 0x7ffc, any as u16 & 0x7fff]);
                put(table, at, &(size | (any >> 32) as u16 & 0x8000).to_le_bytes());
            },
            4 => put(table, at + 2, &number.to_le_bytes()),
            5 if s.multipart => put(table, at + 10, &number.to_le_bytes()),
            6 if s.multipart => {
                let total = u64::from_le_bytes(table[at + 2..at + 10].try_into().unwrap());
                put(table, at + 2, &r.pick(&[total.wrapping_add(1), total.wrapping_sub(1), 0]).to_le_bytes());
            },
            7 if s.counted => {
                let count = if s.multipart { at + 18 } else { at + 2 };
                put(table, count, &r.pick(&[0u32, 0, 1, u32::MAX]).to_le_bytes());
            },
            _ => {
                let i = r.below(table.len() as u64) as usize;
                table[i] ^= 1 << (any & 7);
            },
        }
    }
}

/// Any bytes, with a header and marks that let calls come far.
pub fn any(r: &mut Random, s: Settings, capacity: u64) -> Vec<u8> {
    let mut table = fresh(r, s, capacity);
    let filled = 1 + r.below(capacity + 1);
    let removed = r.below(filled + 1);
    put(&mut table, 0, &removed.to_le_bytes());
    put(&mut table, 8, &filled.to_le_bytes());
    for slot in 1..capacity {
        let at = (slot * s.size) as usize;
        let size = r.below(s.size + 2) as u16;
        let word = size | if r.coin() { 0x8000 } else { 0 };
        put(&mut table, at, &r.pick(&[[0xff, 0xff], [0xfe, 0xff], [0xfd, 0xff], [0xfd, 0x7f], word.to_le_bytes(), word.to_le_bytes()]));
        let link = r.below(filled + 1).to_le_bytes();
        let head = s.multipart && table[at] == 0xfd;
        if head {
            put(&mut table, at + 2, &(4_078 + r.below(9_000)).to_le_bytes());
        }
        if !r.once_in(4) {
            put(&mut table, at + if head { 10 } else { 2 }, &link);
        }
    }
    table
}

pub const STEPS: [i32; 14] = [1, -1, 0, 2, -2, -4, -5, i32::MIN, i32::MIN + 1, i32::MAX, i32::MAX - 1, -i32::MAX, 0x4000_0000, 100];

fn any_key(r: &mut Random) -> Vec<u8> {
    if r.once_in(40) {
        let len = r.pick(&[0, 1, 26, 31, 33]);
        return r.bytes(len);
    }
    key(r.next())
}

/// A slot: mostly a head, else any, the refused ones too.
fn any_slot(r: &mut Random, s: Settings, table: &[u8]) -> u64 {
    let heads = model::heads(table, s);
    if !heads.is_empty() && !r.once_in(6) {
        return r.pick(&heads);
    }
    let capacity = table.len() as u64 / s.size.max(1);
    if r.once_in(20) {
        // Far off: to the last slot of a file that the Rust grows once, past it, and where the product with E overflows.
        let grown = (table.len() as u64 + 262_144) / s.size.max(1);
        return r.pick(&[grown.saturating_sub(1), grown, 1 << 32, 1 << 52, u64::MAX, u64::MAX / 32 + 2]);
    }
    r.below(capacity + 2)
}

/// A random call; `fill` is how many in a hundred writing ones are inserts.
pub fn call(r: &mut Random, s: Settings, table: &[u8], fill: u64) -> Call {
    match r.below(20) {
        0..=9 => {
            if r.below(100) < fill {
                let length = content_length(r, s, longest(s));
                Call::Insert { key: any_key(r), content: r.bytes(length), mark: r.coin() }
            } else {
                Call::Remove { slot: any_slot(r, s, table) }
            }
        },
        10..=12 => {
            let length = content_length(r, s, longest(s));
            Call::Replace { slot: any_slot(r, s, table), key: any_key(r), content: r.bytes(length), mark: r.coin() }
        },
        13..=14 => Call::Change { slot: any_slot(r, s, table), step: if r.once_in(4) { r.next() as i32 } else { r.pick(&STEPS) } },
        15..=17 => {
            let slot = any_slot(r, s, table);
            let checked = r.coin();
            let key = any_key(r);
            let long = model::read(table, s, slot, false, &[]).map_or(0, |chain| chain.content.len());
            let room = r.pick(&[long, long, long + 3, long.saturating_sub(1)]);
            Call::Read { slot, checked, key, room }
        },
        18 => Call::ReadFixed { slot: any_slot(r, s, table), checked: r.coin(), key: any_key(r) },
        _ => Call::FreeCount,
    }
}
