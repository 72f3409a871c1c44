//! Bad input at scale, through the C functions: any bytes as a table, damaged sound tables, tables under settings of others, any
//! keys, slots, steps and lengths. Each answer and each byte is compared with the plain model of document 01; no byte outside a
//! lent buffer is touched, and no byte at all by a refused call.
//!
//! PYLTARKA_CASES sets the number of calls of each test that draws its cases, PYLTARKA_SEED its seed, which is printed.
mod call;
mod damage;
mod desk;
mod draw;
mod fence;
mod model;
mod random;
mod run;
mod tables;

use call::Call;
use damage::{damage, patchwork};
use draw::{any_call, any_shape, good_shape};
use model::Shape;
use run::{setting, Run, ALL_NUMBERS, LAST_REFERENCE};
use tables::{capacity, filled, sound_table};

#[test]
fn sound_tables_take_any_call() {
    let mut run = Run::new("sound_tables_take_any_call", 1);
    let calls = setting("PYLTARKA_CASES", 30_000);
    while run.calls < calls {
        let s = good_shape(&mut run.rng);
        let mut table = sound_table(&mut run.rng, s);
        for _ in 0..24 {
            let call = any_call(&mut run.rng, &table, s, filled(&table));
            run.compare(&mut table, s, &call);
        }
    }
    run.finish(
        &[
            ("insert", &[0, 4, 6, 12]),
            ("replace", &[0, 4, 6, 7, 8, 12]),
            ("remove", &[0, 7, 8]),
            ("change", &[0, LAST_REFERENCE, 5, 7, 8]),
            ("read", &[0, 4, 7, 8, 13]),
            ("read_fixed", &[0, 1, 4, 7, 8]),
            ("free_count", &[0]),
        ],
        20,
    );
}

#[test]
fn damaged_tables_get_the_first_fault_met() {
    let mut run = Run::new("damaged_tables_get_the_first_fault_met", 2);
    let calls = setting("PYLTARKA_CASES", 80_000);
    while run.calls < calls {
        let made = good_shape(&mut run.rng);
        let mut table = if run.rng.yes(3) { patchwork(&mut run.rng, made) } else { sound_table(&mut run.rng, made) };
        for _ in 0..12 {
            if run.rng.yes(2) {
                damage(&mut run.rng, &mut table, made);
            }
            let s = if run.rng.yes(40) { any_shape(&mut run.rng) } else { made };
            let slots = filled(&table).min(40);
            let call = any_call(&mut run.rng, &table, s, slots);
            run.compare(&mut table, s, &call);
        }
    }
    run.finish(&ALL_NUMBERS, 2);
}

#[test]
fn any_bytes_are_a_table() {
    let mut run = Run::new("any_bytes_are_a_table", 3);
    let calls = setting("PYLTARKA_CASES", 30_000);
    while run.calls < calls {
        let s = good_shape(&mut run.rng);
        let len = match run.rng.below(4) {
            0 => run.rng.index(80),
            1 => run.rng.near(s.entry_size) as usize,
            _ => run.rng.index(6 * s.entry_size as usize),
        };
        let mut table = run.rng.bytes(len);
        // Three in four have a header that can be taken, so that the calls look further than that.
        if len >= 16 && !run.rng.yes(4) {
            let slots = capacity(&table, s).max(1);
            let header = [run.rng.below(slots).to_le_bytes(), (run.rng.below(slots) + 1).to_le_bytes()].concat();
            table[..16].copy_from_slice(&header);
        }
        for _ in 0..4 {
            let call = any_call(&mut run.rng, &table, s, filled(&table).min(40));
            run.compare(&mut table, s, &call);
        }
    }
    run.finish(&[("insert", &[2, 3, 11]), ("free_count", &[2, 3, 11]), ("read", &[2, 3, 7, 8])], 10);
}

#[test]
fn any_settings_get_an_answer() {
    let mut run = Run::new("any_settings_get_an_answer", 4);
    let calls = setting("PYLTARKA_CASES", 30_000);
    while run.calls < calls {
        let made = good_shape(&mut run.rng);
        let mut table = sound_table(&mut run.rng, made);
        for _ in 0..6 {
            let s = match run.rng.below(3) {
                0 => Shape { counted: run.rng.yes(2), keyed: run.rng.yes(2), ..made },
                1 => Shape { multipart: !made.multipart, ..made },
                _ => any_shape(&mut run.rng),
            };
            let call = any_call(&mut run.rng, &table, s, filled(&table).min(40));
            run.compare(&mut table, s, &call);
        }
    }
    let one: &[u32] = &[1, 2, 3];
    run.finish(&ALL_NUMBERS.map(|(call, _)| (call, one)), 5);
}

/// Each entry size from 0 to 40,000, and each with multipart: refusal 1 exactly outside 32 to 32,760 and at multipart but 4,096.
#[test]
fn each_entry_size_is_judged() {
    let mut run = Run::new("each_entry_size_is_judged", 5);
    for entry_size in 0..=40_000 {
        for multipart in [false, true] {
            let s = Shape { entry_size, multipart, counted: false, keyed: false };
            run.compare(&mut vec![0; 64], s, &Call::FreeCount);
        }
    }
    let refused = run.tally.0[&("free_count", 1)];
    assert_eq!(refused, 2 * 40_001 - (32_760 - 31) - 1);
    assert_eq!(run.tally.0[&("free_count", 0)], 64 - 31);
    run.finish(&[], 0);
}

/// Every cut of a table with two records and a free slot between them, and every single bit of slots 0 to 3 flipped.
#[test]
fn each_cut_and_each_flipped_bit_of_a_small_table() {
    let mut run = Run::new("each_cut_and_each_flipped_bit_of_a_small_table", 6);
    for (counted, keyed) in [(false, false), (true, false), (false, true), (true, true)] {
        let s = Shape { entry_size: 48, multipart: false, counted, keyed };
        let key = [0x41; 32];
        let mut table = vec![0; 6 * 48 + 7];
        for content in [b"abc".as_slice(), b"", b"0123456789abcdef"] {
            model::insert(&mut table, s, &key, content, false).unwrap();
        }
        model::remove(&mut table, s, 2).unwrap();
        let calls = [
            Call::Insert { key: key.to_vec(), content: b"xy".to_vec(), mark: true },
            Call::Replace { slot: 1, key: key.to_vec(), content: b"xyz".to_vec(), mark: true },
            Call::Remove { slot: 3 },
            Call::Change { slot: 3, step: 1 },
            Call::Read { slot: 1, checked: true, key: key.to_vec(), output: vec![7; 20] },
            Call::ReadFixed { slot: 3, checked: true, key: key.to_vec() },
            Call::FreeCount,
        ];
        for call in &calls {
            for cut in 0..table.len() {
                run.compare(&mut table[..cut].to_vec(), s, call);
            }
            for bit in 0..8 * 4 * 48 {
                let mut flipped = table.clone();
                flipped[bit / 8] ^= 1 << (bit % 8);
                run.compare(&mut flipped, s, call);
            }
        }
    }
    run.finish(&[], 0);
}

/// A table with two chains, slots 1 to 3 and 4 and 5, and two free slots; calls that meet them.
fn two_chains(s: Shape) -> (Vec<u8>, [Call; 7]) {
    let key = [0x41; 32];
    let long: Vec<u8> = (0..12_000).map(|i| (i % 251) as u8).collect();
    let mut table = vec![0; 9 * 4096];
    for n in [9_000, 8_142, 4_065] {
        model::insert(&mut table, s, &key, &long[..n], false).unwrap();
    }
    model::remove(&mut table, s, 6).unwrap();
    let calls = [
        Call::Insert { key: key.to_vec(), content: long.clone(), mark: true },
        Call::Replace { slot: 1, key: key.to_vec(), content: long[..5_000].to_vec(), mark: true },
        Call::Replace { slot: 4, key: key.to_vec(), content: long.clone(), mark: false },
        Call::Remove { slot: 1 },
        Call::Change { slot: 4, step: -1 },
        Call::Read { slot: 1, checked: true, key: key.to_vec(), output: vec![7; 9_100] },
        Call::FreeCount,
    ];
    (table, calls)
}

/// Two chains and two free slots: every bit of the bytes before the content flipped, in every slot, and every link to every slot.
#[test]
fn each_flipped_bit_and_each_link_of_two_chains() {
    let mut run = Run::new("each_flipped_bit_and_each_link_of_two_chains", 8);
    let s = Shape { entry_size: 4096, multipart: true, counted: true, keyed: true };
    let (table, calls) = two_chains(s);
    for call in &calls {
        for slot in 0..8 {
            for bit in 0..8 * 48 {
                let mut flipped = table.clone();
                flipped[slot * 4096 + bit / 8] ^= 1 << (bit % 8);
                run.compare(&mut flipped, s, call);
            }
            for link in 0..10_u64 {
                for at in [0, 2, 8, 10] {
                    let mut linked = table.clone();
                    let at = slot * 4096 + at;
                    linked[at..at + 8].copy_from_slice(&link.to_le_bytes());
                    run.compare(&mut linked, s, call);
                }
            }
        }
    }
    run.finish(&[("replace", &[0, 3, 8, 9, 10, 11]), ("remove", &[0, 3, 8, 9, 10, 11]), ("read", &[0, 3, 8, 9, 10])], 10);
}

/// Every step at the limits against every count at the limits.
#[test]
fn each_step_at_the_limits() {
    let mut run = Run::new("each_step_at_the_limits", 7);
    for multipart in [false, true] {
        let s = Shape { entry_size: if multipart { 4096 } else { 32 }, multipart, counted: true, keyed: false };
        let content = vec![1; if multipart { 4_091 } else { 3 }];
        let mut table = vec![0; 3 * s.entry_size as usize];
        model::insert(&mut table, s, &[], &content, false).unwrap();
        let at = s.entry_size as usize + if multipart { 18 } else { 2 };
        let limits = [0u32, 1, 2, 5, 0x7fff_fffe, 0x7fff_ffff, 0x8000_0000, 0x8000_0001, 0xffff_fffd, 0xffff_fffe, 0xffff_ffff];
        let steps = [i32::MIN, i32::MIN + 1, -5, -4, -2, -1, 0, 1, 2, 5, i32::MAX - 1, i32::MAX];
        for count in limits {
            for step in steps {
                let mut counted = table.clone();
                counted[at..at + 4].copy_from_slice(&count.to_le_bytes());
                run.compare(&mut counted, s, &Call::Change { slot: 1, step });
            }
        }
    }
    run.finish(&[], 0);
}
