//! The safe face: document 01's figures through it, its answers and its types, and the structs' layout as the header has it.
use pyltarka::{ffi, Changed, Refusal, Settings, Table, View, KEY_BYTES, LOCKED};
use std::mem::{offset_of, size_of};

const KEY: [u8; KEY_BYTES] = {
    let mut key = [0; KEY_BYTES];
    let mut i = 0;
    while i < KEY_BYTES {
        key[i] = 0x20 + i as u8;
        i += 1;
    }
    key
};

/// A fresh table of so many slots.
fn fresh(settings: Settings, slots: usize) -> Vec<u8> {
    vec![0; slots * settings.entry_size as usize]
}

// ---- figures

#[test]
fn two_bytes_in_a_table_of_two_slots_and_removed() {
    let mut bytes = [0; 64];
    let mut table = Table::new(&mut bytes, Settings::fixed(32));
    assert_eq!(table.insert(&[], &[0x41, 0x42], false), Ok(1));
    let mut expected = [0; 64];
    expected[8] = 2;
    expected[32..36].copy_from_slice(&[2, 0, 0x41, 0x42]);
    assert_eq!(table.bytes(), expected);
    assert_eq!(table.remove(1), Ok(()));
    expected[0] = 1;
    expected[32..36].copy_from_slice(&[0xff, 0xff, 0, 0]);
    assert_eq!(table.bytes(), expected);
}

#[test]
fn thirty_two_bytes_fit_a_counted_keyed_slot_of_64() {
    let s = Settings::fixed(64).counted().keyed();
    let mut bytes = fresh(s, 3);
    let mut table = Table::new(&mut bytes, s);
    assert_eq!(table.insert(&KEY, &[9; 32], false), Ok(1));
    assert_eq!(table.insert(&KEY, &[9; 32], true), Ok(2));
    assert_eq!(table.insert(&KEY, &[9; 33], false), Err(Refusal::Value));
    assert_eq!(table.bytes()[64..70], [0x3e, 0, 1, 0, 0, 0]);
    assert_eq!(table.bytes()[70..96], KEY[6..]);
    assert_eq!(table.bytes()[128..130], [0x3e, 0x80]);
    assert!(table.read_fixed(2, Some(&KEY)).unwrap().record.mark);
}

#[test]
fn chains_have_the_parts_and_last_words_of_the_figures() {
    let s = Settings::multipart().counted().keyed();
    for (len, parts, last_word) in [
        (4_065, 2, Some([0x11, 0])),
        (8_142, 2, Some([0xfe, 0x0f])),
        (8_143, 3, Some([9, 0])),
        (12_228, 3, None),
        (12_229, 4, None),
    ] {
        let mut bytes = fresh(s, 8);
        let mut table = Table::new(&mut bytes, s);
        assert_eq!(table.insert(&KEY, &vec![5; 4_064], false), Err(Refusal::Value));
        let content: Vec<u8> = (0..len).map(|i| (i % 251) as u8).collect();
        assert_eq!(table.insert(&KEY, &content, false), Ok(1));
        let mut output = vec![0xee; len + 1];
        let r = table.read(1, Some(&KEY), &mut output).unwrap();
        assert_eq!((r.len, r.visits, r.count, r.mark), (len, parts, 1, false));
        assert_eq!(output[..len], content);
        assert_eq!(output[len], 0xee);
        assert_eq!(table.bytes()[4096..4098], [0xfd, 0xff]);
        assert_eq!(table.bytes()[4098..4106], (len as u64).to_le_bytes());
        if let Some(word) = last_word {
            let last = parts as usize * 4096;
            assert_eq!(table.bytes()[last..last + 2], word);
        }
        assert_eq!(table.read(1, None, &mut output[..len - 1]), Err(Refusal::Output));
    }
}

#[test]
fn freed_slots_are_taken_last_freed_first() {
    let s = Settings::fixed(32);
    let mut bytes = fresh(s, 6);
    let mut table = Table::new(&mut bytes, s);
    for slot in 1..=3 {
        assert_eq!(table.insert(&[], b"x", false), Ok(slot));
    }
    assert_eq!((table.remove(1), table.remove(3)), (Ok(()), Ok(())));
    assert_eq!(table.free_count(), Ok(2));
    for slot in [3, 1, 4] {
        assert_eq!(table.insert(&[], b"y", false), Ok(slot));
    }
}

#[test]
fn a_replaced_chain_frees_its_tail_from_its_first_part_to_its_last() {
    let s = Settings::multipart();
    let mut bytes = fresh(s, 6);
    let mut table = Table::new(&mut bytes, s);
    table.insert(&[], &vec![1; 4_078 + 2 * 4_086 + 100], false).unwrap();
    table.replace(1, &[], &vec![2; 5_000], false).unwrap();
    let b = table.bytes();
    assert_eq!((b[0], b[4 * 4096 + 2], b[3 * 4096 + 2]), (4, 3, 0));
    assert_eq!(table.free_count(), Ok(2));
}

#[test]
fn counts_step_to_the_last_reference_and_to_the_lock() {
    let s = Settings::fixed(32).counted();
    let mut bytes = fresh(s, 2);
    Table::new(&mut bytes, s).insert(&[], b"x", false).unwrap();
    let mut changed = |count: u32, step| {
        bytes[34..38].copy_from_slice(&count.to_le_bytes());
        Table::new(&mut bytes, s).change_count(1, step)
    };
    assert_eq!(changed(5, -5), Ok(Changed::LastReference));
    assert_eq!(changed(5, -4), Ok(Changed::Count(1)));
    assert_eq!(changed(5, 0), Ok(Changed::Count(5)));
    assert_eq!(changed(LOCKED - 1, 1), Ok(Changed::Count(LOCKED)));
    assert_eq!(changed(LOCKED, -1), Ok(Changed::Count(LOCKED)));
    assert_eq!(changed(2_147_483_649, i32::MIN), Ok(Changed::Count(1)));
    assert_eq!(changed(2_147_483_648, i32::MIN), Ok(Changed::LastReference));
    assert_eq!(changed(0, 1), Err(Refusal::Absent));
}

#[test]
fn a_full_table_refuses_until_a_record_is_removed() {
    let s = Settings::fixed(32);
    let mut bytes = fresh(s, 3);
    let mut table = Table::new(&mut bytes, s);
    assert_eq!([(); 3].map(|()| table.insert(&[], b"x", false)), [Ok(1), Ok(2), Err(Refusal::Room)]);
    assert_eq!(table.remove(2), Ok(()));
    assert_eq!(table.insert(&[], b"x", false), Ok(2));
}

#[test]
fn a_header_that_points_past_itself_is_refused() {
    for filled in [0, 1] {
        let mut bytes = fresh(Settings::fixed(32), 3);
        (bytes[0], bytes[8]) = (1, filled);
        assert_eq!(View::new(&bytes, Settings::fixed(32)).free_count(), Err(Refusal::Header));
    }
}

// ---- the face itself

#[test]
fn a_fixed_read_hands_back_a_part_of_the_table() {
    let s = Settings::fixed(64).counted();
    let mut bytes = fresh(s, 4);
    let mut table = Table::new(&mut bytes, s);
    for content in [b"".as_slice(), b"one", &[7; 58]] {
        table.insert(&[], content, true).unwrap();
    }
    let view = View::new(&bytes, s);
    for (slot, len) in [(1, 0), (2, 3), (3, 58)] {
        let part = view.read_fixed(slot, None).unwrap();
        assert_eq!(part.content.as_ptr(), bytes[slot as usize * 64 + 6..].as_ptr());
        assert_eq!((part.content.len(), part.record.len, part.record.visits), (len, len, 1));
        assert_eq!((part.record.mark, part.record.count), (true, 1));
    }
    let multipart = fresh(Settings::multipart(), 2);
    assert_eq!(View::new(&multipart, Settings::multipart()).read_fixed(1, None), Err(Refusal::Settings));
}

#[test]
fn keys_are_checked_where_asked_and_kept() {
    let s = Settings::fixed(64).keyed();
    let mut bytes = fresh(s, 3);
    let mut table = Table::new(&mut bytes, s);
    let slot = table.insert(&KEY, b"fan", false).unwrap();
    let mut other = KEY;
    other[5] ^= 1;
    assert!(table.read_fixed(slot, Some(&other)).is_ok(), "bytes 0 to 5 of a key are not stored");
    other[6] ^= 1;
    assert_eq!(table.read_fixed(slot, Some(&other)), Err(Refusal::Absent));
    assert_eq!(table.read_fixed(slot, Some(&KEY[1..])), Err(Refusal::Key));
    assert!(table.read_fixed(slot, None).is_ok());
    assert_eq!(table.insert(&[], b"fan", false), Err(Refusal::Key));
    table.replace(slot, &other, b"", true).unwrap();
    assert_eq!(table.read_fixed(slot, Some(&other)).unwrap().content, b"");
}

#[test]
fn a_table_with_a_key_of_its_own_bytes_can_be_read() {
    let s = Settings::fixed(64).keyed();
    let mut bytes = fresh(s, 3);
    Table::new(&mut bytes, s).insert(&KEY, b"fan", false).unwrap();
    let view = View::new(&bytes, s);
    assert_eq!(view.read_fixed(1, Some(&bytes[64 - 4..64 + 28])).unwrap().content, b"fan");
}

#[test]
fn refusals_have_the_numbers_names_and_words_of_01() {
    for (i, refusal) in Refusal::ALL.into_iter().enumerate() {
        assert_eq!(refusal.number(), i as u32 + 1);
        assert_eq!(Refusal::from_number(i as u32 + 1), Some(refusal));
        assert!(refusal.to_string().starts_with(&format!("{} {}: ", i + 1, refusal.name())));
    }
    assert_eq!((Refusal::from_number(0), Refusal::from_number(14)), (None, None));
    let error: Box<dyn std::error::Error> = Refusal::Output.into();
    assert_eq!(error.to_string(), "13 OUTPUT: copying read: content longer than the output");
}

#[test]
fn empty_tables_keys_contents_and_outputs_get_answers() {
    assert_eq!(Table::new(&mut [], Settings::fixed(32)).insert(&[], &[], false), Err(Refusal::Buffer));
    assert_eq!(View::new(&[], Settings::fixed(31)).free_count(), Err(Refusal::Settings));
    let s = Settings::fixed(32);
    let mut bytes = fresh(s, 2);
    let mut table = Table::new(&mut bytes, s);
    assert_eq!(table.insert(&[], &[], false), Ok(1));
    assert_eq!(table.read(1, Some(&[]), &mut []).map(|r| r.len), Ok(0));
}

// ---- the header's structs

#[test]
fn structs_lie_as_the_header_has_them() {
    assert_eq!((size_of::<Settings>(), offset_of!(Settings, multipart), offset_of!(Settings, keyed)), (16, 8, 10));
    assert_eq!((size_of::<ffi::Inserted>(), offset_of!(ffi::Inserted, number)), (16, 8));
    assert_eq!(
        (size_of::<ffi::Changed>(), offset_of!(ffi::Changed, count), offset_of!(ffi::Changed, last_reference)),
        (12, 4, 8)
    );
    assert_eq!((size_of::<ffi::Record>(), offset_of!(ffi::Record, number), offset_of!(ffi::Record, mark)), (32, 16, 24));
    assert_eq!((size_of::<ffi::Part>(), offset_of!(ffi::Part, number), offset_of!(ffi::Part, mark)), (40, 24, 32));
    assert_eq!((size_of::<ffi::Counted>(), offset_of!(ffi::Counted, number)), (16, 8));
}
