//! 01's figures either side, run and compared three ways, with what 01 says of each.

use crate::{
    compare::{Bench, Tally},
    make,
    model::{self, Answer, Call, Reading, Settings},
};
use std::path::Path;

const PLAIN: Settings = Settings { size: 32, multipart: false, counted: false, keyed: false };
const FULL: Settings = Settings { size: 64, multipart: false, counted: true, keyed: true };
const CHAINS: Settings = Settings { size: 4_096, multipart: true, counted: true, keyed: true };

fn insert(length: usize) -> Call {
    Call::Insert { key: make::key(0), content: vec![0x5a; length], mark: false }
}

fn refused(n: u32) -> Answer {
    Answer::Refused(n)
}

/// Runs calls with the answers that 01 gives; the table afterwards.
fn play(folder: &Path, s: Settings, table: Vec<u8>, calls: &[(Call, Answer)], tally: &mut Tally) -> Result<Vec<u8>, String> {
    let mut bench = Bench::new(folder.to_path_buf(), s, table, Reading::Right);
    for (call, want) in calls {
        let got = bench.step(call)?;
        if got != *want {
            return Err(format!("{}: 01 says {want:?}, the answer is {got:?}", crate::compare::brief(call)));
        }
    }
    tally.add(&bench.tally);
    Ok(bench.table)
}

fn bytes(got: &[u8], want: &[u8], what: &str) -> Result<(), String> {
    if got != want {
        return Err(format!("{what}: {got:02x?}, and 01 says {want:02x?}"));
    }
    Ok(())
}

type Figure = (&'static str, fn(&Path, &mut Tally) -> Result<(), String>);

pub const FIGURES: [Figure; 9] = [
    ("insert 41 42, then remove 1, whole table", |folder, tally| {
        let content = vec![0x41, 0x42];
        let first = (Call::Insert { key: vec![], content, mark: false }, Answer::At(1));
        let table = play(folder, PLAIN, vec![0; 64], std::slice::from_ref(&first), tally)?;
        let mut want = vec![0; 64];
        want[8] = 2;
        want[32..36].copy_from_slice(&[2, 0, 0x41, 0x42]);
        bytes(&table, &want, "after insert")?;
        let table = play(folder, PLAIN, vec![0; 64], &[first, (Call::Remove { slot: 1 }, Answer::Accepted)], tally)?;
        want[0] = 1;
        want[32..36].copy_from_slice(&[0xff, 0xff, 0, 0]);
        bytes(&table, &want, "after remove")
    }),
    ("E 64, counted and keyed: 32 bytes fit, 33 give 6", |folder, tally| {
        let table = play(folder, FULL, vec![0; 192], &[(insert(32), Answer::At(1)), (insert(33), refused(6))], tally)?;
        bytes(&table[64..66], &[0x3e, 0x00], "size word")?;
        let marked = Call::Insert { key: make::key(0), content: vec![1; 32], mark: true };
        let table = play(folder, FULL, vec![0; 192], &[(marked, Answer::At(1))], tally)?;
        bytes(&table[64..66], &[0x3e, 0x80], "compressed size word")
    }),
    ("multipart: 4,064 bytes give 6, 4,065 two parts", |folder, tally| {
        let table = play(folder, CHAINS, vec![0; 4 * 4_096], &[(insert(4_064), refused(6)), (insert(4_065), Answer::At(1))], tally)?;
        bytes(&table[4_098..4_106], &[0xe1, 0x0f, 0, 0, 0, 0, 0, 0], "total")?;
        bytes(&table[8_192..8_194], &[0x11, 0x00], "last word")
    }),
    ("multipart: 8,142 bytes two parts, 8,143 three", |folder, tally| {
        let table = play(folder, CHAINS, vec![0; 4 * 4_096], &[(insert(8_142), Answer::At(1))], tally)?;
        bytes(&table[8_192..8_194], &[0xfe, 0x0f], "last word of 8,142")?;
        let table = play(folder, CHAINS, vec![0; 4 * 4_096], &[(insert(8_143), Answer::At(1))], tally)?;
        bytes(&table[3 * 4_096..3 * 4_096 + 2], &[0x09, 0x00], "last word of 8,143")
    }),
    ("multipart: 12,228 bytes three parts, 12,229 four", |folder, tally| {
        for (length, parts) in [(12_228, 3), (12_229, 4)] {
            let table = play(folder, CHAINS, vec![0; 6 * 4_096], &[(insert(length), Answer::At(1))], tally)?;
            let chain = model::read(&table, CHAINS, 1, false, &[]).map_err(|n| format!("{length}: {n}"))?;
            if chain.slots.len() != parts {
                return Err(format!("{length} bytes take {} parts", chain.slots.len()));
            }
        }
        Ok(())
    }),
    ("fixed: insert 1, 2, 3, remove 1, remove 3, insert three times: 3, 1, 4", |folder, tally| {
        let remove = |slot| (Call::Remove { slot }, Answer::Accepted);
        let at = |slot| (insert(1), Answer::At(slot));
        play(folder, PLAIN, vec![0; 160], &[at(1), at(2), at(3), remove(1), remove(3), at(3), at(1), at(4)], tally).map(|_| ())
    }),
    ("chain 1-2-3-4 replaced by two parts: LAST_REMOVED 4, 4 links 3, 3 links 0", |folder, tally| {
        let replace = Call::Replace { slot: 1, key: make::key(0), content: vec![1; 5_000], mark: false };
        let calls = [(insert(12_229), Answer::At(1)), (replace, Answer::Accepted)];
        let table = play(folder, CHAINS, vec![0; 5 * 4_096], &calls, tally)?;
        bytes(&table[..16], &[4, 0, 0, 0, 0, 0, 0, 0, 5, 0, 0, 0, 0, 0, 0, 0], "header")?;
        bytes(&table[4 * 4_096..4 * 4_096 + 4], &[0xff, 0xff, 3, 0], "slot 4")?;
        bytes(&table[3 * 4_096..3 * 4_096 + 4], &[0xff, 0xff, 0, 0], "slot 3")
    }),
    ("count 5: -5 LAST REFERENCE, -4 gives 1, 0 gives 5; the lock", |folder, tally| {
        let change = |step, want| (Call::Change { slot: 1, step }, want);
        let calls = [
            (insert(0), Answer::At(1)),
            change(4, Answer::Count(5)),
            change(-5, Answer::LastReference),
            change(0, Answer::Count(5)),
            change(-4, Answer::Count(1)),
            change(i32::MAX, Answer::Count(0x8000_0000)),
            change(0x7fff_fffe, Answer::Count(0xffff_fffe)),
            change(1, Answer::Count(0xffff_ffff)),
            change(-1, Answer::Count(0xffff_ffff)),
            change(i32::MIN, Answer::Count(0xffff_ffff)),
        ];
        play(folder, FULL, vec![0; 128], &calls, tally).map(|_| ())
    }),
    ("capacity 3: the third insert is 12, after a removal it succeeds; LAST_REMOVED 1 with FILLED 1 or 0 is 3", |folder, tally| {
        let calls = [
            (insert(0), Answer::At(1)),
            (insert(0), Answer::At(2)),
            (insert(0), refused(12)),
            (Call::Remove { slot: 1 }, Answer::Accepted),
            (insert(0), Answer::At(1)),
        ];
        play(folder, PLAIN, vec![0; 96], &calls, tally)?;
        for filled in [1, 0] {
            let mut table = vec![0; 96];
            table[0] = 1;
            table[8] = filled;
            play(folder, PLAIN, table, &[(Call::FreeCount, refused(3)), (insert(0), refused(3))], tally)?;
        }
        Ok(())
    }),
];
