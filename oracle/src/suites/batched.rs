//! Several calls in one commit. The Rust then keeps one entry a slot, so stale bytes differ and tables are compared as ledgers:
//! header, free list, and what each record holds.

use crate::{
    compare::{as_rust, partial, rust_call, Got, Tally},
    make,
    model::{self, Answer, Call, Reading, Settings},
    random::Random,
};
use original::{Outcome, Table};
use std::path::PathBuf;

pub fn batched(folder: PathBuf, s: Settings, seed: u64, calls: u64) -> Result<Tally, String> {
    let mut tally = Tally::default();
    if !original::PRESENT {
        return Ok(tally);
    }
    let mut r = Random::new(seed);
    let mut sequence = 0;
    while tally.calls < calls {
        sequence += 1;
        let capacity = 2 + r.below(10);
        let mut table = make::sound(&mut r, s, capacity);
        let Outcome::Is(mut rust) = Table::open(&folder, &table, as_rust(s), s.counted) else {
            return Err("a sound table that the Rust does not open".into());
        };
        for _ in 0..6 {
            // The model makes each call at once and drops the refused ones; the Rust plans the accepted ones and commits them together.
            let mut batch = Vec::new();
            for _ in 0..1 + r.below(6) {
                let call = make::call(&mut r, s, &table, 50);
                if matches!(call, Call::Read { .. } | Call::ReadFixed { .. } | Call::FreeCount) {
                    continue;
                }
                let (answer, _) = model::call(&mut table, s, &call, Reading::Right);
                if !matches!(answer, Answer::Refused(_)) {
                    batch.push((call, answer));
                }
            }
            let answers = rust.commit(|plan| {
                let mut answers = Vec::new();
                for (call, _) in &batch {
                    answers.push(match call {
                        Call::Insert { key, content, mark } => Answer::At(plan.insert(partial(s, key).as_ref(), content, *mark)?),
                        Call::Replace { slot, key, content, mark } => {
                            plan.replace(*slot, partial(s, key).as_ref(), content, *mark)?;
                            Answer::Accepted
                        },
                        Call::Remove { slot } => {
                            plan.remove(*slot)?;
                            Answer::Accepted
                        },
                        Call::Change { slot, step } => {
                            if plan.change(*slot, *step)? {
                                Answer::Count(0)
                            } else {
                                Answer::LastReference
                            }
                        },
                        _ => unreachable!(),
                    });
                }
                Ok(answers)
            });
            tally.calls += batch.len() as u64;
            tally.accepted += batch.len() as u64;
            tally.rust += batch.len() as u64;
            let place = || format!("{}, seed {seed}, batched sequence {sequence}, commit of {} calls", make::name(s), batch.len());
            let Outcome::Is(answers) = answers else { return Err(format!("{}: {answers:?}", place())) };
            for ((_, want), got) in batch.iter().zip(&answers) {
                let want = if let Answer::Count(_) = want { &Answer::Count(0) } else { want };
                if want != got {
                    return Err(format!("{}: {want:?} and {got:?}", place()));
                }
            }
            same_ledger(&table, &mut rust, s).map_err(|m| format!("{}: {m}", place()))?;
        }
    }
    Ok(tally)
}

fn same_ledger(table: &[u8], rust: &mut Table, s: Settings) -> Result<(), String> {
    let theirs = rust.bytes().to_vec();
    if table[..16] != theirs[..16] {
        return Err("the headers differ".into());
    }
    if model::free_list(table, s) != model::free_list(&theirs, s) {
        return Err("the free lists differ".into());
    }
    let heads = model::heads(table, s);
    if heads != model::heads(&theirs, s) {
        return Err("chains start in other slots".into());
    }
    for slot in heads {
        let ours = model::read(table, s, slot, false, &[]).map_err(|n| format!("slot {slot} is refused with {n}"))?;
        let read = Call::Read { slot, checked: false, key: Vec::new(), room: 0 };
        match rust_call(rust, s, &read) {
            Outcome::Is(Got::Record(Some(r)))
                if r.content == ours.content && r.mark == ours.mark && r.count == ours.count && r.looks == ours.slots.len() as u64 => {},
            _ => return Err(format!("the records in slot {slot} differ")),
        }
        let key_at = (slot * s.size) as usize + if s.multipart { 18 } else { 2 } + if s.counted { 4 } else { 0 };
        if s.keyed && table[key_at..key_at + 26] != theirs[key_at..key_at + 26] {
            return Err(format!("the keys in slot {slot} differ"));
        }
    }
    Ok(())
}
