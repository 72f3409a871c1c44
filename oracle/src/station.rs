//! The library, through its C functions. Every call of them that is compared is made in this file.

use crate::model::{Answer, Call, Settings};
#[cfg(station)]
use crate::{
    functions,
    model::{Record, UNTOUCHED},
};

/// Whether the library was there when this was built.
pub const PRESENT: bool = cfg!(station);

/// A call through the library. The output of a read comes with it, else an empty one. Refused answers must be zero in all else.
#[cfg(station)]
pub fn call(table: &mut [u8], s: Settings, call: &Call) -> (Answer, Vec<u8>) {
    use functions::{
        pyltarka_change_count, pyltarka_free_count, pyltarka_insert, pyltarka_read, pyltarka_read_fixed, pyltarka_remove, pyltarka_replace,
    };
    let s = functions::Settings { entry_size: s.size, multipart: s.multipart, counted: s.counted, keyed: s.keyed };
    let (t, n) = (table.as_mut_ptr(), table.len());
    let written = |number: u32| if number == 0 { Answer::Accepted } else { Answer::Refused(number) };
    let refused = |number: u32, rest_is_zero: bool| {
        assert!(rest_is_zero, "refusal {number} came with more than zeros");
        Answer::Refused(number)
    };
    let mut output = match call {
        Call::Read { room, .. } => vec![UNTOUCHED; *room],
        _ => Vec::new(),
    };
    let answer = unsafe {
        match call {
            Call::Insert { key, content, mark } => {
                let r = pyltarka_insert(t, n, s, key.as_ptr(), key.len(), content.as_ptr(), content.len(), *mark);
                if r.number == 0 {
                    Answer::At(r.slot)
                } else {
                    refused(r.number, r.slot == 0)
                }
            },
            Call::Replace { slot, key, content, mark } => {
                written(pyltarka_replace(t, n, s, *slot, key.as_ptr(), key.len(), content.as_ptr(), content.len(), *mark))
            },
            Call::Remove { slot } => written(pyltarka_remove(t, n, s, *slot)),
            Call::Change { slot, step } => {
                let r = pyltarka_change_count(t, n, s, *slot, *step);
                if r.number != 0 {
                    refused(r.number, r.count == 0 && !r.last_reference)
                } else if r.last_reference {
                    assert!(r.count == 0, "LAST REFERENCE came with a count");
                    Answer::LastReference
                } else {
                    Answer::Count(r.count)
                }
            },
            Call::Read { slot, checked, key, .. } => {
                let r = pyltarka_read(t, n, s, *slot, *checked, key.as_ptr(), key.len(), output.as_mut_ptr(), output.len());
                if r.number == 0 {
                    Answer::Found(Record { length: r.length, mark: r.mark, count: r.count, visits: r.visits })
                } else {
                    refused(r.number, r.length == 0 && r.visits == 0 && r.count == 0 && !r.mark)
                }
            },
            Call::ReadFixed { slot, checked, key } => {
                let r = pyltarka_read_fixed(t, n, s, *slot, *checked, key.as_ptr(), key.len());
                if r.number == 0 {
                    Answer::Part(r.offset, Record { length: r.length, mark: r.mark, count: r.count, visits: r.visits })
                } else {
                    refused(r.number, r.offset == 0 && r.length == 0 && r.visits == 0 && r.count == 0 && !r.mark)
                }
            },
            Call::FreeCount => {
                let r = pyltarka_free_count(t, n, s);
                if r.number == 0 {
                    Answer::Members(r.count)
                } else {
                    refused(r.number, r.count == 0)
                }
            },
        }
    };
    (answer, output)
}

#[cfg(not(station))]
pub fn call(_: &mut [u8], _: Settings, call: &Call) -> (Answer, Vec<u8>) {
    unreachable!("the library is not linked: {call:?}")
}
