//! What the calls are made of, measured apart: one way beside another, in `ours` and `rust` of the times.

use crate::{
    measure::{Measure, Times},
    tables::{self, Pages},
};
use std::hint::black_box;

/// A content of `bytes` bytes fetched from where its parts lie, a memcpy each, beside one memcpy of as many bytes from page to page:
/// what a copying read takes if it is told the places and tests nothing. And the tests alone, by a read whose output is too short.
fn parts_of(bytes: usize) -> Measure {
    const CALLS: usize = 8;
    let case = tables::multipart(bytes);
    let parts = tables::parts(&case);
    let (table, source) = (Pages::new(&case.bytes), Pages::new(&case.content));
    let mut output = Pages::new(&vec![0; bytes]);
    let round = move |times: &mut Times, parts_first: bool| {
        for side in [parts_first, !parts_first] {
            if side {
                times.ours.time(CALLS, || {
                    for _ in 0..CALLS {
                        let mut rest = &mut black_box(&mut output)[..];
                        for part in black_box(&parts) {
                            let (front, after) = rest.split_at_mut(part.len());
                            front.copy_from_slice(&table[part.clone()]);
                            rest = after;
                        }
                    }
                });
            } else {
                times.rust.time(CALLS, || {
                    for _ in 0..CALLS {
                        let n = black_box(bytes);
                        black_box(&mut output[..n]).copy_from_slice(black_box(&source[..n]));
                    }
                });
            }
        }
        times.walk.time(CALLS, || {
            for _ in 0..CALLS {
                let c = black_box(&case);
                c.kind.read_refused(&table, c.slot, &c.key, black_box(&mut output[..bytes - 1]));
            }
        });
    };
    Measure::new("memcpy, part by part", bytes, 4_000, round)
}

pub fn by_parts() -> Vec<Measure> {
    [20_480, 65_536].into_iter().map(parts_of).collect()
}

extern "C" {
    fn number_loops_sum(s: *const u8, len: usize) -> u64;
    fn number_loops_fill(s: *mut u8, len: usize, first: u64, step: u64);
}

/// A million numbers in all: so many in a slice, gone through so often. The long slice is in no near cache, the short one in the nearest.
const LONG: (usize, usize) = (1_000_000, 1);
const SHORT: (usize, usize) = (1_000, 1_000);
const STEP: u64 = 0x0102_0304_0506_0708;

#[inline(never)]
fn sum_rust(s: &[u8]) -> u64 {
    let (mut sum, mut at) = (0u64, 0);
    while 8 <= s.len() - at {
        sum = sum.wrapping_add(u64::from_le_bytes(s[at..at + 8].try_into().unwrap()));
        at += 8;
    }
    sum
}

#[inline(never)]
fn fill_rust(s: &mut [u8], first: u64, step: u64) {
    let (mut n, mut at) = (first, 0);
    while 8 <= s.len() - at {
        s[at..at + 8].copy_from_slice(&n.to_le_bytes());
        n = n.wrapping_add(step);
        at += 8;
    }
}

fn sum_ours(s: &[u8]) -> u64 {
    unsafe { number_loops_sum(s.as_ptr(), s.len()) }
}

fn fill_ours(s: &mut [u8], first: u64, step: u64) {
    unsafe { number_loops_fill(s.as_mut_ptr(), s.len(), first, step) }
}

/// A million numbers by either, either first in turn.
fn beside(call: &'static str, (numbers, turns): (usize, usize), ours: fn(&mut [u8]), rust: fn(&mut [u8])) -> Measure {
    let mut slice = Pages::new(&vec![1; 8 * numbers]);
    let round = move |times: &mut Times, ours_first: bool| {
        for side in [ours_first, !ours_first] {
            let (samples, one) = if side { (&mut times.ours, ours) } else { (&mut times.rust, rust) };
            samples.time(1, || (0..turns).for_each(|_| one(black_box(&mut slice))));
        }
    };
    Measure::new(call, numbers, 1_000, round)
}

/// Eight-byte numbers read and stored, the library's way beside `from_le_bytes` and `to_le_bytes`.
pub fn numbers() -> Vec<Measure> {
    let (mut a, mut b) = ([0; 8_000], [0; 8_000]);
    fill_ours(&mut a, 5, STEP);
    fill_rust(&mut b, 5, STEP);
    assert!(a == b && sum_ours(&a) == sum_rust(&b), "the numbers differ");
    let both = |size| {
        [
            beside("read", size, |s| _ = black_box(sum_ours(s)), |s| _ = black_box(sum_rust(s))),
            beside("store", size, |s| fill_ours(s, black_box(5), STEP), |s| fill_rust(s, black_box(5), STEP)),
        ]
    };
    [LONG, SHORT].into_iter().flat_map(both).collect()
}
