//! What the calls of one test run on, and the comparison of each: the C function beside the model.

use crate::call::{Answer, Call};
use crate::desk::Desk;
use crate::fence::Place;
use crate::model::Shape;
use crate::random::Random;
use pyltarka::Settings;
use std::collections::BTreeMap;

/// LAST REFERENCE among the numbers of the tally: no refusal has this one.
pub const LAST_REFERENCE: u32 = 100;

/// The numbers that each call can give, by 01's order of tests.
pub const ALL_NUMBERS: [(&str, &[u32]); 7] = [
    ("insert", &[0, 1, 2, 3, 4, 6, 11, 12]),
    ("replace", &[0, 1, 2, 3, 4, 6, 7, 8, 9, 10, 11, 12]),
    ("remove", &[0, 1, 2, 3, 7, 8, 9, 10, 11]),
    ("change", &[0, LAST_REFERENCE, 1, 2, 3, 5, 7, 8, 9]),
    ("read", &[0, 1, 2, 3, 4, 7, 8, 9, 10, 13]),
    ("read_fixed", &[0, 1, 2, 3, 4, 7, 8, 9]),
    ("free_count", &[0, 1, 2, 3, 11]),
];

/// How often each call gave each number.
#[derive(Default)]
pub struct Tally(pub BTreeMap<(&'static str, u32), u64>);

/// What the calls of one test run on.
pub struct Run {
    name: &'static str,
    seed: u64,
    pub rng: Random,
    desk: Desk,
    pub tally: Tally,
    pub calls: u64,
}

/// A number of the environment, or the usual one.
pub fn setting(name: &str, usual: u64) -> u64 {
    std::env::var(name).map_or(usual, |v| v.parse().unwrap_or_else(|_| panic!("{name} is no number: {v}")))
}

impl Run {
    pub fn new(name: &'static str, seed: u64) -> Run {
        let seed = setting("PYLTARKA_SEED", seed);
        println!("{name}: seed {seed}");
        Run { name, seed, rng: Random(seed), desk: Desk::new(), tally: Tally::default(), calls: 0 }
    }

    fn place(&mut self) -> Place {
        match self.rng.below(3) {
            0 => Place::First,
            1 => Place::Last,
            _ => Place::Inner(self.rng.index(200)),
        }
    }

    /// One call on a table, by C and by the model: same answer, same bytes, no guard touched, nothing changed if refused.
    pub fn compare(&mut self, table: &mut Vec<u8>, shape: Shape, call: &Call) {
        self.calls += 1;
        let places = [self.place(), self.place(), self.place(), self.place()];
        self.desk.lay(table, call, places);
        let s = Settings { entry_size: shape.entry_size, multipart: shape.multipart, counted: shape.counted, keyed: shape.keyed };
        let null = self.rng.yes(2);
        let answer = self.desk.call(call, s, null);

        let before = table.clone();
        let mut output = call.output().to_vec();
        let expected = call.by_model(table, shape, &mut output);
        let (name, seed, nth) = (self.name, self.seed, self.calls);
        let here = || format!("{name}: seed {seed}, call {nth}: {shape:?}, {} on {} bytes", call.name(), before.len());
        assert_eq!(answer, expected, "answer; {}\n{call:?}", here());
        if let Some(buffer) = self.desk.differing(table, &output, call) {
            panic!("{buffer}; {}\n{call:?}", here());
        }
        if answer.number != 0 {
            assert_eq!(answer, Answer::number_alone(answer.number), "a refusal and zeros; {}", here());
            let changed = self.desk.differing(&before, call.output(), call);
            assert_eq!(changed, None, "refused and changed; {}", here());
        }
        assert!(self.desk.guards_stand(), "guard bytes; {}\n{call:?}", here());
        let kind = if answer.last_reference { LAST_REFERENCE } else { answer.number };
        *self.tally.0.entry((call.name(), kind)).or_default() += 1;
    }

    /// Prints how often each call gave each number. A call that can give a number, and gave it too rarely, fails the test:
    /// `at_least` is how often in 20,000 calls.
    pub fn finish(self, wanted: &[(&'static str, &[u32])], at_least: u64) {
        let mut rows: BTreeMap<&str, Vec<String>> = BTreeMap::new();
        for ((call, number), times) in &self.tally.0 {
            let number = if *number == LAST_REFERENCE { "last".to_string() } else { number.to_string() };
            rows.entry(call).or_default().push(format!("{number}: {times}"));
        }
        for (call, numbers) in rows {
            println!("{}: {call:<10} {}", self.name, numbers.join(", "));
        }
        println!("{}: {} calls agree", self.name, self.calls);
        let at_least = at_least * self.calls / 20_000;
        for (call, numbers) in wanted {
            for n in *numbers {
                let times = self.tally.0.get(&(*call, *n)).copied().unwrap_or(0);
                assert!(times >= at_least, "{}: seed {}: {call} gave {n} {times} times", self.name, self.seed);
            }
        }
    }
}
