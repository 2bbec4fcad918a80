//! The proved library against a second, plain reader and writer written from docs/SCOPE.md: what the compiler and the C boundary
//! make of the proved code is compared, not believed.

pub mod answers;
pub mod chance;
pub mod compare;
pub mod every;
pub mod messages;
pub mod ours;
pub mod random;
pub mod reader;
pub mod sums;
pub mod writer;

use compare::{Tally, NUMBERS};
use random::Random;

/// All cases without chance, then so many from the seed. `longer` takes those too that need minutes.
pub fn run(cases: u64, seed: u64, longer: bool) -> Tally {
    let mut t = Tally::default();
    let mut r = Random::new(seed);
    every::sums(&mut t, &mut r);
    every::headers(&mut t, &mut r);
    every::attributes_alone(&mut t);
    every::bodies(&mut t);
    every::texts(&mut t, longer);
    every::values(&mut t, longer);
    every::writing(&mut t);
    every::fingerprints(&mut t, &mut r);
    every::farthest(&mut t, &mut r);
    every::changes(&mut t, &mut r, longer);
    every::large(&mut t, &mut r, if longer { 1 } else { 20 });
    for _ in 0..cases {
        chance::case(&mut t, &mut r);
        t.cases += 1;
    }
    t
}

/// What was reached, and whether that is every number.
pub fn report(t: &Tally) -> (String, bool) {
    let mut lines = String::from("number      told\n");
    for number in NUMBERS {
        lines += &format!("{number:>6} {:>9}\n", t.count(number));
    }
    lines += "call                          compared\n";
    for (call, by) in &t.told {
        lines += &format!("{call:<26} {:>11}\n", by.values().sum::<u64>());
    }
    let all = NUMBERS.iter().all(|&number| t.count(number) > 0);
    (lines, all)
}
