//! The short run, in the gate.

use differential::compare::NUMBERS;

#[test]
fn no_difference_and_every_number() {
    let tally = differential::run(40_000, 1, false);
    let (lines, all) = differential::report(&tally);
    assert!(all, "a number was not reached:\n{lines}");
    let told: Vec<String> = NUMBERS
        .iter()
        .map(|&number| format!("{number}: {}", tally.count(number)))
        .collect();
    println!(
        "compared {} calls, in {} cases from the seed and all without chance, by the number told: {}",
        tally.calls(),
        tally.cases,
        told.join(", ")
    );
}
