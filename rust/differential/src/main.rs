//! differential [CASES [SEED]]: the longer run, outside the gate.

use std::process::ExitCode;

fn main() -> ExitCode {
    let mut arguments = std::env::args().skip(1).map(|a| a.parse::<u64>());
    let (Ok(cases), Ok(seed), None) = (
        arguments.next().unwrap_or(Ok(1_000_000)),
        arguments.next().unwrap_or(Ok(1)),
        arguments.next(),
    ) else {
        eprintln!("usage: differential [CASES [SEED]]");
        return ExitCode::from(2);
    };
    let tally = differential::run(cases, seed, true);
    let (lines, all) = differential::report(&tally);
    print!("{lines}");
    if !all {
        println!("a number was not reached");
        return ExitCode::FAILURE;
    }
    println!(
        "{cases} cases from seed {seed} and all without chance: {} comparisons, no difference",
        tally.calls()
    );
    ExitCode::SUCCESS
}
