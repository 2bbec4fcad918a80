//! Two calls timed in turn, and a row of the table for them.
use std::io::stdin;
use std::time::Instant;

/// How long a batch of calls runs at least, in nanoseconds, and how many batches each side gets. A batch is much shorter than
/// the time that the system gives a process at once, so that on a busy machine most batches still run undisturbed.
const BATCH: u128 = 200_000;
const BATCHES: usize = 301;

fn time(call: &mut dyn FnMut(), times: u64) -> u128 {
    let start = Instant::now();
    for _ in 0..times {
        call();
    }
    start.elapsed().as_nanos()
}

/// How many calls fill a batch; of three tries, so that an interruption doesn't make it a small one.
fn fill(call: &mut dyn FnMut()) -> u64 {
    let mut times = 1;
    while (0..3).any(|_| time(call, times) < BATCH) {
        times *= 2;
    }
    times
}

fn median(mut samples: Vec<f64>) -> f64 {
    samples.sort_by(f64::total_cmp);
    samples[samples.len() / 2]
}

extern "C" {
    fn _exit(status: i32) -> !;
}

/// What valgrind counts the instructions of.
#[no_mangle]
#[inline(never)]
extern "C" fn counted(call: &mut &mut dyn FnMut()) {
    call();
}

/// Does bench/before ask, row by row?
fn is_asked() -> bool {
    std::env::var_os("BENCH_ASKED").is_some()
}

/// Its answers: the row's name, then one to each line of standard input until an empty one. `time` is answered with the nanoseconds of a
/// call, from one batch behind a short one that makes the caches ours; `count` makes one call under `counted`, and is the last.
fn asked(name: &str, mut call: &mut dyn FnMut()) {
    println!("{name}");
    let mut n = 0;
    for line in stdin().lines().map_while(Result::ok).take_while(|line| !line.is_empty()) {
        if line == "count" {
            counted(&mut call);
            // valgrind can miss the way out of `counted`, and would count what libraries do at the end
            unsafe { _exit(0) };
        }
        if n == 0 {
            n = fill(call);
        }
        time(call, n / 4 + 1);
        println!("{}", time(call, n) as f64 / n as f64);
    }
}

/// Results are compared before anything is timed, but not where bench/before asks: valgrind would take minutes for it.
pub fn compared(compare: impl FnOnce()) {
    if !is_asked() {
        compare();
    }
}

pub fn head() {
    if is_asked() {
        return;
    }
    println!("{:<28} {:>7}  {:>11} {:>11}  {:<18} {:>7}", "call", "bytes", "ours", "peer", "(peer)", "ratio");
}

/// Prints the medians of both sides, in nanoseconds a call, and the peer's time over ours: above 1 is faster than the peer.
pub fn row(what: &str, bytes: usize, peer: &str, mut ours: impl FnMut(), mut theirs: impl FnMut()) {
    if is_asked() {
        return asked(&format!("{what}, {bytes} bytes, beside {peer}"), &mut ours);
    }
    let (n, m) = (fill(&mut ours), fill(&mut theirs));
    let (mut a, mut b) = (Vec::new(), Vec::new());
    for _ in 0..BATCHES {
        a.push(time(&mut ours, n) as f64 / n as f64);
        b.push(time(&mut theirs, m) as f64 / m as f64);
    }
    let (a, b) = (median(a), median(b));
    println!("{what:<28} {bytes:>7}  {a:>8.1} ns {b:>8.1} ns  {:<18} {:>7.2}", format!("({peer})"), b / a);
}

/// The same of whole runs, in milliseconds.
pub fn long_row(what: &str, bytes: u64, peer: &str, ours: Vec<f64>, theirs: Vec<f64>) {
    let (a, b) = (median(ours) * 1e3, median(theirs) * 1e3);
    println!("{what:<28} {bytes:>7}  {a:>8.1} ms {b:>8.1} ms  {:<18} {:>7.2}", format!("({peer})"), b / a);
}
