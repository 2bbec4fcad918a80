//! `stun lines` over a million lines beside a plain Rust program for the same lines: two processes in turn.
use crate::measure;
use crate::plain;
use crate::reader;
use std::fs::{self, File};
use std::io::{self, BufRead, BufWriter, Write};
use std::process::{Command, Stdio};
use std::time::Instant;

const LINES: usize = 1_000_000;
const RUNS: usize = 9;
const CAPTURE: &str = "target/bench/lines.txt";

fn hex(out: &mut Vec<u8>, d: &[u8]) {
    for b in d {
        out.extend([b >> 4, b & 15].map(|n| b"0123456789abcdef"[n as usize]));
    }
}

/// Responses, errors and requests, each with an ID of its own; one in ten has a wrong FINGERPRINT, one in a hundred is cut.
fn capture() -> io::Result<u64> {
    let kinds = [reader::response(), reader::response(), reader::error(), reader::request()];
    let mut out = BufWriter::new(File::create(CAPTURE)?);
    let mut line = Vec::new();
    for i in 0..LINES {
        let mut d = kinds[i % kinds.len()].clone();
        let id = (i as u64).wrapping_mul(0x9E37_79B9_7F4A_7C15);
        d[8..16].copy_from_slice(&id.to_be_bytes());
        if i % 10 != 0 {
            reader::seal(&mut d);
        }
        line.clear();
        hex(&mut line, &d[..if i % 100 == 1 { 50 } else { d.len() }]);
        line.push(b'\n');
        out.write_all(&line)?;
    }
    out.flush()?;
    Ok(fs::metadata(CAPTURE)?.len())
}

fn digit(b: u8) -> Option<u8> {
    (b as char).to_digit(16).map(|n| n as u8)
}

fn unhex(s: &[u8], d: &mut Vec<u8>) -> bool {
    d.clear();
    for pair in s.chunks(2) {
        match (digit(pair[0]), pair.get(1).and_then(|b| digit(*b))) {
            (Some(a), Some(b)) => d.push(a << 4 | b),
            _ => return false,
        }
    }
    true
}

/// The peer: a line in, a line out, as one would write it in Rust by hand.
pub fn peer() -> io::Result<()> {
    let (mut input, mut out) = (io::stdin().lock(), BufWriter::new(io::stdout().lock()));
    let (mut line, mut d, mut id) = (Vec::new(), Vec::new(), Vec::new());
    while input.read_until(b'\n', &mut line)? > 0 {
        if !unhex(line.trim_ascii_end(), &mut d) {
            writeln!(out, "?")?;
        } else {
            let said = plain::read(&d);
            id.clear();
            hex(&mut id, d.get(8..20).unwrap_or(&[]));
            let id = std::str::from_utf8(&id).unwrap();
            match said.number {
                0 => writeln!(out, "whole {} {} {id} {}", said.class, said.method, said.count)?,
                n @ 1..=4 => writeln!(out, "refused {n}")?,
                n => writeln!(out, "broken {} {} {id} {n} {}", said.class, said.method, said.place)?,
            }
        }
        line.clear();
    }
    out.flush()
}

fn over_capture(words: &[String]) -> Command {
    let mut c = Command::new(&words[0]);
    c.args(&words[1..]).stdin(File::open(CAPTURE).expect(CAPTURE)).stderr(Stdio::null());
    c
}

fn seconds(words: &[String]) -> f64 {
    let start = Instant::now();
    assert!(over_capture(words).stdout(Stdio::null()).status().expect("runs").success());
    start.elapsed().as_secs_f64()
}

pub fn run() {
    // the launcher proves and builds, and leaves the words that run the program
    assert!(Command::new("./stun").arg("lines").stdin(Stdio::null()).status().expect("./stun").success());
    let mut ours: Vec<String> = fs::read_to_string("target/run/stun").expect("target/run/stun").lines().map(String::from).collect();
    ours.push("lines".into());
    let peer = [std::env::current_exe().expect("a path").display().to_string(), "--peer-lines".into()];
    let bytes = capture().expect(CAPTURE);
    let said = |words: &[String]| over_capture(words).output().expect("runs").stdout;
    assert!(said(&ours) == said(&peer), "stun lines and the plain program differ");
    let (mut a, mut b) = (Vec::new(), Vec::new());
    for _ in 0..RUNS {
        a.push(seconds(&ours));
        b.push(seconds(&peer));
    }
    measure::long_row("stun lines, 1,000,000 lines", bytes, "Rust by hand", a, b);
}
