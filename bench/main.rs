//! Our calls beside their peers. `run NAME ..` times some of the parts only.
mod crc32;
mod error;
mod lines;
mod measure;
mod plain;
mod reader;
mod sha;
mod utf8;
mod worst;

// Bytes in front of the library's code, for bench/before: where a loop lies in memory moves its time by up to a quarter.
std::arch::global_asm!(concat!(".section .text.pad,\"ax\"\n.globl bench_pad\nbench_pad: .skip ", env!("BENCH_PAD"), " + 4"));

extern "C" {
    fn bench_pad();
}

fn main() {
    std::hint::black_box(bench_pad as unsafe extern "C" fn()); // or it isn't linked
    let wanted: Vec<String> = std::env::args().skip(1).collect();
    if wanted.first().is_some_and(|w| w == "--peer-lines") {
        return lines::peer().expect("a pipe");
    }
    let parts: [(&str, fn()); 7] = [
        ("crc32", crc32::run),
        ("sha", sha::run),
        ("utf8", utf8::run),
        ("reader", reader::run),
        ("error", error::run),
        ("worst", worst::run),
        ("lines", lines::run),
    ];
    measure::head();
    for (name, part) in parts {
        if wanted.is_empty() || wanted.iter().any(|w| w == name) {
            part();
        }
    }
}
