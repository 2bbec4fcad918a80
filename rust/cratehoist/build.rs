//! Has the library proved and compiled where that wasn't done since the last edit, and links it.
use std::path::Path;
use std::process::Command;

fn main() {
    let root = Path::new(env!("CARGO_MANIFEST_DIR")).join("../..");
    // what a crate is made of; rt writes beside it
    let crates = root.join("crates").read_dir().expect("the crates");
    let crates = crates.map(|folder| folder.expect("a crate").path());
    let parts = crates.flat_map(|folder| ["src", "specs", "proofs"].map(|part| folder.join(part)));
    for part in
        parts.chain(["crates.txt", "tools/native-lib", "tools/prove"].map(|file| root.join(file)))
    {
        if part.exists() {
            println!("cargo:rerun-if-changed={}", part.display());
        }
    }
    let made = Command::new(root.join("tools/native-lib"))
        .arg("cratehoist")
        .output();
    let made = made.expect("tools/native-lib can be run");
    assert!(
        made.status.success(),
        "tools/native-lib: {}",
        String::from_utf8_lossy(&made.stderr)
    );
    let archive = String::from_utf8(made.stdout).expect("a path in UTF-8");
    let folder = Path::new(archive.trim())
        .parent()
        .expect("the archive lies in a folder");
    println!("cargo:rustc-link-search=native={}", folder.display());
    println!("cargo:rustc-link-lib=static=cratehoist");
}
