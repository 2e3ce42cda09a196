//! A growing filter holds back what the program `duplicates` does, whose filter is proved.

use fastbloom_c::{GrowingBlockedFilter, GrowingFilter, Rate};
use std::io::{self, Write};
use std::path::Path;
use std::process::Command;
use std::{env, fs};

/// The number of an index that a seed draws, by splitmix64.
fn drawn(seed: u64, index: u64) -> u64 {
    let word = ((seed << 32) + index).wrapping_add(0x9e37_79b9_7f4a_7c15);
    let word = (word ^ (word >> 30)).wrapping_mul(0xbf58_476d_1ce4_e5b9);
    let word = (word ^ (word >> 27)).wrapping_mul(0x94d0_49bb_1331_11eb);
    word ^ (word >> 31)
}

/// Compares what both hold back of lines that a seed draws, some of which come again.
fn compare(program: &Path, seed: u64) {
    let items = [1, 7, 100][drawn(seed, 0) as usize % 3];
    let rate = ["1/2", "1/10", "1/100", "1/100000"][drawn(seed, 1) as usize % 4];
    let key = u128::from(drawn(seed, 2)) << 64 | u128::from(drawn(seed, 3));
    let lines: Vec<_> = (4..5004)
        .map(|index| format!("line{}", drawn(seed, index) % 3000))
        .collect();
    let path = Path::new(env!("CARGO_TARGET_TMPDIR")).join(format!("lines{seed}"));
    fs::write(&path, lines.join("\n") + "\n").expect("a file");
    let told = Command::new(program)
        .args(["--held-back", "--quiet", "--rate", rate])
        .args([
            "--items",
            &items.to_string(),
            "--key",
            &format!("{key:032x}"),
        ])
        .arg(&path)
        .output()
        .expect("a run");
    let errors = String::from_utf8_lossy(&told.stderr);
    assert!(told.status.success() && errors.is_empty(), "{errors}");
    let parsed: Rate = rate.parse().expect("a rate");
    // Below 1/10000 the program grows by plain filters, and else by blocked ones.
    let held: Vec<_> = if rate == "1/100000" {
        let mut seen = GrowingFilter::seeded(parsed, items, &key).expect("a filter");
        let is_held = |line: &&String| seen.insert(*line).expect("room");
        lines.iter().filter(is_held).collect()
    } else {
        let mut seen = GrowingBlockedFilter::seeded(parsed, items, &key).expect("a filter");
        let is_held = |line: &&String| seen.insert(*line).expect("room");
        lines.iter().filter(is_held).collect()
    };
    let told = String::from_utf8(told.stdout).expect("lines");
    assert_eq!(told.lines().collect::<Vec<_>>(), held, "{items} at {rate}");
}

#[test]
fn they_hold_back_what_duplicates_does() {
    let program =
        Path::new(env!("CARGO_MANIFEST_DIR")).join("../../crates/duplicates/out/duplicates");
    if program.exists() {
        (0..12).for_each(|seed| compare(&program, seed));
    } else {
        // The test's own output isn't shown where it passes.
        let told = b"\nskipped: Rust, filters that grow: duplicates isn't built\n";
        io::stderr().write_all(told).expect("standard error");
    }
}
