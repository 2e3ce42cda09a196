//! The size of a file is compared before memory is asked for.

use fastbloom_c::{BlockedBloomFilter, BloomFilter, Error};
use std::fs::{self, OpenOptions};
use std::{env, process};

/// The most memory that this process has had, in KiB.
fn peak() -> u64 {
    let status = fs::read_to_string("/proc/self/status").expect("the status");
    let line = status.lines().find(|line| line.starts_with("VmHWM:"));
    let number = line.expect("the peak").split_whitespace().nth(1);
    number.expect("a number").parse().expect("digits")
}

#[test]
fn a_file_that_promises_more_than_it_has_is_not_read() {
    const SIZE: u64 = 1 << 28; // of a hole, which takes no room on the disk
    let path = env::temp_dir().join(format!("fastbloom-sizes-{}.bloom", process::id()));
    let plain = BloomFilter::with_num_bits(64).expect("bits").hashes(4);
    let lines = BlockedBloomFilter::with_num_bits(512)
        .expect("bits")
        .hashes(4);
    for mut head in [plain.head(true), lines.head(true)] {
        head[16..24].copy_from_slice(&(1u64 << 50).to_le_bytes());
        fs::write(&path, head).expect("room");
        let file = OpenOptions::new().write(true).open(&path).expect("a file");
        file.set_len(SIZE).expect("room");
        let before = peak();
        let refused = (
            BloomFilter::load(&path).err(),
            BlockedBloomFilter::load(&path).err(),
        );
        assert_eq!(refused, (Some(Error::Cut), Some(Error::Cut)));
        assert!(peak() - before < SIZE / 1024 / 4);
    }
    fs::remove_file(&path).expect("a file");
}
