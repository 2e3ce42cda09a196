//! The filter that each language builds, its file, and files that every reader refuses.
//!
//! `FASTBLOOM_FILES` may name the folder for the files that each language writes.

use fastbloom_c::{hash, BlockedBloomFilter, BloomFilter, Rate};
use std::path::{Path, PathBuf};
use std::process::Command;
use std::{array, env, fs};

/// The files go to this folder.
fn folder() -> PathBuf {
    let folder = env::var_os("FASTBLOOM_FILES");
    folder.map_or_else(|| env!("CARGO_TARGET_TMPDIR").into(), PathBuf::from)
}

fn names() -> impl ExactSizeIterator<Item = String> {
    (0..1000u32).map(|number| format!("item{number}"))
}

fn rate() -> Rate {
    Rate::new(1, 1000).expect("a rate")
}

fn items() -> BloomFilter {
    BloomFilter::with_false_pos(rate())
        .items(names())
        .expect("a filter")
}

#[test]
fn values_from_outside() {
    let seen = items();
    let others = (1000..101_000).map(|number| format!("item{number}"));
    let wrong = others.filter(|name| seen.contains(name)).count();
    let digest = seen
        .iter()
        .fold(1_469_598_103_934_665_603u64, |digest, word| {
            (digest ^ word).wrapping_mul(1_099_511_628_211)
        });
    let counting: [u8; 16] = array::from_fn(|place| place as u8);
    let told = format!(
        "words {} hashes {}\nhash {:016x}\ndigest {digest:016x}\nfalse {wrong} of 100000\n",
        seen.iter().len(),
        seen.num_hashes(),
        hash(&counting, &counting[..15]),
    );
    assert_eq!(told, include_str!("../../items.text"));
}

#[test]
fn the_file_is_written_and_read() {
    let (seen, path) = (items(), folder().join("rust.bloom"));
    fs::write(&path, seen.to_bytes()).expect("a file");
    let read = fs::read(&path).expect("its bytes");
    assert_eq!(BloomFilter::from_bytes(&read), Ok(seen));
}

#[test]
fn the_file_of_a_blocked_filter_is_written_and_read() {
    let path = folder().join("rust.blocked");
    let seen = BlockedBloomFilter::with_false_pos(rate()).items(names());
    let seen = seen.expect("a filter");
    seen.save(&path).expect("a file");
    assert_eq!(BlockedBloomFilter::load(&path), Ok(seen));
}

#[test]
fn files_are_refused() {
    let folder = Path::new(env!("CARGO_TARGET_TMPDIR"));
    let (good, refused) = (folder.join("good.bloom"), folder.join("refused"));
    let _ = fs::remove_dir_all(&refused);
    fs::write(&good, items().to_bytes()).expect("a file");
    let program = concat!(env!("CARGO_MANIFEST_DIR"), "/../refused.py");
    let made = Command::new(program).args([&good, &refused]).status();
    assert!(made.expect("Python").success());
    let mut count = 0;
    for entry in fs::read_dir(&refused).expect("files") {
        let path = entry.expect("a file").path();
        let name = path.file_name().expect("a name").to_string_lossy();
        let number: u8 = name
            .split('-')
            .next()
            .expect("a number")
            .parse()
            .expect(&name);
        let told = BloomFilter::from_bytes(&fs::read(&path).expect("its bytes"));
        assert_eq!(told.expect_err(&name).code(), Some(number), "{name}");
        count += 1;
    }
    assert_eq!(count, 35);
}
