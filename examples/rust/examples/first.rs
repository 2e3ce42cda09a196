//! A first use of the crate: `first FILE` keeps a filter of texts in a file.

use fastbloom_c::{BloomFilter, Rate};
use std::error::Error;

fn main() -> Result<(), Box<dyn Error>> {
    let path = std::env::args().nth(1).ok_or("usage: first FILE")?;
    // example filter
    // Where others choose the items, draw the key: `.seed(&drawn)` before the size.
    let mut seen = BloomFilter::with_false_pos(Rate::new(1, 1000)?).expected_items(1_000_000)?;
    for name in ["crab", "lobster", "crab"] {
        let before = seen.insert(name);
        println!("{name}: {}", if before { "seen before" } else { "new" });
    }
    seen.save(&path)?;
    let read = BloomFilter::load(&path)?;
    let kept = read.contains("crab") && read == seen;
    println!("{}", if kept { "read back" } else { "lost" });
    // end of example
    Ok(())
}
