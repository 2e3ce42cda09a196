//! Bloom filters: sets of texts and bytes with no false negatives, and with false positives at a
//! chosen rate.
//!
//! ```
//! use fastbloom_c::{BloomFilter, Error, Rate};
//!
//! let mut seen = BloomFilter::with_false_pos(Rate::new(1, 1000)?).expected_items(1_000_000)?;
//! assert!(!seen.insert("crab")); // it is new
//! assert!(seen.contains("crab"));
//!
//! let file = seen.to_bytes();
//! assert_eq!(BloomFilter::from_bytes(&file)?, seen);
//! # Ok::<(), Error>(())
//! ```
//!
//! The work is done by the library fastbloom_c, each call of which is proved, through
//! [`fastbloom_c_sys`]. This crate itself is tested, and not proved. The names are those of the
//! Rust crate fastbloom 0.17.0 where it has them. Three things differ: rates are fractions; what
//! that crate panics on is an [`Error`]; and an item is its bytes, so that other languages find it.
//!
//! # Items
//!
//! An item is anything that is `AsRef<[u8]>`: `str`, `String`, `[u8]`, `Vec<u8>`, arrays. Its hash
//! is SipHash-1-3 of exactly these bytes under the filter's key. All languages of the library share
//! this rule, so that one reads what another wrote. A number is no item:
//!
//! ```compile_fail,E0277
//! let mut seen = fastbloom_c::BloomFilter::with_num_bits(64).unwrap().hashes(1);
//! seen.insert(&5u32);
//! ```
//!
//! What is [`Hash`](std::hash::Hash) is inserted by the hash of any
//! [`BuildHasher`](std::hash::BuildHasher), which the caller keeps, since no file has it:
//!
//! ```
//! use std::hash::{BuildHasher, RandomState};
//!
//! let state = RandomState::new();
//! let mut seen = fastbloom_c::BloomFilter::with_num_bits(1024)?.hashes(4);
//! seen.insert_hash(state.hash_one((5u32, "crab")));
//! assert!(seen.contains_hash(state.hash_one((5u32, "crab"))));
//! # Ok::<(), fastbloom_c::Error>(())
//! ```
//!
//! # Keys
//!
//! The key is zero unless [`seed`](BuilderWithBits::seed) sets another one. Where others choose the
//! items, draw it: who knows the key can choose items that fill the filter, or that are false
//! positives. `Debug` doesn't show the key. A file has it.
//!
//! # Threads
//!
//! A [`BloomFilter`] is `Send` and `Sync`: a call that changes it takes `&mut self`, and threads
//! look up at once through `&self`. An [`AtomicBloomFilter`] is for threads that insert at once:
//! each call takes `&self`, takes no lock, and waits for no thread. Where one thread inserts, take
//! the first, whose inserts are quicker. A [`BlockedBloomFilter`] and an [`AtomicBlockedBloomFilter`] are as
//! these two.
//!
//! # Panics
//!
//! The library is built for processors of x86-64-v2, which have SSE4.2. On an older one each call
//! that makes a filter or a hash panics.
#![deny(
    missing_docs,
    unsafe_code,
    unsafe_op_in_unsafe_fn,
    clippy::undocumented_unsafe_blocks
)]

mod blocked;
mod blocked_shared;
mod bloom;
mod builder;
mod error;
mod estimates;
mod file;
mod growing;
mod in_file;
mod many;
#[allow(unsafe_code)]
mod mapped;
mod operators;
mod paths;
mod pieces;
mod plain_calls;
mod rate;
#[allow(unsafe_code)]
mod raw;
#[allow(unsafe_code)]
mod raw_calls;
#[allow(unsafe_code)]
mod raw_shared;
#[allow(unsafe_code)]
mod raw_units;
mod rotating;
mod shared;
mod shared_calls;

pub use blocked::{
    BlockedBloomFilter, BlockedBuilderWithBits, BlockedBuilderWithFalsePositiveRate,
};
pub use blocked_shared::{AtomicBlockedBloomFilter, AtomicLines};
pub use bloom::{hash, BloomFilter};
pub use builder::{BuilderWithBits, BuilderWithFalsePositiveRate};
pub use error::Error;
pub use estimates::Estimate;
pub use growing::{GrowingBlockedFilter, GrowingFilter};
pub use in_file::Limits;
pub use mapped::{MappedBlockedFilter, MappedFilter, MappedWords};
pub use pieces::Hasher;
pub use rate::{Bracket, Rate};
pub use rotating::RotatingFilter;
pub use shared::AtomicBloomFilter;
