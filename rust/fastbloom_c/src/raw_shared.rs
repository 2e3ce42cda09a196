//! The calls of the library over words that threads share, which take no hash. What the library
//! asks for is true of them, as `raw_calls` says.

use crate::raw::{of_kind, told, Kind};
use fastbloom_c_sys as sys;
use std::sync::atomic::AtomicU64;

/// The words, as the library takes them.
pub fn passed(words: &[AtomicU64]) -> sys::fastbloom_shared {
    sys::fastbloom_shared {
        words: words.as_ptr().cast::<u64>().cast_mut(),
        num_words: words.len(),
    }
}

/// Removes every item.
pub fn clear(words: &[AtomicU64]) -> bool {
    // SAFETY: the words are a slice of atomic words.
    unsafe { sys::fastbloom_shared_clear(passed(words)) }
}

/// Sets what is found set in the other words. False: the numbers of words differ.
#[must_use]
pub fn union(words: &[AtomicU64], other: &[AtomicU64]) -> bool {
    // SAFETY: both are slices of atomic words.
    unsafe { sys::fastbloom_shared_union(passed(words), passed(other)) }
}

/// Clears what is found clear in the other words. False: the numbers of words differ.
#[must_use]
pub fn intersect(words: &[AtomicU64], other: &[AtomicU64]) -> bool {
    // SAFETY: both are slices of atomic words.
    unsafe { sys::fastbloom_shared_intersect(passed(words), passed(other)) }
}

/// Takes the words out. False: there isn't room for just as many.
#[must_use]
pub fn take(words: &[AtomicU64], taken: &mut [u64]) -> bool {
    // SAFETY: the words are a slice of atomic words, and the others are borrowed for writing, so
    // that they lie elsewhere.
    unsafe { sys::fastbloom_shared_take(passed(words), taken.as_mut_ptr(), taken.len()) }
}

/// Loads the words. False: there isn't room for just as many.
#[must_use]
pub fn load(words: &[AtomicU64], loaded: &mut [u64]) -> bool {
    // SAFETY: the words are a slice of atomic words, and the others are borrowed for writing, so
    // that they lie elsewhere.
    unsafe { sys::fastbloom_shared_load(passed(words), loaded.as_mut_ptr(), loaded.len()) }
}

/// The number of bits that are set, of the words as they are loaded.
pub fn count_ones(words: &[AtomicU64]) -> usize {
    // SAFETY: the words are a slice of atomic words.
    unsafe { sys::fastbloom_shared_count_ones(passed(words)) }
}

/// Two bounds of the rate as it is, in units of 2^-63, of the words as they are loaded. None: there
/// are no words.
pub fn rate_now(kind: Kind, words: &[AtomicU64], num_hashes: u32) -> Option<(u64, u64)> {
    let call = of_kind!(
        kind,
        fastbloom_shared_rate_now,
        fastbloom_blocked_shared_rate_now
    );
    // SAFETY: the words are a slice of atomic words.
    told(|low, high| unsafe { call(passed(words), num_hashes, low, high) })
}

/// Two bounds of the number of items, of the words as they are loaded. None: there are no words.
pub fn estimate(kind: Kind, words: &[AtomicU64], num_hashes: u32) -> Option<(usize, usize)> {
    let call = of_kind!(
        kind,
        fastbloom_shared_estimate,
        fastbloom_blocked_shared_estimate
    );
    // SAFETY: as above.
    told(|low, high| unsafe { call(passed(words), num_hashes, low, high) })
}
