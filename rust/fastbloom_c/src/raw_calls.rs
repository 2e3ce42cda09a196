//! The calls of the library on the words of filters.
//!
//! What the library asks for is true of each call here, as of those in `raw`: all pointers are
//! those of slices, and what a `&mut` borrows overlaps with nothing else. A slice of atomic words is
//! aligned to 8, initialized, and stays where it is while it is borrowed, so until the call has
//! returned. Rust's `&[AtomicU64]` lets nobody touch its words but by atomic operations, which is
//! what the library asks for. The processor can run the library, since a filter is made only after
//! a check of it.

use crate::raw::Key;
use crate::raw_shared::passed;
use fastbloom_c_sys as sys;
use std::sync::atomic::AtomicU64;

/// The calls of a kind of filters that take hashes or items, by these functions of the library. A
/// call takes the words as a reference of this type, or of the second one if it changes them, and
/// hands on the arguments that follow the type.
macro_rules! calls_of_kind {
    (
        $words:ident: $read:ty as ($($at:expr),+), or $write:ty as ($($at_mut:expr),+),
        $insert:ident, $contains:ident, $insert_hash:ident, $contains_hash:ident,
        $insert_hashes:ident, $contains_hashes:ident, $insert_hashes_tell_new:ident
    ) => {
        /// Inserts the hash of the bytes, and returns whether all its positions were found set.
        pub fn insert($words: $write, num_hashes: u32, key: &Key, bytes: &[u8]) -> bool {
            let (key, bytes, len) = (key.as_ptr(), bytes.as_ptr(), bytes.len());
            // SAFETY: the key has sixteen bytes, and the others are slices of their lengths.
            unsafe { sys::$insert($($at_mut,)+ num_hashes, key, bytes, len) }
        }

        /// Whether all positions of the hash of the bytes are found set.
        pub fn contains($words: $read, num_hashes: u32, key: &Key, bytes: &[u8]) -> bool {
            let (key, bytes, len) = (key.as_ptr(), bytes.as_ptr(), bytes.len());
            // SAFETY: as above.
            unsafe { sys::$contains($($at,)+ num_hashes, key, bytes, len) }
        }

        /// Inserts a hash, and returns whether all its positions were found set.
        pub fn insert_hash($words: $write, num_hashes: u32, hash: u64) -> bool {
            // SAFETY: the words are a slice of their length.
            unsafe { sys::$insert_hash($($at_mut,)+ num_hashes, hash) }
        }

        /// Whether all positions of a hash are found set.
        pub fn contains_hash($words: $read, num_hashes: u32, hash: u64) -> bool {
            // SAFETY: as above.
            unsafe { sys::$contains_hash($($at,)+ num_hashes, hash) }
        }

        /// Inserts many hashes.
        pub fn insert_hashes($words: $write, num_hashes: u32, hashes: &[u64]) -> bool {
            // SAFETY: both are slices of their lengths.
            unsafe { sys::$insert_hashes($($at_mut,)+ num_hashes, hashes.as_ptr(), hashes.len()) }
        }

        /// Looks many hashes up, each with a bit. False: there are fewer bits than hashes.
        #[must_use]
        pub fn contains_hashes(
            $words: $read,
            num_hashes: u32,
            hashes: &[u64],
            bits: &mut [u64],
        ) -> bool {
            let (hashes, count) = (hashes.as_ptr(), hashes.len());
            let (bits, room) = (bits.as_mut_ptr(), bits.len());
            // SAFETY: all are slices of their lengths.
            unsafe { sys::$contains_hashes($($at,)+ num_hashes, hashes, count, bits, room) }
        }

        /// Inserts many hashes, and tells by a bit which set a bit. False: there are fewer bits
        /// than hashes.
        #[must_use]
        pub fn insert_hashes_tell_new(
            $words: $write,
            num_hashes: u32,
            hashes: &[u64],
            bits: &mut [u64],
        ) -> bool {
            let (hashes, count) = (hashes.as_ptr(), hashes.len());
            let (bits, room) = (bits.as_mut_ptr(), bits.len());
            // SAFETY: as above.
            unsafe {
                sys::$insert_hashes_tell_new($($at_mut,)+ num_hashes, hashes, count, bits, room)
            }
        }
    };
}

/// The calls on the words of filters that aren't blocked.
pub mod whole {
    use super::*;

    calls_of_kind!(
        words: &[u64] as (words.as_ptr(), words.len()),
        or &mut [u64] as (words.as_mut_ptr(), words.len()),
        fastbloom_insert, fastbloom_contains, fastbloom_insert_hash, fastbloom_contains_hash,
        fastbloom_insert_hashes, fastbloom_contains_hashes, fastbloom_insert_hashes_tell_new
    );
}

/// The calls on the words of blocked filters, eight in a line.
pub mod blocked {
    use super::*;

    calls_of_kind!(
        words: &[u64] as (words.as_ptr(), words.len()),
        or &mut [u64] as (words.as_mut_ptr(), words.len()),
        fastbloom_blocked_insert, fastbloom_blocked_contains, fastbloom_blocked_insert_hash,
        fastbloom_blocked_contains_hash, fastbloom_blocked_insert_hashes,
        fastbloom_blocked_contains_hashes, fastbloom_blocked_insert_hashes_tell_new
    );
}

/// The calls on words that threads share, of filters that aren't blocked.
pub mod shared {
    use super::*;

    calls_of_kind!(
        words: &[AtomicU64] as (passed(words)), or &[AtomicU64] as (passed(words)),
        fastbloom_shared_insert, fastbloom_shared_contains, fastbloom_shared_insert_hash,
        fastbloom_shared_contains_hash, fastbloom_shared_insert_hashes,
        fastbloom_shared_contains_hashes, fastbloom_shared_insert_hashes_tell_new
    );
}

/// The calls on words that threads share, of blocked filters.
pub mod blocked_shared {
    use super::*;

    calls_of_kind!(
        words: &[AtomicU64] as (passed(words)), or &[AtomicU64] as (passed(words)),
        fastbloom_blocked_shared_insert, fastbloom_blocked_shared_contains,
        fastbloom_blocked_shared_insert_hash, fastbloom_blocked_shared_contains_hash,
        fastbloom_blocked_shared_insert_hashes, fastbloom_blocked_shared_contains_hashes,
        fastbloom_blocked_shared_insert_hashes_tell_new
    );
}
