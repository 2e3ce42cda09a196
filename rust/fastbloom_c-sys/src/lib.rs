//! The calls of the library fastbloom_c, as `include/fastbloom.h` declares them: Bloom filters over
//! words that the caller owns. The crate `fastbloom_c` has safe calls over these.
//!
//! A filter is an array of `num_words` words of 64 bits, and a number of hashes, where none counts
//! as one. An array of zeros is the empty filter. No words are no filter: each call that returns a
//! `bool` returns false for them, and changes nothing. No call unwinds, and none allocates memory,
//! waits, or keeps a pointer, but for those on files.
//!
//! ```
//! use fastbloom_c_sys::{fastbloom_contains, fastbloom_insert, fastbloom_plan, FASTBLOOM_OK};
//!
//! let (mut num_words, mut num_hashes) = (0, 0);
//! // SAFETY: both numbers may be written.
//! let code = unsafe { fastbloom_plan(1, 1000, 1_000_000, &mut num_words, &mut num_hashes) };
//! assert_eq!(code, FASTBLOOM_OK);
//!
//! let (mut words, key, item) = (vec![0; num_words], [0; 16], b"crab");
//! let (at, key) = (words.as_mut_ptr(), key.as_ptr());
//! // SAFETY: the words are a vector of this length, the key has sixteen bytes, the item is a slice
//! // of its length, and no other thread has the words.
//! unsafe {
//!     assert!(!fastbloom_insert(at, num_words, num_hashes, key, item.as_ptr(), item.len()));
//!     assert!(fastbloom_contains(at, num_words, num_hashes, key, item.as_ptr(), item.len()));
//! }
//! ```
//!
//! # Safety
//!
//! The caller of each function keeps these rules:
//!
//! - No pointer is null, even where a length is 0. Pointers to `u64`, `u32` and `usize` are
//!   aligned.
//! - Each pointer is to memory of the length that is given, at most 2^63 - 1 bytes, which stays
//!   where it is while the call runs. A key has 16 bytes, and a head 64. What is read is
//!   initialized.
//! - Memory that a call may write, which a `*mut` points to, overlaps with nothing else that the
//!   call is given.
//! - While a call runs that may write words, no other thread or process touches them. While a call
//!   runs that reads words, none writes them. Calls that read may run at once.
//! - The calls on a [`fastbloom_shared`] have a rule of their own for its words: threads and
//!   processes may make them on the same words at once. The words are aligned to 8, stay where they
//!   are until the last of these calls has returned, and are touched by atomic operations alone
//!   meanwhile. They may be null where their number is 0.
//! - The processor has SSE4.2 (x86-64-v2).
#![no_std]
#![deny(missing_docs)]

use core::ffi::c_char;

/// The version of the header that these declarations follow.
pub const FASTBLOOM_VERSION: &str = "0.17.0";

/// Success.
pub const FASTBLOOM_OK: u8 = 0;
/// Zero bits.
pub const FASTBLOOM_ZERO_BITS: u8 = 1;
/// No words.
pub const FASTBLOOM_EMPTY_WORDS: u8 = 2;
/// More than 2^58 - 1 words.
pub const FASTBLOOM_TOO_MANY_WORDS: u8 = 3;
/// A part of the rate is zero.
pub const FASTBLOOM_ZERO_RATE: u8 = 4;
/// 2^64 bits or more.
pub const FASTBLOOM_SIZE_OVERFLOW: u8 = 5;
/// Out of memory.
pub const FASTBLOOM_MEMORY: u8 = 6;
/// 0 hashes, or 2^32 and more.
pub const FASTBLOOM_HASH_COUNT: u8 = 7;
/// A thread couldn't be started.
pub const FASTBLOOM_WORKER: u8 = 8;
/// The file has fewer than eight bytes, or doesn't begin with `fbloom` and a zero byte.
pub const FASTBLOOM_NOT_A_FILTER: u8 = 9;
/// The version of the file isn't `1`.
pub const FASTBLOOM_UNKNOWN_VERSION: u8 = 10;
/// The file ends before its last word.
pub const FASTBLOOM_CUT: u8 = 11;
/// Bytes follow the last word.
pub const FASTBLOOM_TOO_LONG: u8 = 12;
/// A byte that must be zero isn't.
pub const FASTBLOOM_RESERVED: u8 = 13;
/// The seal is wrong: the file was changed.
pub const FASTBLOOM_SEAL: u8 = 14;
/// A read failed.
pub const FASTBLOOM_INPUT: u8 = 15;
/// Words are no whole lines.
pub const FASTBLOOM_PART_OF_A_LINE: u8 = 16;
/// The file has a blocked filter.
pub const FASTBLOOM_BLOCKED: u8 = 17;
/// The file's filter isn't blocked.
pub const FASTBLOOM_NOT_BLOCKED: u8 = 18;
/// A file that is to be shared has a seal.
pub const FASTBLOOM_SEALED: u8 = 252;
/// A write failed.
pub const FASTBLOOM_OUTPUT: u8 = 253;
/// A rate of 1 or above, in C++.
pub const FASTBLOOM_RATE_TOO_LARGE: u8 = 254;
/// More hashes than the caller allows.
pub const FASTBLOOM_TOO_MANY_HASHES: u8 = 255;

/// A file is mapped to be read alone.
pub const FASTBLOOM_MAP_READ: u32 = 0;
/// A file is mapped, and what is written stays in the process.
pub const FASTBLOOM_MAP_COPY: u32 = 1;
/// A file is mapped, and what is written goes into it.
pub const FASTBLOOM_MAP_SHARE: u32 = 2;

/// A hasher of bytes that come in pieces. The caller owns it and may copy it. The key is in it, and
/// up to seven of the bytes.
#[repr(C)]
#[derive(Clone, Copy)]
#[allow(non_camel_case_types)]
pub struct fastbloom_hasher {
    /// What [`fastbloom_hasher_init`] begins, and [`fastbloom_hasher_update`] goes on with.
    pub words: [u64; 8],
}

/// Words that threads and processes share, as the calls on them take them.
#[repr(C)]
#[derive(Clone, Copy)]
#[allow(non_camel_case_types)]
pub struct fastbloom_shared {
    /// The first word.
    pub words: *mut u64,
    /// How many there are.
    pub num_words: usize,
}

/// A filter that a call on files reads, maps or writes.
#[repr(C)]
#[derive(Clone, Copy)]
#[allow(non_camel_case_types)]
pub struct fastbloom_filter {
    /// The first word, or null where there is none.
    pub words: *mut u64,
    /// How many there are.
    pub num_words: usize,
    /// The number of positions that an item has.
    pub num_hashes: u32,
    /// The sixteen bytes of the key.
    pub key: [u8; 16],
}

/// What a reader takes at most, of a file that others may have made.
#[repr(C)]
#[derive(Clone, Copy)]
#[allow(non_camel_case_types)]
pub struct fastbloom_limits {
    /// The number of words.
    pub max_words: usize,
    /// The number of hashes.
    pub max_hashes: u32,
}

extern "C" {
    /// The version of the library that runs. The text stays where it is.
    pub fn fastbloom_version() -> *const c_char;

    /// A status code in words, also one that the library doesn't know. The text stays where it is.
    pub fn fastbloom_strerror(code: u8) -> *const c_char;

    /// The numbers of words and of hashes for this many items at the rate `num / den`. It returns
    /// [`FASTBLOOM_OK`]; or [`FASTBLOOM_ZERO_RATE`], [`FASTBLOOM_SIZE_OVERFLOW`] or
    /// [`FASTBLOOM_TOO_MANY_WORDS`], and then both numbers are 0.
    #[must_use]
    pub fn fastbloom_plan(
        num: u64,
        den: u64,
        items: usize,
        num_words: *mut usize,
        num_hashes: *mut u32,
    ) -> u8;

    /// 64 times `num_words`, or 0 where that is more than 2^58 - 1.
    pub fn fastbloom_num_bits(num_words: usize) -> usize;

    /// Two bounds of the rate of false positives to expect once this many items are in the filter,
    /// as fractions of 2^63. It returns [`FASTBLOOM_OK`]; or [`FASTBLOOM_EMPTY_WORDS`] or
    /// [`FASTBLOOM_TOO_MANY_WORDS`], and then the bounds are 0 and 2^63.
    #[must_use]
    pub fn fastbloom_expected_rate(
        num_words: usize,
        num_hashes: u32,
        items: usize,
        low: *mut u64,
        high: *mut u64,
    ) -> u8;

    /// As [`fastbloom_expected_rate`], of the mean rate itself, of which the classical formula is a
    /// lower bound.
    #[must_use]
    pub fn fastbloom_rate_bounds(
        num_words: usize,
        num_hashes: u32,
        items: usize,
        low: *mut u64,
        high: *mut u64,
    ) -> u8;

    /// SipHash-1-3 of exactly these bytes under the key.
    pub fn fastbloom_hash(key: *const u8, bytes: *const u8, len: usize) -> u64;

    /// The hashes of many items, whose bytes lie one behind the other: item i is those from
    /// `offsets[i]` up to `offsets[i + 1]`. It returns true. Where there isn't one offset more than
    /// hashes (or none of both), or an item ends before it begins or past `len`, it returns false
    /// and writes nothing.
    #[must_use]
    pub fn fastbloom_hash_items(
        key: *const u8,
        bytes: *const u8,
        len: usize,
        offsets: *const u64,
        num_offsets: usize,
        hashes: *mut u64,
        count: usize,
    ) -> bool;

    /// Begins with no bytes, under the key.
    pub fn fastbloom_hasher_init(hasher: *mut fastbloom_hasher, key: *const u8);

    /// Takes in a piece of the bytes.
    pub fn fastbloom_hasher_update(hasher: *mut fastbloom_hasher, bytes: *const u8, len: usize);

    /// [`fastbloom_hash`] of all pieces so far, one behind the other. More pieces may follow. A
    /// hasher that wasn't begun has a hash of no meaning.
    pub fn fastbloom_hasher_finish(hasher: *const fastbloom_hasher) -> u64;

    /// Sets all positions of a hash, and returns whether all were set just before.
    pub fn fastbloom_insert_hash(
        words: *mut u64,
        num_words: usize,
        num_hashes: u32,
        hash: u64,
    ) -> bool;

    /// Sets all positions of each of `count` hashes, and returns true.
    pub fn fastbloom_insert_hashes(
        words: *mut u64,
        num_words: usize,
        num_hashes: u32,
        hashes: *const u64,
        count: usize,
    ) -> bool;

    /// Whether all positions of a hash are set.
    pub fn fastbloom_contains_hash(
        words: *const u64,
        num_words: usize,
        num_hashes: u32,
        hash: u64,
    ) -> bool;

    /// Looks `count` hashes up, and returns true: bit `i % 64` of word `i / 64` of `found` is set
    /// where all positions of hash `i` are set, and every other bit is cleared. Where there are
    /// more hashes than bits, it returns false and changes nothing.
    #[must_use]
    pub fn fastbloom_contains_hashes(
        words: *const u64,
        num_words: usize,
        num_hashes: u32,
        hashes: *const u64,
        count: usize,
        found: *mut u64,
        num_found: usize,
    ) -> bool;

    /// Inserts `count` hashes, one after the other, and returns true: bit `i % 64` of word `i / 64`
    /// of `fresh` is set where not all positions of hash `i` were set just before its insert, and
    /// every other bit is cleared. Where there are more hashes than bits, it returns false and
    /// changes nothing.
    #[must_use]
    pub fn fastbloom_insert_hashes_tell_new(
        words: *mut u64,
        num_words: usize,
        num_hashes: u32,
        hashes: *const u64,
        count: usize,
        fresh: *mut u64,
        num_fresh: usize,
    ) -> bool;

    /// [`fastbloom_insert_hash`] at the hash of the bytes.
    pub fn fastbloom_insert(
        words: *mut u64,
        num_words: usize,
        num_hashes: u32,
        key: *const u8,
        bytes: *const u8,
        len: usize,
    ) -> bool;

    /// [`fastbloom_contains_hash`] at the hash of the bytes.
    pub fn fastbloom_contains(
        words: *const u64,
        num_words: usize,
        num_hashes: u32,
        key: *const u8,
        bytes: *const u8,
        len: usize,
    ) -> bool;

    /// Clears every position.
    pub fn fastbloom_clear(words: *mut u64, num_words: usize) -> bool;

    /// Sets every position that is set in the other filter, and returns true. Where the numbers of
    /// words differ, it returns false and changes nothing.
    #[must_use]
    pub fn fastbloom_union(
        words: *mut u64,
        num_words: usize,
        other: *const u64,
        num_other: usize,
    ) -> bool;

    /// Clears every position that is clear in the other filter, and returns true. Where the numbers
    /// of words differ, it returns false and changes nothing.
    #[must_use]
    pub fn fastbloom_intersect(
        words: *mut u64,
        num_words: usize,
        other: *const u64,
        num_other: usize,
    ) -> bool;

    /// Whether both filters have as many words, and equal ones.
    pub fn fastbloom_equal(
        words: *const u64,
        num_words: usize,
        other: *const u64,
        num_other: usize,
    ) -> bool;

    /// The number of positions that are set, or 0 where `num_words` is more than 2^58 - 1.
    pub fn fastbloom_count_ones(words: *const u64, num_words: usize) -> usize;

    /// Two bounds of the number of items at which as many positions are expected to be set, and
    /// true. `high` is `usize::MAX` where there is no upper bound. For no words, and for more than
    /// 2^58 - 1, it returns false, and both bounds are 0.
    #[must_use]
    pub fn fastbloom_estimate(
        words: *const u64,
        num_words: usize,
        num_hashes: u32,
        low: *mut usize,
        high: *mut usize,
    ) -> bool;

    /// As [`fastbloom_estimate`], of the union of two filters. Where the numbers of words differ,
    /// it returns false too.
    #[must_use]
    pub fn fastbloom_estimate_union(
        words: *const u64,
        num_words: usize,
        other: *const u64,
        num_other: usize,
        num_hashes: u32,
        low: *mut usize,
        high: *mut usize,
    ) -> bool;

    /// As [`fastbloom_estimate`], of what two filters have in common. Where the numbers of words
    /// differ, it returns false too.
    #[must_use]
    pub fn fastbloom_estimate_common(
        words: *const u64,
        num_words: usize,
        other: *const u64,
        num_other: usize,
        num_hashes: u32,
        low: *mut usize,
        high: *mut usize,
    ) -> bool;

    /// Two bounds of the part of the items of two filters that both have, as fractions of 2^63. It
    /// returns what [`fastbloom_estimate_common`] does.
    #[must_use]
    pub fn fastbloom_jaccard(
        words: *const u64,
        num_words: usize,
        other: *const u64,
        num_other: usize,
        num_hashes: u32,
        low: *mut u64,
        high: *mut u64,
    ) -> bool;

    /// Two bounds of the rate of false positives of the filter as it is, as fractions of 2^63.
    /// Where `num_words` is 0 or more than 2^58 - 1, it returns false, and both bounds are 0.
    #[must_use]
    pub fn fastbloom_rate_now(
        words: *const u64,
        num_words: usize,
        num_hashes: u32,
        low: *mut u64,
        high: *mut u64,
    ) -> bool;

    /// How many items a filter takes at the mean rate `num / den` of false positives: with one more
    /// the upper bound of [`fastbloom_rate_bounds`] is above it. It is 0 where there are no words, or
    /// too many, or a part of the rate is 0.
    pub fn fastbloom_capacity(num_words: usize, num_hashes: u32, num: u64, den: u64) -> usize;

    /// As [`fastbloom_rate_bounds`], of a blocked filter, in floating point: to a part of 10^-12, and
    /// not proved.
    #[must_use]
    pub fn fastbloom_blocked_rate_bounds(
        num_words: usize,
        num_hashes: u32,
        items: usize,
        low: *mut u64,
        high: *mut u64,
    ) -> u8;

    /// As [`fastbloom_capacity`], by [`fastbloom_blocked_rate_bounds`].
    pub fn fastbloom_blocked_capacity(
        num_words: usize,
        num_hashes: u32,
        num: u64,
        den: u64,
    ) -> usize;

    /// As [`fastbloom_rate_now`], of a blocked filter: a look-up draws a line, and then positions.
    /// Fewer than eight words are no filter.
    #[must_use]
    pub fn fastbloom_blocked_rate_now(
        words: *const u64,
        num_words: usize,
        num_hashes: u32,
        low: *mut u64,
        high: *mut u64,
    ) -> bool;

    /// As [`fastbloom_estimate`], of a blocked filter, in floating point and not proved.
    #[must_use]
    pub fn fastbloom_blocked_estimate(
        words: *const u64,
        num_words: usize,
        num_hashes: u32,
        low: *mut usize,
        high: *mut usize,
    ) -> bool;

    /// As [`fastbloom_estimate_union`], of blocked filters.
    #[must_use]
    pub fn fastbloom_blocked_estimate_union(
        words: *const u64,
        num_words: usize,
        other: *const u64,
        num_other: usize,
        num_hashes: u32,
        low: *mut usize,
        high: *mut usize,
    ) -> bool;

    /// As [`fastbloom_estimate_common`], of blocked filters.
    #[must_use]
    pub fn fastbloom_blocked_estimate_common(
        words: *const u64,
        num_words: usize,
        other: *const u64,
        num_other: usize,
        num_hashes: u32,
        low: *mut usize,
        high: *mut usize,
    ) -> bool;

    /// As [`fastbloom_jaccard`], of blocked filters.
    #[must_use]
    pub fn fastbloom_blocked_jaccard(
        words: *const u64,
        num_words: usize,
        other: *const u64,
        num_other: usize,
        num_hashes: u32,
        low: *mut u64,
        high: *mut u64,
    ) -> bool;

    /// As [`fastbloom_plan`], for a blocked filter, whose words are lines of eight.
    #[must_use]
    pub fn fastbloom_blocked_plan(
        num: u64,
        den: u64,
        items: usize,
        num_words: *mut usize,
        num_hashes: *mut u32,
    ) -> u8;

    /// The line of a hash: the words from `8 * line` to `8 * line + 7`, which alone are a filter of
    /// one line, in which the calls on this hash do what they do in all words. It is `usize::MAX`
    /// for fewer than eight words.
    pub fn fastbloom_blocked_line(num_words: usize, hash: u64) -> usize;

    /// Sets all positions of a hash in its line, and returns whether all were set just before. Words
    /// behind the last whole line stay as they are, and fewer than eight are no filter.
    pub fn fastbloom_blocked_insert_hash(
        words: *mut u64,
        num_words: usize,
        num_hashes: u32,
        hash: u64,
    ) -> bool;

    /// Whether all positions of a hash in its line are set.
    pub fn fastbloom_blocked_contains_hash(
        words: *const u64,
        num_words: usize,
        num_hashes: u32,
        hash: u64,
    ) -> bool;

    /// Sets all positions of each of `count` hashes, and returns true.
    pub fn fastbloom_blocked_insert_hashes(
        words: *mut u64,
        num_words: usize,
        num_hashes: u32,
        hashes: *const u64,
        count: usize,
    ) -> bool;

    /// As [`fastbloom_contains_hashes`], of a blocked filter.
    #[must_use]
    pub fn fastbloom_blocked_contains_hashes(
        words: *const u64,
        num_words: usize,
        num_hashes: u32,
        hashes: *const u64,
        count: usize,
        found: *mut u64,
        num_found: usize,
    ) -> bool;

    /// As [`fastbloom_insert_hashes_tell_new`], of a blocked filter.
    #[must_use]
    pub fn fastbloom_blocked_insert_hashes_tell_new(
        words: *mut u64,
        num_words: usize,
        num_hashes: u32,
        hashes: *const u64,
        count: usize,
        fresh: *mut u64,
        num_fresh: usize,
    ) -> bool;

    /// [`fastbloom_blocked_insert_hash`] at the hash of the bytes.
    pub fn fastbloom_blocked_insert(
        words: *mut u64,
        num_words: usize,
        num_hashes: u32,
        key: *const u8,
        bytes: *const u8,
        len: usize,
    ) -> bool;

    /// [`fastbloom_blocked_contains_hash`] at the hash of the bytes.
    pub fn fastbloom_blocked_contains(
        words: *const u64,
        num_words: usize,
        num_hashes: u32,
        key: *const u8,
        bytes: *const u8,
        len: usize,
    ) -> bool;

    /// Sets all positions of a hash, each by one operation, and returns whether these operations
    /// found all of them set already.
    pub fn fastbloom_shared_insert_hash(
        words: fastbloom_shared,
        num_hashes: u32,
        hash: u64,
    ) -> bool;

    /// Whether all positions of a hash were found set, one after the other.
    pub fn fastbloom_shared_contains_hash(
        words: fastbloom_shared,
        num_hashes: u32,
        hash: u64,
    ) -> bool;

    /// [`fastbloom_shared_insert_hash`] at the hash of the bytes.
    pub fn fastbloom_shared_insert(
        words: fastbloom_shared,
        num_hashes: u32,
        key: *const u8,
        bytes: *const u8,
        len: usize,
    ) -> bool;

    /// [`fastbloom_shared_contains_hash`] at the hash of the bytes.
    pub fn fastbloom_shared_contains(
        words: fastbloom_shared,
        num_hashes: u32,
        key: *const u8,
        bytes: *const u8,
        len: usize,
    ) -> bool;

    /// Inserts each of `count` hashes, and returns true.
    pub fn fastbloom_shared_insert_hashes(
        words: fastbloom_shared,
        num_hashes: u32,
        hashes: *const u64,
        count: usize,
    ) -> bool;

    /// As [`fastbloom_contains_hashes`]: bit `i % 64` of word `i / 64` of `found` is what the
    /// look-up of hash `i` returned.
    #[must_use]
    pub fn fastbloom_shared_contains_hashes(
        words: fastbloom_shared,
        num_hashes: u32,
        hashes: *const u64,
        count: usize,
        found: *mut u64,
        num_found: usize,
    ) -> bool;

    /// As [`fastbloom_insert_hashes_tell_new`]: bit `i % 64` of word `i / 64` of `fresh` is set
    /// where the insert of hash `i` returned false.
    #[must_use]
    pub fn fastbloom_shared_insert_hashes_tell_new(
        words: fastbloom_shared,
        num_hashes: u32,
        hashes: *const u64,
        count: usize,
        fresh: *mut u64,
        num_fresh: usize,
    ) -> bool;

    /// As [`fastbloom_rate_now`], of the words as they are loaded, one after the other.
    #[must_use]
    pub fn fastbloom_shared_rate_now(
        words: fastbloom_shared,
        num_hashes: u32,
        low: *mut u64,
        high: *mut u64,
    ) -> bool;

    /// As [`fastbloom_estimate`], of the words as they are loaded, one after the other.
    #[must_use]
    pub fn fastbloom_shared_estimate(
        words: fastbloom_shared,
        num_hashes: u32,
        low: *mut usize,
        high: *mut usize,
    ) -> bool;

    /// As [`fastbloom_blocked_rate_now`], of the words as they are loaded, one after the other.
    #[must_use]
    pub fn fastbloom_blocked_shared_rate_now(
        words: fastbloom_shared,
        num_hashes: u32,
        low: *mut u64,
        high: *mut u64,
    ) -> bool;

    /// As [`fastbloom_blocked_estimate`], of the words as they are loaded, one after the other.
    #[must_use]
    pub fn fastbloom_blocked_shared_estimate(
        words: fastbloom_shared,
        num_hashes: u32,
        low: *mut usize,
        high: *mut usize,
    ) -> bool;

    /// Sets all positions of a hash, by one operation for each word of its line that has some, and
    /// returns whether these operations found all of them set already.
    pub fn fastbloom_blocked_shared_insert_hash(
        words: fastbloom_shared,
        num_hashes: u32,
        hash: u64,
    ) -> bool;

    /// Whether all positions of a hash in its line were found set, one after the other.
    pub fn fastbloom_blocked_shared_contains_hash(
        words: fastbloom_shared,
        num_hashes: u32,
        hash: u64,
    ) -> bool;

    /// [`fastbloom_blocked_shared_insert_hash`] at the hash of the bytes.
    pub fn fastbloom_blocked_shared_insert(
        words: fastbloom_shared,
        num_hashes: u32,
        key: *const u8,
        bytes: *const u8,
        len: usize,
    ) -> bool;

    /// [`fastbloom_blocked_shared_contains_hash`] at the hash of the bytes.
    pub fn fastbloom_blocked_shared_contains(
        words: fastbloom_shared,
        num_hashes: u32,
        key: *const u8,
        bytes: *const u8,
        len: usize,
    ) -> bool;

    /// Inserts each of `count` hashes, and returns true.
    pub fn fastbloom_blocked_shared_insert_hashes(
        words: fastbloom_shared,
        num_hashes: u32,
        hashes: *const u64,
        count: usize,
    ) -> bool;

    /// As [`fastbloom_contains_hashes`]: bit `i % 64` of word `i / 64` of `found` is what the
    /// look-up of hash `i` returned.
    #[must_use]
    pub fn fastbloom_blocked_shared_contains_hashes(
        words: fastbloom_shared,
        num_hashes: u32,
        hashes: *const u64,
        count: usize,
        found: *mut u64,
        num_found: usize,
    ) -> bool;

    /// As [`fastbloom_insert_hashes_tell_new`]: bit `i % 64` of word `i / 64` of `fresh` is set
    /// where the insert of hash `i` returned false.
    #[must_use]
    pub fn fastbloom_blocked_shared_insert_hashes_tell_new(
        words: fastbloom_shared,
        num_hashes: u32,
        hashes: *const u64,
        count: usize,
        fresh: *mut u64,
        num_fresh: usize,
    ) -> bool;

    /// Clears every position, one word after the other.
    pub fn fastbloom_shared_clear(words: fastbloom_shared) -> bool;

    /// Sets what is found set in the other words, and returns true. Where the numbers of words
    /// differ, it returns false and changes nothing.
    #[must_use]
    pub fn fastbloom_shared_union(words: fastbloom_shared, other: fastbloom_shared) -> bool;

    /// Clears what is found clear in the other words, and returns true. Where the numbers of words
    /// differ, it returns false and changes nothing.
    #[must_use]
    pub fn fastbloom_shared_intersect(words: fastbloom_shared, other: fastbloom_shared) -> bool;

    /// Takes the words out into plain ones, each read and cleared by one operation, and returns
    /// true. Where there isn't room for just as many, it returns false and takes nothing.
    #[must_use]
    pub fn fastbloom_shared_take(
        words: fastbloom_shared,
        taken: *mut u64,
        num_taken: usize,
    ) -> bool;

    /// Loads the words into plain ones, one after the other, and returns true. Where there isn't
    /// room for just as many, it returns false and writes nothing.
    #[must_use]
    pub fn fastbloom_shared_load(
        words: fastbloom_shared,
        loaded: *mut u64,
        num_loaded: usize,
    ) -> bool;

    /// The number of positions that are set in the words as they are loaded.
    pub fn fastbloom_shared_count_ones(words: fastbloom_shared) -> usize;

    /// The seal of the file of these words.
    pub fn fastbloom_seal(
        words: *const u64,
        num_words: usize,
        num_hashes: u32,
        key: *const u8,
    ) -> u64;

    /// Writes the 64 bytes of the head of a file. It returns [`FASTBLOOM_OK`]; or
    /// [`FASTBLOOM_EMPTY_WORDS`] or [`FASTBLOOM_TOO_MANY_WORDS`], and then it writes nothing.
    #[must_use]
    pub fn fastbloom_head_write(
        num_words: usize,
        num_hashes: u32,
        key: *const u8,
        seal: u64,
        head: *mut u8,
    ) -> u8;

    /// Reads the 64 bytes of the head of a file, and returns [`FASTBLOOM_OK`]; or the first reason
    /// for which these bytes are no head, and then it writes nothing.
    #[must_use]
    pub fn fastbloom_head_read(
        head: *const u8,
        num_words: *mut usize,
        num_hashes: *mut u32,
        key: *mut u8,
        seal: *mut u64,
    ) -> u8;

    /// As [`fastbloom_seal`], of the file of a blocked filter. It is another seal.
    pub fn fastbloom_blocked_seal(
        words: *const u64,
        num_words: usize,
        num_hashes: u32,
        key: *const u8,
    ) -> u64;

    /// As [`fastbloom_head_write`], of the file of a blocked filter. It returns
    /// [`FASTBLOOM_PART_OF_A_LINE`] for words that are no whole lines, and then it writes nothing.
    #[must_use]
    pub fn fastbloom_blocked_head_write(
        num_words: usize,
        num_hashes: u32,
        key: *const u8,
        seal: u64,
        head: *mut u8,
    ) -> u8;

    /// As [`fastbloom_head_read`], of the file of a blocked filter. The head of another filter is
    /// refused by [`FASTBLOOM_NOT_BLOCKED`].
    #[must_use]
    pub fn fastbloom_blocked_head_read(
        head: *const u8,
        num_words: *mut usize,
        num_hashes: *mut u32,
        key: *mut u8,
        seal: *mut u64,
    ) -> u8;

    /// Reads a file into words of its own, which [`fastbloom_unload`] frees. Null limits allow any
    /// number of words that the file has, and 64 hashes. It returns [`FASTBLOOM_OK`]; or why the
    /// file is refused, and then the filter has no words. The path ends in a zero byte.
    #[must_use]
    pub fn fastbloom_load(
        path: *const c_char,
        limits: *const fastbloom_limits,
        filter: *mut fastbloom_filter,
    ) -> u8;

    /// Frees what [`fastbloom_load`] read. The filter then has no words.
    pub fn fastbloom_unload(filter: *mut fastbloom_filter);

    /// Maps a file, which [`fastbloom_unmap`] undoes. It returns what [`fastbloom_load`] does, and
    /// [`FASTBLOOM_SEALED`] where a file that is to be shared has a seal. While it is mapped nobody
    /// writes into it in another way, or makes it shorter. A write into a shared file may end the
    /// process by SIGBUS where the disk is full.
    #[must_use]
    pub fn fastbloom_map(
        path: *const c_char,
        mode: u32,
        limits: *const fastbloom_limits,
        filter: *mut fastbloom_filter,
    ) -> u8;

    /// Undoes [`fastbloom_map`]. The filter then has no words.
    pub fn fastbloom_unmap(filter: *mut fastbloom_filter);

    /// Writes a file, whole or not at all, with a seal or without one. It returns
    /// [`FASTBLOOM_OK`]; or [`FASTBLOOM_EMPTY_WORDS`], [`FASTBLOOM_TOO_MANY_WORDS`],
    /// [`FASTBLOOM_MEMORY`] or [`FASTBLOOM_OUTPUT`], and then the old file is as it was. A
    /// device, a pipe and a descriptor, as `/dev/stdout`, are written as streams.
    #[must_use]
    pub fn fastbloom_save(path: *const c_char, filter: *const fastbloom_filter, sealed: bool)
        -> u8;

    /// As [`fastbloom_load`], of the file of a blocked filter. The words begin where a line of the
    /// cache does.
    #[must_use]
    pub fn fastbloom_blocked_load(
        path: *const c_char,
        limits: *const fastbloom_limits,
        filter: *mut fastbloom_filter,
    ) -> u8;

    /// As [`fastbloom_map`], of the file of a blocked filter.
    #[must_use]
    pub fn fastbloom_blocked_map(
        path: *const c_char,
        mode: u32,
        limits: *const fastbloom_limits,
        filter: *mut fastbloom_filter,
    ) -> u8;

    /// As [`fastbloom_save`], of a blocked filter. Words that are no whole lines are refused by
    /// [`FASTBLOOM_PART_OF_A_LINE`].
    #[must_use]
    pub fn fastbloom_blocked_save(
        path: *const c_char,
        filter: *const fastbloom_filter,
        sealed: bool,
    ) -> u8;
}
