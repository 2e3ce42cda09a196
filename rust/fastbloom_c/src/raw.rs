//! The calls of the library over slices. Unsafe blocks are here, in the other modules whose names
//! begin with `raw`, and in `mapped` alone.
//!
//! The library asks for pointers that aren't null and are aligned, to initialized memory of the
//! length that is given. A reference and a slice of Rust are that, also where there are no
//! elements. A `&mut` keeps every other thread away from words that are written, and a `&` keeps
//! writers away from words that are read. A `&mut` overlaps with no other argument. The processor
//! can run the library, since a filter is made only after `check_processor`.

use crate::Error;
use fastbloom_c_sys as sys;
use std::arch::is_x86_feature_detected;
use std::ffi::CString;
use std::io;
use std::os::unix::ffi::OsStrExt;
use std::path::Path;

/// The sixteen bytes of a key.
pub type Key = [u8; 16];

/// The first bytes of a file, which its words follow.
pub type HeadBytes = [u8; 64];

/// A hash of pieces.
pub use sys::fastbloom_hasher as Hashing;

/// Which kind of filters a file is of.
#[derive(Clone, Copy)]
pub enum Kind {
    /// All words are one set of positions.
    Whole,
    /// Eight words are a line.
    Blocked,
}

/// What a head tells of a filter, and the seal of its file.
#[derive(Default)]
pub struct Head {
    pub num_words: usize,
    pub num_hashes: u32,
    pub key: Key,
    pub seal: u64,
}

/// Panics where the processor can't run the library. The calls below that need nothing else ask this
/// first: one of them comes before each filter and each hash of pieces.
pub fn check_processor() {
    let fits = is_x86_feature_detected!("sse4.2") && is_x86_feature_detected!("popcnt");
    assert!(
        fits,
        "the library fastbloom_c needs a processor of x86-64-v2, with SSE4.2"
    );
}

/// The call of a kind, of one for each kind.
macro_rules! of_kind {
    ($kind:expr, $whole:ident, $blocked:ident) => {
        match $kind {
            Kind::Whole => sys::$whole,
            Kind::Blocked => sys::$blocked,
        }
    };
}

pub(crate) use of_kind;

/// The two numbers that a call writes, unless it refuses.
fn numbers<A: Default, B: Default>(
    call: impl FnOnce(&mut A, &mut B) -> u8,
) -> Result<(A, B), Error> {
    let (mut one, mut other) = (A::default(), B::default());
    Error::check(call(&mut one, &mut other))?;
    Ok((one, other))
}

/// The two bounds that a call writes. None: it returned false.
pub fn told<T: Default>(call: impl FnOnce(&mut T, &mut T) -> bool) -> Option<(T, T)> {
    let (mut low, mut high) = (T::default(), T::default());
    call(&mut low, &mut high).then_some((low, high))
}

/// The numbers of words and of hashes for this many items at the rate `num / den`.
pub fn plan(kind: Kind, (num, den): (u64, u64), items: usize) -> Result<(usize, u32), Error> {
    check_processor();
    let call = of_kind!(kind, fastbloom_plan, fastbloom_blocked_plan);
    // SAFETY: the pointers are to two numbers that the call may write.
    numbers(|num_words, num_hashes| unsafe { call(num, den, items, num_words, num_hashes) })
}

/// The number of bits, or 0 where there are too many words.
pub fn num_bits(num_words: usize) -> usize {
    check_processor();
    // SAFETY: the call takes no pointer.
    unsafe { sys::fastbloom_num_bits(num_words) }
}

/// Two bounds of the rate to expect, in units of 2^-63.
pub fn expected_rate(num_words: usize, num_hashes: u32, items: usize) -> Result<(u64, u64), Error> {
    let call = sys::fastbloom_expected_rate;
    // SAFETY: the pointers are to two numbers that the call may write.
    numbers(|low, high| unsafe { call(num_words, num_hashes, items, low, high) })
}

/// Two bounds of the mean rate, in units of 2^-63.
pub fn rate_bounds(
    kind: Kind,
    num_words: usize,
    num_hashes: u32,
    items: usize,
) -> Result<(u64, u64), Error> {
    let call = of_kind!(kind, fastbloom_rate_bounds, fastbloom_blocked_rate_bounds);
    // SAFETY: as above.
    numbers(|low, high| unsafe { call(num_words, num_hashes, items, low, high) })
}

/// How many items a filter takes at the rate `num / den`.
pub fn capacity(kind: Kind, num_words: usize, num_hashes: u32, (num, den): (u64, u64)) -> usize {
    let call = of_kind!(kind, fastbloom_capacity, fastbloom_blocked_capacity);
    // SAFETY: the call takes no pointer.
    unsafe { call(num_words, num_hashes, num, den) }
}

/// Two bounds of the rate of a filter as it is, in units of 2^-63. None: there are no words.
pub fn rate_now(kind: Kind, words: &[u64], num_hashes: u32) -> Option<(u64, u64)> {
    let call = of_kind!(kind, fastbloom_rate_now, fastbloom_blocked_rate_now);
    let (at, count) = (words.as_ptr(), words.len());
    // SAFETY: the words are a slice of this length. The call may write both numbers.
    told(|low, high| unsafe { call(at, count, num_hashes, low, high) })
}

/// Two bounds of the number of items. The greatest number stands for no upper bound. None: there
/// are no words.
pub fn estimate(kind: Kind, words: &[u64], num_hashes: u32) -> Option<(usize, usize)> {
    let call = of_kind!(kind, fastbloom_estimate, fastbloom_blocked_estimate);
    let (at, count) = (words.as_ptr(), words.len());
    // SAFETY: as above.
    told(|low, high| unsafe { call(at, count, num_hashes, low, high) })
}

/// Calls that tell two bounds of two lists of words. None: the numbers of words differ.
macro_rules! bounds_of_two {
    ($($(#[$comment:meta])+ $name:ident: $bound:ty = $whole:ident or $blocked:ident;)+) => {$(
        $(#[$comment])+
        pub fn $name(
            kind: Kind,
            words: &[u64],
            other: &[u64],
            num_hashes: u32,
        ) -> Option<($bound, $bound)> {
            let call = of_kind!(kind, $whole, $blocked);
            let (at, count) = (words.as_ptr(), words.len());
            let (other, others) = (other.as_ptr(), other.len());
            // SAFETY: both are slices of their lengths. The call may write both numbers.
            told(|low, high| unsafe { call(at, count, other, others, num_hashes, low, high) })
        }
    )+};
}

bounds_of_two! {
    /// Two bounds of the number of items in the union.
    estimate_union: usize = fastbloom_estimate_union or fastbloom_blocked_estimate_union;
    /// Two bounds of the number of items in common.
    estimate_common: usize = fastbloom_estimate_common or fastbloom_blocked_estimate_common;
    /// Two bounds of the part in common, in units of 2^-63.
    jaccard: u64 = fastbloom_jaccard or fastbloom_blocked_jaccard;
}

/// SipHash-1-3 of exactly these bytes.
pub fn hash(key: &Key, bytes: &[u8]) -> u64 {
    check_processor();
    // SAFETY: the key has sixteen bytes, and the slice its length.
    unsafe { sys::fastbloom_hash(key.as_ptr(), bytes.as_ptr(), bytes.len()) }
}

/// A hasher that has taken in no bytes.
pub fn begin_hash(key: &Key) -> Hashing {
    check_processor();
    let mut hashing = Hashing { words: [0; 8] };
    // SAFETY: the key has sixteen bytes, and the struct is a local.
    unsafe { sys::fastbloom_hasher_init(&mut hashing, key.as_ptr()) };
    hashing
}

/// Takes in a piece.
pub fn update_hash(hashing: &mut Hashing, piece: &[u8]) {
    // SAFETY: the piece is a slice of this length. The struct is borrowed for writing, so that the
    // piece lies elsewhere.
    unsafe { sys::fastbloom_hasher_update(hashing, piece.as_ptr(), piece.len()) }
}

/// The hash of all pieces so far.
pub fn finish_hash(hashing: &Hashing) -> u64 {
    // SAFETY: the call reads the struct.
    unsafe { sys::fastbloom_hasher_finish(hashing) }
}

/// Removes every item.
pub fn clear(words: &mut [u64]) -> bool {
    // SAFETY: the words are a slice of this length, which is borrowed for writing.
    unsafe { sys::fastbloom_clear(words.as_mut_ptr(), words.len()) }
}

/// Takes the items of the other in. False: the numbers of words differ.
#[must_use]
pub fn union(words: &mut [u64], other: &[u64]) -> bool {
    // SAFETY: both are slices of their lengths. The first is borrowed for writing, so that the
    // other lies elsewhere.
    unsafe { sys::fastbloom_union(words.as_mut_ptr(), words.len(), other.as_ptr(), other.len()) }
}

/// Keeps only what may be in both. False: the numbers of words differ.
#[must_use]
pub fn intersect(words: &mut [u64], other: &[u64]) -> bool {
    // SAFETY: both are slices of their lengths. The first is borrowed for writing, so that the
    // other lies elsewhere.
    unsafe {
        sys::fastbloom_intersect(words.as_mut_ptr(), words.len(), other.as_ptr(), other.len())
    }
}

/// Whether both have as many words, and equal ones.
pub fn equal(words: &[u64], other: &[u64]) -> bool {
    // SAFETY: both are slices of their lengths, which the call reads.
    unsafe { sys::fastbloom_equal(words.as_ptr(), words.len(), other.as_ptr(), other.len()) }
}

/// The number of bits that are set.
pub fn count_ones(words: &[u64]) -> usize {
    // SAFETY: the words are a slice of this length, which the call reads.
    unsafe { sys::fastbloom_count_ones(words.as_ptr(), words.len()) }
}

/// The seal of the file of these words.
pub fn seal(kind: Kind, words: &[u64], num_hashes: u32, key: &Key) -> u64 {
    let call = of_kind!(kind, fastbloom_seal, fastbloom_blocked_seal);
    // SAFETY: the key has sixteen bytes, and the words are a slice of this length.
    unsafe { call(words.as_ptr(), words.len(), num_hashes, key.as_ptr()) }
}

/// The head of a file.
pub fn write_head(kind: Kind, head: &Head) -> Result<HeadBytes, Error> {
    let mut bytes = [0; 64];
    let call = of_kind!(kind, fastbloom_head_write, fastbloom_blocked_head_write);
    // SAFETY: the key has sixteen bytes, and the local that the call writes has 64.
    Error::check(unsafe {
        call(
            head.num_words,
            head.num_hashes,
            head.key.as_ptr(),
            head.seal,
            bytes.as_mut_ptr(),
        )
    })?;
    Ok(bytes)
}

/// What the head of a file tells.
pub fn read_head(kind: Kind, bytes: &HeadBytes) -> Result<Head, Error> {
    check_processor();
    let mut head = Head::default();
    let call = of_kind!(kind, fastbloom_head_read, fastbloom_blocked_head_read);
    // SAFETY: the head has 64 bytes. The call writes four fields of a local, of the types that it
    // wants, which lie apart.
    Error::check(unsafe {
        call(
            bytes.as_ptr(),
            &mut head.num_words,
            &mut head.num_hashes,
            head.key.as_mut_ptr(),
            &mut head.seal,
        )
    })?;
    Ok(head)
}

/// A path as C takes it.
pub fn c_path(path: &Path) -> io::Result<CString> {
    Ok(CString::new(path.as_os_str().as_bytes())?)
}

/// Writes a file, whole or not at all.
pub fn save(
    kind: Kind,
    path: &Path,
    (words, num_hashes, key): (&[u64], u32, &Key),
    sealed: bool,
) -> io::Result<()> {
    let path = c_path(path)?;
    let filter = sys::fastbloom_filter {
        words: words.as_ptr().cast_mut(),
        num_words: words.len(),
        num_hashes,
        key: *key,
    };
    let call = of_kind!(kind, fastbloom_save, fastbloom_blocked_save);
    // SAFETY: the path ends in a zero byte, and the filter's words are a slice of this length, which
    // the call reads.
    match unsafe { call(path.as_ptr(), &filter, sealed) } {
        sys::FASTBLOOM_OUTPUT => Err(io::Error::last_os_error()),
        code => Error::check(code).map_err(|refused| match refused {
            Error::Memory => io::ErrorKind::OutOfMemory.into(),
            other => io::Error::other(other),
        }),
    }
}
