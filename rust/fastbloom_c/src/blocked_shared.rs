//! The blocked filter that threads share, and change without waiting for one another.

use crate::raw_calls::blocked_shared;
use crate::raw_units::{self, AtomicLine, LINE};
use crate::shared_calls::shared_calls;
use crate::{raw, BlockedBloomFilter, Error};
use std::sync::atomic::AtomicU64;

/// The lines of a blocked filter that threads share, as its words.
///
/// ```
/// use fastbloom_c::{AtomicBlockedBloomFilter, AtomicLines, BlockedBloomFilter};
///
/// let plain = BlockedBloomFilter::with_num_bits(512)?.hashes(4);
/// let seen: AtomicBlockedBloomFilter<AtomicLines> = plain.into();
/// assert_eq!(seen.as_slice().len(), 8); // one line
/// # Ok::<(), fastbloom_c::Error>(())
/// ```
pub struct AtomicLines(Box<[AtomicLine]>);

impl AsRef<[AtomicU64]> for AtomicLines {
    fn as_ref(&self) -> &[AtomicU64] {
        raw_units::atomic_words(&self.0)
    }
}

/// A blocked filter that threads share: each call takes `&self`.
///
/// No call takes a lock or waits for a thread. An insert's `|` on a word is tried again only where
/// another thread changed that word in between.
///
/// Each call is made of atomic operations on the words of one line, so no insert is lost. The lines
/// are the filter's own; or words that something else lends: a slice, as over a mapped file, or an
/// `Arc`. The calls are those of [`AtomicBloomFilter`](crate::AtomicBloomFilter).
///
/// ```
/// use fastbloom_c::{AtomicBlockedBloomFilter, BlockedBloomFilter};
///
/// let seen = AtomicBlockedBloomFilter::from(BlockedBloomFilter::with_num_bits(1024)?.hashes(4));
/// std::thread::scope(|scope| {
///     for item in ["42", "🦀"] {
///         scope.spawn(|| seen.insert(item));
///     }
/// });
/// assert!(seen.contains("42") && seen.contains("🦀"));
/// # Ok::<(), fastbloom_c::Error>(())
/// ```
pub struct AtomicBlockedBloomFilter<W = AtomicLines> {
    words: W,
    // Not zero.
    num_hashes: u32,
    key: raw::Key,
}

shared_calls!(
    AtomicBlockedBloomFilter,
    BlockedBloomFilter,
    blocked_shared,
    |lines| AtomicLines(raw_units::share(lines)),
    |lines: AtomicLines| raw_units::unshare(lines.0),
    "# use fastbloom_c::{AtomicBlockedBloomFilter as Shared, BlockedBloomFilter as Plain};"
);

impl<W: AsRef<[AtomicU64]>> AtomicBlockedBloomFilter<W> {
    /// The filter over these words, eight in a line, with this many hashes, where 0 counts as 1, and
    /// the key of zeros. It is quickest where the words begin at a multiple of 64 bytes.
    ///
    /// ```
    /// # use fastbloom_c::{AtomicBlockedBloomFilter, Error};
    /// use std::sync::atomic::AtomicU64;
    ///
    /// let words: Vec<_> = (0..16).map(|_| AtomicU64::new(0)).collect();
    /// let seen = AtomicBlockedBloomFilter::from_words(&words[..], 4)?;
    /// seen.insert("crab");
    /// // Another filter over the same words sees the same items.
    /// assert!(AtomicBlockedBloomFilter::from_words(&words[..], 4)?.contains("crab"));
    /// let refused = AtomicBlockedBloomFilter::from_words(&words[..9], 4).unwrap_err();
    /// assert_eq!(refused, Error::PartOfALine);
    /// # Ok::<(), fastbloom_c::Error>(())
    /// ```
    ///
    /// # Errors
    /// [`Error::EmptyWords`], [`Error::TooManyWords`] or [`Error::PartOfALine`].
    pub fn from_words(words: W, num_hashes: u32) -> Result<Self, Error> {
        let count = words.as_ref().len();
        if count == 0 {
            return Err(Error::EmptyWords);
        }
        if raw::num_bits(count) == 0 {
            return Err(Error::TooManyWords);
        }
        if count % LINE != 0 {
            return Err(Error::PartOfALine);
        }
        Ok(AtomicBlockedBloomFilter {
            words,
            num_hashes: num_hashes.max(1),
            key: [0; 16],
        })
    }
}
