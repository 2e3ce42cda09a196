//! The filter that threads share, and change with no lock.

use crate::estimates::some;
use crate::raw_calls::shared;
use crate::shared_calls::shared_calls;
use crate::{raw, raw_units, BloomFilter, Bracket, Error};
use std::sync::atomic::AtomicU64;

/// A set of texts and bytes that threads share: each call takes `&self`.
///
/// No call takes a lock or waits for a thread. An insert's `|` on a word is tried again only where
/// another thread changed that word in between.
///
/// Each call is made of atomic operations on single words, so no insert is lost, and calls of several
/// threads may come between one another's. The words are a box of the filter's own; or anything else
/// that lends atomic words: a slice, as over a mapped file, or an `Arc`.
///
/// ```
/// use fastbloom_c::{AtomicBloomFilter, BloomFilter};
///
/// let seen = AtomicBloomFilter::from(BloomFilter::with_num_bits(1024)?.expected_items(2));
/// std::thread::scope(|scope| {
///     for item in ["42", "🦀"] {
///         scope.spawn(|| seen.insert(item));
///     }
/// });
/// assert!(seen.contains("42") && seen.contains("🦀"));
/// # Ok::<(), fastbloom_c::Error>(())
/// ```
pub struct AtomicBloomFilter<W = Box<[AtomicU64]>> {
    words: W,
    // Not zero.
    num_hashes: u32,
    key: raw::Key,
}

shared_calls!(
    AtomicBloomFilter,
    BloomFilter,
    shared,
    raw_units::share,
    raw_units::unshare,
    "# use fastbloom_c::{AtomicBloomFilter as Shared, BloomFilter as Plain};"
);

impl<W: AsRef<[AtomicU64]>> AtomicBloomFilter<W> {
    /// The filter over these words, with this many hashes, where 0 counts as 1, and the key of zeros.
    ///
    /// ```
    /// # use fastbloom_c::{AtomicBloomFilter, Error};
    /// use std::sync::atomic::AtomicU64;
    ///
    /// let words: Vec<_> = (0..16).map(|_| AtomicU64::new(0)).collect();
    /// let seen = AtomicBloomFilter::from_words(&words[..], 4)?;
    /// seen.insert("crab");
    /// // Another filter over the same words sees the same items.
    /// assert!(AtomicBloomFilter::from_words(&words[..], 4)?.contains("crab"));
    /// # Ok::<(), Error>(())
    /// ```
    ///
    /// # Errors
    /// [`Error::EmptyWords`] or [`Error::TooManyWords`].
    pub fn from_words(words: W, num_hashes: u32) -> Result<Self, Error> {
        let count = words.as_ref().len();
        if count == 0 {
            return Err(Error::EmptyWords);
        }
        if raw::num_bits(count) == 0 {
            return Err(Error::TooManyWords);
        }
        Ok(AtomicBloomFilter {
            words,
            num_hashes: num_hashes.max(1),
            key: [0; 16],
        })
    }

    /// Two bounds of the classical formula of the rate of false positives, once this many items are
    /// in the filter, as [`BloomFilter::expected_false_pos`].
    ///
    /// ```
    /// # use fastbloom_c::{AtomicBloomFilter, BloomFilter};
    /// let plain = BloomFilter::with_num_bits(64)?.hashes(1);
    /// let seen = AtomicBloomFilter::from(plain);
    /// // One item sets one of 64 bits.
    /// assert_eq!(seen.expected_false_pos(1).to_f64(), 1.0 / 64.0);
    /// # Ok::<(), fastbloom_c::Error>(())
    /// ```
    #[must_use]
    pub fn expected_false_pos(&self, num_items: usize) -> Bracket {
        let told = raw::expected_rate(self.as_slice().len(), self.num_hashes, num_items);
        Bracket::of_filter(some(told.ok()))
    }
}
