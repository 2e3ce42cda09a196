//! Filters: single items, and two filters.

use crate::estimates::some;
use crate::plain_calls::plain_calls;
use crate::raw_calls::whole;
use crate::{raw, Bracket};

/// The hash of an item: SipHash-1-3 of exactly its bytes under the key.
///
/// ```
/// use fastbloom_c::{hash, BloomFilter};
///
/// let mut seen = BloomFilter::with_num_bits(1024)?.hashes(4);
/// seen.insert_hash(hash(&[0; 16], "crab"));
/// assert!(seen.contains("crab"));
/// # Ok::<(), fastbloom_c::Error>(())
/// ```
pub fn hash(key: &[u8; 16], val: &(impl AsRef<[u8]> + ?Sized)) -> u64 {
    raw::hash(key, val.as_ref())
}

/// A set of texts and bytes with no false negatives, and with false positives at a chosen rate.
///
/// It has at least one word. Filters are equal where their words, their numbers of hashes and their
/// keys are. `Debug` doesn't show the key.
///
/// ```
/// use fastbloom_c::BloomFilter;
///
/// let mut seen = BloomFilter::with_num_bits(1024)?.expected_items(2);
/// seen.insert("42");
/// seen.insert("🦀");
/// assert!(seen.contains("42") && seen.contains("🦀"));
/// # Ok::<(), fastbloom_c::Error>(())
/// ```
#[derive(Clone)]
pub struct BloomFilter {
    // From 1 to 2^58 - 1.
    pub(crate) words: Vec<u64>,
    // Not zero.
    pub(crate) num_hashes: u32,
    pub(crate) key: raw::Key,
}

plain_calls!(
    BloomFilter,
    whole,
    "# use fastbloom_c::BloomFilter as Filter;",
    "Bit p of the filter is bit p % 64, from the lowest one, of word p / 64."
);

impl BloomFilter {
    /// Two bounds of the classical formula of the rate of false positives, once this many items are
    /// in the filter. The formula is a little below the mean rate: see `false_pos_bounds`.
    ///
    /// ```
    /// # use fastbloom_c::{BloomFilter, Rate};
    /// let seen = BloomFilter::with_false_pos(Rate::new(1, 1000)?).expected_items(1_000_000)?;
    /// let rate = seen.expected_false_pos(1_000_000).to_f64();
    /// assert!(0.0005 < rate && rate < 0.0011);
    /// # Ok::<(), fastbloom_c::Error>(())
    /// ```
    #[must_use]
    pub fn expected_false_pos(&self, num_items: usize) -> Bracket {
        let told = raw::expected_rate(self.words.len(), self.num_hashes, num_items);
        Bracket::of_filter(some(told.ok()))
    }
}
