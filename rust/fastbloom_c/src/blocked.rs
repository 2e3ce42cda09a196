//! The filter whose positions of one item lie in one line of the cache.

use crate::builder::builder_calls;
use crate::plain_calls::plain_calls;
use crate::raw::{self, Kind};
use crate::raw_calls::blocked;
use crate::raw_units::{self, Line, Unit, LINE};
use crate::{Error, Rate};

/// The hundredths of a bit for each item above which one hash more suits.
const HASH_STEPS: [u128; 15] = [
    208, 359, 511, 668, 832, 1006, 1193, 1394, 1613, 1853, 2119, 2414, 2745, 3117, 3537,
];

/// The number of hashes that suits this many bits and items, where 0 items count as 1. The library
/// has no call for it. In what `fastbloom_blocked_plan` returns the numbers have the same relation.
fn hashes_for(num_bits: usize, items: usize) -> u32 {
    let (hundredths, items) = (100 * num_bits as u128, items.max(1) as u128);
    let passed = HASH_STEPS.iter().filter(|step| **step * items < hundredths);
    1 + passed.count() as u32
}

/// A set of texts and bytes whose bits of one item lie in one line of 512, which is one of the cache.
///
/// So where it is larger than the cache, inserts and look-ups of many hashes are quicker than those
/// of a [`BloomFilter`](crate::BloomFilter), and it takes a little more memory at the same rate. Its
/// calls are those of the other kind, as far as it has them. The two kinds aren't united, and neither
/// reads the other's file.
///
/// ```
/// use fastbloom_c::{BlockedBloomFilter, Rate};
///
/// let rate = Rate::new(1, 1000)?;
/// let mut seen = BlockedBloomFilter::with_false_pos(rate).expected_items(1000)?;
/// assert!(!seen.insert("crab")); // it is new
/// assert!(seen.contains("crab") && !seen.contains("lobster"));
/// assert_eq!((seen.num_bits(), seen.num_hashes()), (15872, 9));
/// # Ok::<(), fastbloom_c::Error>(())
/// ```
#[derive(Clone)]
pub struct BlockedBloomFilter {
    // From 1 to 2^55 - 1.
    pub(crate) words: Vec<Line>,
    // Not zero.
    pub(crate) num_hashes: u32,
    pub(crate) key: raw::Key,
}

/// A builder of a blocked filter with a given number of bits, or given words. `Debug` doesn't show
/// the key.
///
/// ```
/// use fastbloom_c::BlockedBloomFilter;
///
/// let seen = BlockedBloomFilter::with_num_bits(1000)?.seed(&42).hashes(4);
/// assert_eq!((seen.num_bits(), seen.num_hashes()), (1024, 4));
/// # Ok::<(), fastbloom_c::Error>(())
/// ```
#[derive(Clone)]
pub struct BlockedBuilderWithBits {
    words: Vec<Line>,
    key: raw::Key,
}

/// A builder of a blocked filter with a given rate of false positives. `Debug` doesn't show the key.
///
/// ```
/// use fastbloom_c::{BlockedBloomFilter, Rate};
///
/// let seen = BlockedBloomFilter::with_false_pos(Rate::new(1, 100)?).items(["42", "🦀"])?;
/// assert!(seen.contains("42") && seen.contains("🦀"));
/// # Ok::<(), fastbloom_c::Error>(())
/// ```
#[derive(Clone)]
pub struct BlockedBuilderWithFalsePositiveRate {
    rate: Rate,
    key: raw::Key,
}

plain_calls!(
    BlockedBloomFilter,
    blocked,
    "# use fastbloom_c::BlockedBloomFilter as Filter;",
    "Eight are a line. They begin where a line of the cache does."
);

impl BlockedBloomFilter {
    /// A builder of a filter that begins with these words, which are copied: eight are a line.
    ///
    /// ```
    /// # use fastbloom_c::{BlockedBloomFilter, Error};
    /// let first = BlockedBloomFilter::with_num_bits(1024)?.hashes(4);
    /// let again = BlockedBloomFilter::from_words(first.as_slice())?.hashes(4);
    /// assert_eq!(again, first);
    /// assert_eq!(BlockedBloomFilter::from_words(&[0; 9]).unwrap_err(), Error::PartOfALine);
    /// # Ok::<(), Error>(())
    /// ```
    ///
    /// # Errors
    /// [`Error::EmptyWords`], [`Error::PartOfALine`] or [`Error::Memory`].
    pub fn from_words(words: &[u64]) -> Result<BlockedBuilderWithBits, Error> {
        if words.is_empty() {
            return Err(Error::EmptyWords);
        }
        if words.len() % LINE != 0 {
            return Err(Error::PartOfALine);
        }
        // This asks whether the processor can run the library, too.
        let mut builder = Self::with_num_bits(64 * words.len())?;
        raw_units::words_mut(&mut builder.words).copy_from_slice(words);
        Ok(builder)
    }
}

builder_calls!(
    BlockedBloomFilter,
    BlockedBuilderWithBits,
    BlockedBuilderWithFalsePositiveRate,
    Kind::Blocked,
    Line,
    "# use fastbloom_c::BlockedBloomFilter as Filter;",
    "That the rate is met was measured, and isn't proved: where a \
     [`BloomFilter`](crate::BloomFilter) has more than 32 bits for each item, it isn't met."
);
