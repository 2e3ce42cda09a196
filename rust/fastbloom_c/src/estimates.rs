//! How many items filters have, how often they err, and how alike they are.

use crate::raw::{self, Kind};
use crate::{
    raw_shared, AtomicBlockedBloomFilter, AtomicBloomFilter, BlockedBloomFilter, BloomFilter,
    Bracket, Error, Rate,
};
use std::sync::atomic::AtomicU64;

/// Two bounds of a number of items, the upper of which may be missing.
///
/// ```
/// use fastbloom_c::BloomFilter;
///
/// // One of 64 bits is set, by one hash.
/// let one = BloomFilter::from_vec(vec![1])?.hashes(1).estimated_items();
/// assert_eq!((one.low(), one.high()), (1, Some(1)));
/// # Ok::<(), fastbloom_c::Error>(())
/// ```
#[derive(Clone, Copy, Debug, PartialEq, Eq)]
pub struct Estimate {
    low: usize,
    high: Option<usize>,
}

impl Estimate {
    /// The estimate that the library tells, where the greatest number stands for no upper bound.
    fn of(told: Option<(usize, usize)>) -> Option<Estimate> {
        let (low, high) = told?;
        let high = (high != usize::MAX).then_some(high);
        Some(Estimate { low, high })
    }

    /// The lower bound.
    ///
    /// ```
    /// # use fastbloom_c::BloomFilter;
    /// // One of 64 bits is set, by one hash.
    /// let one = BloomFilter::from_vec(vec![1])?.hashes(1).estimated_items();
    /// assert_eq!(one.low(), 1);
    /// # Ok::<(), fastbloom_c::Error>(())
    /// ```
    #[must_use]
    pub fn low(&self) -> usize {
        self.low
    }

    /// The upper bound, or `None` where no number of items is too many.
    ///
    /// ```
    /// # use fastbloom_c::BloomFilter;
    /// // One of 64 bits is set, by one hash.
    /// let one = BloomFilter::from_vec(vec![1])?.hashes(1).estimated_items();
    /// assert_eq!(one.high(), Some(1));
    /// # Ok::<(), fastbloom_c::Error>(())
    /// ```
    #[must_use]
    pub fn high(&self) -> Option<usize> {
        self.high
    }
}

/// The bounds that a call told of a filter.
pub(crate) fn some<T>(told: Option<T>) -> T {
    match told {
        Some(bounds) => bounds,
        None => unreachable!("a filter has from 1 to 2^58 - 1 words, in whole lines"),
    }
}

/// The calls of a kind of filters, of which one is shared by threads.
macro_rules! estimates {
    ($filter:ident, $shared:ident, $kind:expr, $sure:literal) => {
        impl $filter {
            /// The number of items in the filter, as two bounds.
            ///
            /// It is the number at which as many bits are expected to be set. Nothing is claimed of
            /// how far the number of items that were inserted may lie from it.
            #[doc = $sure]
            ///
            /// ```
            #[doc = concat!("# use fastbloom_c::", stringify!($filter), " as Filter;")]
            /// let mut seen = Filter::with_num_bits(1 << 20)?.hashes(4);
            /// seen.insert_all((0..1000).map(|number: u32| number.to_string()));
            /// let items = seen.estimated_items();
            /// assert!(950 < items.low() && items.high() < Some(1050));
            /// # Ok::<(), fastbloom_c::Error>(())
            /// ```
            #[must_use]
            pub fn estimated_items(&self) -> Estimate {
                some(Estimate::of(raw::estimate($kind, self.as_slice(), self.num_hashes())))
            }

            /// The number of items in the union of two filters, which isn't made, as two bounds.
            ///
            /// # Errors
            /// [`Error::OtherShape`] where the filters differ in words, hashes or keys.
            ///
            /// ```
            #[doc = concat!("# use fastbloom_c::", stringify!($filter), " as Filter;")]
            /// let mut one = Filter::with_num_bits(1 << 20)?.hashes(4);
            /// let mut other = one.clone();
            /// one.insert_all((0..1000).map(|number: u32| number.to_string()));
            /// other.insert_all((500..1500).map(|number: u32| number.to_string()));
            /// assert!(1400 < one.estimated_union(&other)?.low());
            /// let common = one.estimated_common(&other)?;
            /// assert!(400 < common.low() && common.high() < Some(600));
            /// assert!((0.3..0.4).contains(&one.jaccard(&other)?.to_f64()));
            /// # Ok::<(), fastbloom_c::Error>(())
            /// ```
            pub fn estimated_union(&self, other: &$filter) -> Result<Estimate, Error> {
                self.of_both(other, raw::estimate_union, Estimate::of)
            }

            /// The number of items that two filters have in common, as two bounds: what both have
            /// together, less what their union has.
            ///
            /// # Errors
            /// [`Error::OtherShape`] where the filters differ in words, hashes or keys.
            ///
            /// ```
            #[doc = concat!("# use fastbloom_c::", stringify!($filter), " as Filter;")]
            /// let empty = Filter::with_num_bits(1024)?.hashes(4);
            /// assert_eq!(empty.estimated_common(&empty)?.high(), Some(0));
            /// # Ok::<(), fastbloom_c::Error>(())
            /// ```
            pub fn estimated_common(&self, other: &$filter) -> Result<Estimate, Error> {
                self.of_both(other, raw::estimate_common, Estimate::of)
            }

            /// The part of the items of two filters that they have in common, from 0 to 1: that of
            /// [`estimated_common`](Self::estimated_common) in
            /// [`estimated_union`](Self::estimated_union).
            ///
            /// # Errors
            /// [`Error::OtherShape`] where the filters differ in words, hashes or keys.
            ///
            /// ```
            #[doc = concat!("# use fastbloom_c::", stringify!($filter), " as Filter;")]
            /// let empty = Filter::with_num_bits(1024)?.hashes(4);
            /// let part = empty.jaccard(&empty)?; // nothing is known
            /// assert_eq!((part.low(), part.high()), (0, 1 << 63));
            /// # Ok::<(), fastbloom_c::Error>(())
            /// ```
            pub fn jaccard(&self, other: &$filter) -> Result<Bracket, Error> {
                self.of_both(other, raw::jaccard, |told| Some(Bracket::of_filter(told?)))
            }

            // What a call tells of two filters, if they are of one shape.
            fn of_both<T, B>(
                &self,
                other: &$filter,
                call: fn(Kind, &[u64], &[u64], u32) -> Option<(T, T)>,
                of: fn(Option<(T, T)>) -> Option<B>,
            ) -> Result<B, Error> {
                if !self.same_shape(other) {
                    return Err(Error::OtherShape);
                }
                let told = call($kind, self.as_slice(), other.as_slice(), self.num_hashes());
                of(told).ok_or(Error::OtherShape)
            }

            /// Two bounds of the rate of false positives of the filter as it is, which are proved:
            /// the part of all look-ups, where each position is drawn alike, that return true.
            ///
            /// ```
            #[doc = concat!("# use fastbloom_c::", stringify!($filter), " as Filter;")]
            /// let mut seen = Filter::with_num_bits(512)?.hashes(1);
            /// seen.insert("crab");
            /// assert_eq!(seen.false_pos_now().to_f64(), 1.0 / 512.0);
            /// # Ok::<(), fastbloom_c::Error>(())
            /// ```
            #[must_use]
            pub fn false_pos_now(&self) -> Bracket {
                Bracket::of_filter(some(raw::rate_now($kind, self.as_slice(), self.num_hashes())))
            }
        }

        impl<W: AsRef<[AtomicU64]>> $shared<W> {
            #[doc = concat!("As [`", stringify!($filter), "::estimated_items`], of the words as they")]
            /// are loaded, one after the other.
            ///
            /// ```
            #[doc = concat!("# use fastbloom_c::{", stringify!($filter), " as Filter, ")]
            #[doc = concat!("#     ", stringify!($shared), " as Shared};")]
            /// let seen = Shared::from(Filter::with_num_bits(1024)?.hashes(4));
            /// assert_eq!(seen.estimated_items().high(), Some(0));
            /// # Ok::<(), fastbloom_c::Error>(())
            /// ```
            #[must_use]
            pub fn estimated_items(&self) -> Estimate {
                let told = raw_shared::estimate($kind, self.as_slice(), self.num_hashes());
                some(Estimate::of(told))
            }

            #[doc = concat!("As [`", stringify!($filter), "::false_pos_now`], of the words as they")]
            /// are loaded, one after the other.
            ///
            /// ```
            #[doc = concat!("# use fastbloom_c::{", stringify!($filter), " as Filter, ")]
            #[doc = concat!("#     ", stringify!($shared), " as Shared};")]
            /// let seen = Shared::from(Filter::with_num_bits(512)?.hashes(1));
            /// seen.insert("crab");
            /// assert_eq!(seen.false_pos_now().to_f64(), 1.0 / 512.0);
            /// # Ok::<(), fastbloom_c::Error>(())
            /// ```
            #[must_use]
            pub fn false_pos_now(&self) -> Bracket {
                let told = raw_shared::rate_now($kind, self.as_slice(), self.num_hashes());
                Bracket::of_filter(some(told))
            }
        }

        by_shape!(
            $filter,
            $kind,
            $sure,
            concat!("let seen = fastbloom_c::", stringify!($filter), "::with_num_bits(1024)?.hashes(4);"),
            []
        );
        by_shape!(
            $shared,
            $kind,
            $sure,
            concat!(
                "let plain = fastbloom_c::", stringify!($filter), "::with_num_bits(1024)?.hashes(4);\n",
                "let seen = fastbloom_c::", stringify!($shared), "::from(plain);"
            ),
            [W: AsRef<[AtomicU64]>]
        );
    };
}

/// The calls of a filter that look at its shape alone.
macro_rules! by_shape {
    ($filter:ident, $kind:expr, $sure:literal, $make:expr, [$($words:ident: $lends:path)?]) => {
        impl$(<$words: $lends>)? $filter$(<$words>)? {
            /// Two bounds of the mean rate of false positives, once this many items are in the
            /// filter.
            #[doc = $sure]
            ///
            /// ```
            #[doc = $make]
            /// let rate = seen.false_pos_bounds(100);
            /// assert!(0.01 < rate.to_f64() && rate.to_f64() < 0.02);
            /// # Ok::<(), fastbloom_c::Error>(())
            /// ```
            #[must_use]
            pub fn false_pos_bounds(&self, num_items: usize) -> Bracket {
                let count = self.as_slice().len();
                let told = raw::rate_bounds($kind, count, self.num_hashes(), num_items);
                Bracket::of_filter(some(told.ok()))
            }

            /// How many items the filter takes at a mean rate of false positives: with one more a
            /// bound of [`false_pos_bounds`](Self::false_pos_bounds) is above it.
            ///
            /// ```
            #[doc = $make]
            /// let items = seen.capacity_for("1/100".parse()?);
            /// assert!(80 < items && items < 100);
            /// # Ok::<(), fastbloom_c::Error>(())
            /// ```
            #[must_use]
            pub fn capacity_for(&self, rate: Rate) -> usize {
                let count = self.as_slice().len();
                raw::capacity($kind, count, self.num_hashes(), (rate.num(), rate.den()))
            }
        }
    };
}

estimates!(
    BloomFilter,
    AtomicBloomFilter,
    Kind::Whole,
    "The bounds are proved."
);
estimates!(
    BlockedBloomFilter,
    AtomicBlockedBloomFilter,
    Kind::Blocked,
    "The bounds are computed in floating point, and not proved."
);
