//! How a filter is made: by its size, its words, or a rate of false positives.

use crate::raw::{self, Kind};
use crate::raw_units::{self, Unit};
use crate::{BloomFilter, Error, Rate};

// 2^53 times the natural logarithm of 2, as the nearest double has it.
const LN_TWO: u128 = 6_243_314_768_165_359;

/// The number of hashes that suits this many bits and items, where 0 items count as 1: the product
/// of ln 2 and the bits for each item, rounded half up. The library has no call for it. The numbers
/// that `fastbloom_plan` returns have the same relation.
fn hashes_for(num_bits: usize, items: usize) -> u32 {
    let unit = (items.max(1) as u128) << 53;
    let hashes = (2 * num_bits as u128 * LN_TWO + unit) / (2 * unit);
    u32::try_from(hashes).unwrap_or(u32::MAX).max(1)
}

/// A builder of a filter with a given number of bits, or given words. `Debug` doesn't show the key.
///
/// ```
/// use fastbloom_c::BloomFilter;
///
/// let seen = BloomFilter::with_num_bits(1024)?.seed(&42).hashes(4);
/// assert_eq!((seen.num_bits(), seen.num_hashes()), (1024, 4));
/// # Ok::<(), fastbloom_c::Error>(())
/// ```
#[derive(Clone, PartialEq, Eq)]
pub struct BuilderWithBits {
    // From 1 to 2^58 - 1.
    words: Vec<u64>,
    key: raw::Key,
}

/// A builder of a filter with a given rate of false positives. `Debug` doesn't show the key.
///
/// ```
/// use fastbloom_c::{BloomFilter, Rate};
///
/// let seen = BloomFilter::with_false_pos(Rate::new(1, 2)?).expected_items(1000)?;
/// assert_eq!((seen.num_bits(), seen.num_hashes()), (1472, 1));
/// # Ok::<(), fastbloom_c::Error>(())
/// ```
#[derive(Clone, PartialEq, Eq)]
pub struct BuilderWithFalsePositiveRate {
    rate: Rate,
    key: raw::Key,
}

impl BloomFilter {
    /// A builder of a filter that keeps these words. No words are refused: they would forget all.
    ///
    /// ```
    /// # use fastbloom_c::{BloomFilter, Error};
    /// let first = BloomFilter::with_num_bits(1024)?.hashes(4);
    /// let again = BloomFilter::from_vec(first.as_slice().to_vec())?.hashes(4);
    /// assert_eq!(again, first);
    /// assert_eq!(BloomFilter::from_vec(Vec::new()), Err(Error::EmptyWords));
    /// # Ok::<(), Error>(())
    /// ```
    ///
    /// # Errors
    /// [`Error::EmptyWords`] or [`Error::TooManyWords`].
    pub fn from_vec(bit_vec: Vec<u64>) -> Result<BuilderWithBits, Error> {
        if bit_vec.is_empty() {
            return Err(Error::EmptyWords);
        }
        if raw::num_bits(bit_vec.len()) == 0 {
            return Err(Error::TooManyWords);
        }
        Ok(BuilderWithBits {
            words: bit_vec,
            key: [0; 16],
        })
    }
}

/// The calls of the builders of a kind of filters, whose words are in such units. The last text
/// says what is known of the rate. The examples use the filter as `Filter`.
macro_rules! builder_calls {
    ($filter:ident, $with_bits:ident, $with_rate:ident, $kind:expr, $unit:ty, $use:literal,
     $known:literal) => {
        impl $filter {
            /// A builder of a filter with at least this many bits, all of which are clear: they are
            /// rounded up to words of 64, or to the lines of 512 that a blocked filter has.
            ///
            /// ```
            #[doc = $use]
            /// # use fastbloom_c::Error;
            /// let seen = Filter::with_num_bits(1000)?.hashes(4);
            /// assert_eq!(seen.num_bits(), 1024);
            /// assert_eq!(Filter::with_num_bits(0).unwrap_err(), Error::ZeroBits);
            /// # Ok::<(), Error>(())
            /// ```
            ///
            /// # Errors
            /// [`Error::ZeroBits`], [`Error::TooManyWords`] or [`Error::Memory`].
            pub fn with_num_bits(num_bits: usize) -> Result<$with_bits, Error> {
                if num_bits == 0 {
                    return Err(Error::ZeroBits);
                }
                let num_words = <$unit>::WORDS * num_bits.div_ceil(64 * <$unit>::WORDS);
                if raw::num_bits(num_words) == 0 {
                    return Err(Error::TooManyWords);
                }
                Ok($with_bits {
                    words: raw_units::zeros(num_words)?,
                    key: [0; 16],
                })
            }

            /// A builder of a filter with this rate of false positives.
            #[doc = $known]
            ///
            /// ```
            #[doc = $use]
            /// # use fastbloom_c::{Error, Rate};
            /// let seen = Filter::with_false_pos(Rate::new(1, 1000)?).items(["42", "🦀"])?;
            /// assert!(seen.contains("42") && seen.contains("🦀"));
            /// # Ok::<(), Error>(())
            /// ```
            pub fn with_false_pos(rate: Rate) -> $with_rate {
                $with_rate { rate, key: [0; 16] }
            }
        }

        impl $with_bits {
            /// Sets the key: the sixteen big-endian bytes of the seed.
            ///
            /// ```
            #[doc = $use]
            /// let key = *b"sixteen bytes...";
            /// let seed = u128::from_be_bytes(key);
            /// assert_eq!(Filter::with_num_bits(512)?.seed(&seed).hashes(1).key(), &key);
            /// # Ok::<(), fastbloom_c::Error>(())
            /// ```
            #[must_use]
            pub fn seed(self, seed: &u128) -> Self {
                $with_bits {
                    key: seed.to_be_bytes(),
                    ..self
                }
            }

            /// The filter with this many hashes, where 0 counts as 1.
            ///
            /// ```
            #[doc = $use]
            /// let builder = Filter::with_num_bits(512)?;
            /// assert_eq!(builder.clone().hashes(4).num_hashes(), 4);
            /// assert_eq!(builder.hashes(0).num_hashes(), 1);
            /// # Ok::<(), fastbloom_c::Error>(())
            /// ```
            #[must_use]
            pub fn hashes(self, num_hashes: u32) -> $filter {
                $filter {
                    words: self.words,
                    num_hashes: num_hashes.max(1),
                    key: self.key,
                }
            }

            /// The filter with the number of hashes that suits this many items, where 0 counts as
            /// 1. This number is computed here, and not by the library.
            ///
            /// ```
            #[doc = $use]
            /// let seen = Filter::with_num_bits(10_240)?.expected_items(1000);
            /// assert_eq!((seen.num_bits(), seen.num_hashes()), (10_240, 7));
            /// # Ok::<(), fastbloom_c::Error>(())
            /// ```
            #[must_use]
            pub fn expected_items(self, expected_items: usize) -> $filter {
                let num_hashes =
                    hashes_for(64 * raw_units::words(&self.words).len(), expected_items);
                self.hashes(num_hashes)
            }

            /// The filter with the number of hashes that suits these items, and with the items.
            ///
            /// ```
            #[doc = $use]
            /// let seen = Filter::with_num_bits(1024)?.items(["42", "🦀"]);
            /// assert!(seen.contains("42") && seen.contains("🦀"));
            /// # Ok::<(), fastbloom_c::Error>(())
            /// ```
            #[must_use]
            pub fn items<T, I>(self, items: I) -> $filter
            where
                T: AsRef<[u8]>,
                I: IntoIterator<Item = T>,
                I::IntoIter: ExactSizeIterator,
            {
                let items = items.into_iter();
                let mut filter = self.expected_items(items.len());
                filter.insert_all(items);
                filter
            }
        }

        impl $with_rate {
            /// Sets the key: the sixteen big-endian bytes of the seed.
            ///
            /// ```
            #[doc = $use]
            /// # use fastbloom_c::Rate;
            /// let builder = Filter::with_false_pos(Rate::new(1, 1000)?).seed(&42);
            /// assert_eq!(u128::from_be_bytes(*builder.expected_items(10)?.key()), 42);
            /// # Ok::<(), fastbloom_c::Error>(())
            /// ```
            #[must_use]
            pub fn seed(self, seed: &u128) -> Self {
                $with_rate {
                    key: seed.to_be_bytes(),
                    ..self
                }
            }

            /// The empty filter for this many items, where 0 counts as 1.
            ///
            /// ```
            #[doc = $use]
            /// # use fastbloom_c::Rate;
            /// let builder = Filter::with_false_pos(Rate::new(1, 1000)?);
            /// assert_eq!(builder.expected_items(1000)?.count_ones(), 0); // it is empty
            /// # Ok::<(), fastbloom_c::Error>(())
            /// ```
            ///
            /// # Errors
            /// [`Error::SizeOverflow`], [`Error::TooManyWords`] or [`Error::Memory`].
            pub fn expected_items(self, expected_items: usize) -> Result<$filter, Error> {
                let rate = (self.rate.num(), self.rate.den());
                let (num_words, num_hashes) = raw::plan($kind, rate, expected_items)?;
                $filter::empty(num_words, num_hashes, self.key)
            }

            /// The filter of these items.
            ///
            /// ```
            #[doc = $use]
            /// # use fastbloom_c::Rate;
            /// let builder = Filter::with_false_pos(Rate::new(1, 1000)?);
            /// let seen = builder.items(["42", "🦀"])?;
            /// assert!(seen.contains("42") && seen.contains("🦀"));
            /// # Ok::<(), fastbloom_c::Error>(())
            /// ```
            ///
            /// # Errors
            /// As [`expected_items`](Self::expected_items).
            pub fn items<T, I>(self, items: I) -> Result<$filter, Error>
            where
                T: AsRef<[u8]>,
                I: IntoIterator<Item = T>,
                I::IntoIter: ExactSizeIterator,
            {
                let items = items.into_iter();
                let mut filter = self.expected_items(items.len())?;
                filter.insert_all(items);
                Ok(filter)
            }
        }

        impl std::fmt::Debug for $with_bits {
            fn fmt(&self, f: &mut std::fmt::Formatter<'_>) -> std::fmt::Result {
                let num_bits = 64 * raw_units::words(&self.words).len();
                f.debug_struct(stringify!($with_bits))
                    .field("num_bits", &num_bits)
                    .finish_non_exhaustive()
            }
        }

        impl std::fmt::Debug for $with_rate {
            fn fmt(&self, f: &mut std::fmt::Formatter<'_>) -> std::fmt::Result {
                f.debug_struct(stringify!($with_rate))
                    .field("rate", &self.rate)
                    .finish_non_exhaustive()
            }
        }
    };
}

pub(crate) use builder_calls;

builder_calls!(
    BloomFilter,
    BuilderWithBits,
    BuilderWithFalsePositiveRate,
    Kind::Whole,
    u64,
    "# use fastbloom_c::BloomFilter as Filter;",
    "This is the rule of the Rust crate."
);
