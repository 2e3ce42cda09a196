//! What is asked and made of two filters of one kind: whether one is a subset, and operators.

use crate::{AtomicBlockedBloomFilter, AtomicBloomFilter, BlockedBloomFilter, BloomFilter, Error};
use std::ops::{BitAnd, BitAndAssign, BitOr, BitOrAssign};
use std::sync::atomic::AtomicU64;

/// What an operator says of filters that don't fit.
const OTHER_SHAPE: &str = "the filters differ in words, hashes or keys";

/// Whether each bit that is set in the first words is set in the others.
fn is_subset(words: impl Iterator<Item = u64>, others: impl Iterator<Item = u64>) -> bool {
    words.zip(others).all(|(word, other)| word & !other == 0)
}

/// The calls of a kind of filters, of which one is shared by threads.
macro_rules! of_two {
    ($filter:ident, $shared:ident) => {
        impl $filter {
            /// Whether each bit that is set here is set in the other filter. Then the other one
            /// contains each item that this one contains.
            ///
            /// ```
            #[doc = concat!("# use fastbloom_c::", stringify!($filter), " as Filter;")]
            /// let mut few = Filter::with_num_bits(1024)?.hashes(4);
            /// few.insert("crab");
            /// let mut more = few.clone();
            /// more.insert("lobster");
            /// assert!(few.is_subset(&more)? && !more.is_subset(&few)?);
            /// # Ok::<(), fastbloom_c::Error>(())
            /// ```
            ///
            /// # Errors
            /// [`Error::OtherShape`] where the filters differ in words, hashes or keys.
            pub fn is_subset(&self, other: &$filter) -> Result<bool, Error> {
                if !self.same_shape(other) {
                    return Err(Error::OtherShape);
                }
                Ok(is_subset(self.iter(), other.iter()))
            }
        }

        impl<W: AsRef<[AtomicU64]>> $shared<W> {
            /// Whether each bit that is set here is set in the other filter, of the words as they
            /// are loaded, one after the other.
            ///
            /// ```
            #[doc = concat!("# use fastbloom_c::{", stringify!($filter), " as Filter, ")]
            #[doc = concat!("#     ", stringify!($shared), " as Shared};")]
            /// let empty = Filter::with_num_bits(1024)?.hashes(4);
            /// let (few, more) = (Shared::from(empty.clone()), Shared::from(empty));
            /// more.insert("crab");
            /// assert!(few.is_subset(&more)? && !more.is_subset(&few)?);
            /// # Ok::<(), fastbloom_c::Error>(())
            /// ```
            ///
            /// # Errors
            /// [`Error::OtherShape`] where the filters differ in words, hashes or keys.
            pub fn is_subset<V: AsRef<[AtomicU64]>>(
                &self,
                other: &$shared<V>,
            ) -> Result<bool, Error> {
                if !self.same_shape(other) {
                    return Err(Error::OtherShape);
                }
                Ok(is_subset(self.iter(), other.iter()))
            }
        }

        /// As [`union`](Self::union).
        ///
        /// ```
        #[doc = concat!("# use fastbloom_c::", stringify!($filter), " as Filter;")]
        /// let mut seen = Filter::with_num_bits(1024)?.hashes(4);
        /// let mut other = seen.clone();
        /// other.insert("lobster");
        /// seen |= &other;
        /// assert!(seen.contains("lobster"));
        /// # Ok::<(), fastbloom_c::Error>(())
        /// ```
        ///
        /// # Panics
        /// Where the filters differ in words, hashes or keys, which
        /// [`same_shape`](Self::same_shape) tells.
        impl BitOrAssign<&$filter> for $filter {
            fn bitor_assign(&mut self, other: &$filter) {
                self.union(other).expect(OTHER_SHAPE);
            }
        }

        /// As [`intersect`](Self::intersect).
        ///
        /// ```
        #[doc = concat!("# use fastbloom_c::", stringify!($filter), " as Filter;")]
        /// let mut seen = Filter::with_num_bits(1024)?.items(["crab", "lobster"]);
        /// seen &= &Filter::with_num_bits(1024)?.items(["lobster", "whale"]);
        /// assert!(seen.contains("lobster") && !seen.contains("crab"));
        /// # Ok::<(), fastbloom_c::Error>(())
        /// ```
        ///
        /// # Panics
        /// As `|=`.
        impl BitAndAssign<&$filter> for $filter {
            fn bitand_assign(&mut self, other: &$filter) {
                self.intersect(other).expect(OTHER_SHAPE);
            }
        }

        /// A filter of what either contains.
        ///
        /// ```
        #[doc = concat!("# use fastbloom_c::", stringify!($filter), " as Filter;")]
        /// let one = Filter::with_num_bits(1024)?.items(["crab", "lobster"]);
        /// let other = Filter::with_num_bits(1024)?.items(["lobster", "whale"]);
        /// assert!((&one | &other).contains("whale"));
        /// # Ok::<(), fastbloom_c::Error>(())
        /// ```
        ///
        /// # Panics
        /// As `|=`.
        impl BitOr for &$filter {
            type Output = $filter;

            fn bitor(self, other: &$filter) -> $filter {
                let mut united = self.clone();
                united |= other;
                united
            }
        }

        /// A filter of what both may contain.
        ///
        /// ```
        #[doc = concat!("# use fastbloom_c::", stringify!($filter), " as Filter;")]
        /// let one = Filter::with_num_bits(1024)?.items(["crab", "lobster"]);
        /// let other = Filter::with_num_bits(1024)?.items(["lobster", "whale"]);
        /// assert!((&one & &other).contains("lobster"));
        /// # Ok::<(), fastbloom_c::Error>(())
        /// ```
        ///
        /// # Panics
        /// As `|=`.
        impl BitAnd for &$filter {
            type Output = $filter;

            fn bitand(self, other: &$filter) -> $filter {
                let mut common = self.clone();
                common &= other;
                common
            }
        }
    };
}

of_two!(BloomFilter, AtomicBloomFilter);
of_two!(BlockedBloomFilter, AtomicBlockedBloomFilter);
