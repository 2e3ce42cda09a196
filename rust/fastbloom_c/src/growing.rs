//! Filters one after the other, for a number of items that isn't known.

use crate::{BlockedBloomFilter, BloomFilter, Bracket, Error, Rate};
use std::mem;

/// A filter that grows by filters of a kind. The examples use it as `Growing`.
macro_rules! growing_filter {
    ($growing:ident, $filter:ident, $use:literal) => {
        /// A set of texts or bytes whose number isn't known, at a chosen rate of false positives.
        ///
        /// Once its newest filter took as many new items as it was made for, the next one begins,
        /// for twice the items at half the rate. The rates that they are made for sum to less than
        /// the one asked for. What comes of it can be a little above, since each takes only items
        /// that it lacks.
        #[doc = concat!("Each of them is a [`", stringify!($filter), "`].")]
        ///
        /// ```
        #[doc = concat!("use fastbloom_c::{Error, ", stringify!($growing), ", Rate};")]
        ///
        /// let rate = Rate::new(1, 1_000_000)?;
        /// // For two items at first.
        #[doc = concat!("let mut seen = ", stringify!($growing), "::new(rate, 2)?;")]
        /// for name in ["crab", "lobster", "crab", "ray", "eel"] {
        ///     seen.insert(name)?;
        /// }
        /// assert!(seen.contains("crab") && seen.contains("eel"));
        /// assert_eq!((seen.approx_items(), seen.older().len()), (4, 1));
        /// # Ok::<(), Error>(())
        /// ```
        #[derive(Clone, Debug, PartialEq, Eq)]
        pub struct $growing {
            items: usize,
            older: Vec<$filter>,
            newest: $filter,
            taken: usize,
            // What the newest filter was made for.
            newest_items: usize,
            newest_rate: Rate,
        }

        impl $growing {
            /// The empty filter, for this many items at first, where 0 counts as 1, under the zero
            /// key.
            ///
            /// ```
            #[doc = $use]
            /// let mut seen = Growing::new(Rate::new(1, 1000)?, 1000)?;
            /// assert!(!seen.insert("crab")?); // it is new
            /// assert_eq!(Growing::new(Rate::new(1, 1 << 63)?, 1), Err(Error::NotARate));
            /// # Ok::<(), Error>(())
            /// ```
            ///
            /// # Errors
            /// [`Error::NotARate`] where half the rate has a lower part of 2^64 or more;
            /// [`Error::SizeOverflow`], [`Error::TooManyWords`] or [`Error::Memory`].
            pub fn new(rate: Rate, items: usize) -> Result<$growing, Error> {
                $growing::seeded(rate, items, &0)
            }

            /// As [`new`](Self::new), under the key of a seed, which is its sixteen big-endian
            /// bytes.
            ///
            /// ```
            #[doc = $use]
            /// let seen = Growing::seeded(Rate::new(1, 1000)?, 10, &42)?;
            /// assert_eq!(u128::from_be_bytes(*seen.newest().key()), 42);
            /// # Ok::<(), Error>(())
            /// ```
            ///
            /// # Errors
            /// As [`new`](Self::new).
            pub fn seeded(rate: Rate, items: usize, seed: &u128) -> Result<$growing, Error> {
                let (items, rate) = (items.max(1), rate.half()?);
                let builder = $filter::with_false_pos(rate).seed(seed);
                Ok($growing {
                    items,
                    older: Vec::new(),
                    newest: builder.expected_items(items)?,
                    taken: 0,
                    newest_items: items,
                    newest_rate: rate,
                })
            }

            /// Inserts an item unless it is contained, and returns whether it is, which may be a
            /// false positive.
            ///
            /// ```
            #[doc = $use]
            /// let mut seen = Growing::new(Rate::new(1, 1000)?, 10)?;
            /// assert!(!seen.insert("crab")? && seen.insert("crab")?);
            /// # Ok::<(), Error>(())
            /// ```
            ///
            /// # Errors
            /// As [`new`](Self::new), where the next filter has to begin. Then nothing changes.
            pub fn insert(&mut self, val: &(impl AsRef<[u8]> + ?Sized)) -> Result<bool, Error> {
                self.insert_hash(self.source_hash(val))
            }

            /// Whether an item is contained. False: it was never inserted. True may be a false
            /// positive.
            ///
            /// ```
            #[doc = $use]
            /// let mut seen = Growing::new(Rate::new(1, 1_000_000)?, 10)?;
            /// seen.insert("crab")?;
            /// assert!(seen.contains("crab") && !seen.contains("lobster"));
            /// # Ok::<(), Error>(())
            /// ```
            #[must_use]
            pub fn contains(&self, val: &(impl AsRef<[u8]> + ?Sized)) -> bool {
                self.contains_hash(self.source_hash(val))
            }

            /// The hash of an item: SipHash-1-3 of exactly its bytes under the key.
            ///
            /// ```
            #[doc = $use]
            /// let mut seen = Growing::new(Rate::new(1, 1000)?, 10)?;
            /// seen.insert("crab")?;
            /// assert!(seen.contains_hash(seen.source_hash("crab")));
            /// # Ok::<(), Error>(())
            /// ```
            #[must_use]
            pub fn source_hash(&self, val: &(impl AsRef<[u8]> + ?Sized)) -> u64 {
                self.newest.source_hash(val)
            }

            /// As [`insert`](Self::insert), by the hash.
            ///
            /// ```
            #[doc = $use]
            /// let mut seen = Growing::new(Rate::new(1, 1000)?, 10)?;
            /// assert!(!seen.insert_hash(1)? && seen.insert_hash(1)?);
            /// # Ok::<(), Error>(())
            /// ```
            ///
            /// # Errors
            /// As [`insert`](Self::insert).
            pub fn insert_hash(&mut self, hash: u64) -> Result<bool, Error> {
                if self.older.iter().any(|it| it.contains_hash(hash)) {
                    return Ok(true);
                }
                if self.taken >= self.newest_items {
                    if self.newest.contains_hash(hash) {
                        return Ok(true);
                    }
                    self.begin_next()?;
                }
                let held = self.newest.insert_hash(hash);
                self.taken += usize::from(!held);
                Ok(held)
            }

            // Begins the next filter, for twice the items at half the rate.
            fn begin_next(&mut self) -> Result<(), Error> {
                let rate = self.newest_rate.half()?;
                // The greatest number is refused for its size, as 2^64 and more would be.
                let items = self.newest_items.saturating_mul(2);
                let seed = u128::from_be_bytes(*self.newest.key());
                let made = $filter::with_false_pos(rate)
                    .seed(&seed)
                    .expected_items(items)?;
                self.older.try_reserve(1).map_err(|_| Error::Memory)?;
                self.older.push(mem::replace(&mut self.newest, made));
                (self.taken, self.newest_items, self.newest_rate) = (0, items, rate);
                Ok(())
            }

            /// As [`contains`](Self::contains), by the hash.
            ///
            /// ```
            #[doc = $use]
            /// let mut seen = Growing::new(Rate::new(1, 1000)?, 10)?;
            /// seen.insert_hash(1)?;
            /// assert!(seen.contains_hash(1));
            /// # Ok::<(), Error>(())
            /// ```
            #[must_use]
            pub fn contains_hash(&self, hash: u64) -> bool {
                self.newest.contains_hash(hash)
                    || self.older.iter().any(|it| it.contains_hash(hash))
            }

            /// The full filters, the oldest first. None of them changes any more.
            ///
            /// ```
            #[doc = $use]
            /// let mut seen = Growing::new(Rate::new(1, 1_000_000)?, 1)?;
            /// seen.insert("crab")?;
            /// assert!(seen.older().is_empty());
            /// seen.insert("lobster")?; // the first filter is for one item
            /// assert!(seen.older()[0].contains("crab") && !seen.newest().contains("crab"));
            /// # Ok::<(), Error>(())
            /// ```
            #[must_use]
            pub fn older(&self) -> &[$filter] {
                &self.older
            }

            /// The newest filter, which takes what is new.
            ///
            /// ```
            #[doc = $use]
            /// let mut seen = Growing::new(Rate::new(1, 1000)?, 10)?;
            /// seen.insert("crab")?;
            /// assert!(seen.newest().contains("crab"));
            /// # Ok::<(), Error>(())
            /// ```
            #[must_use]
            pub fn newest(&self) -> &$filter {
                &self.newest
            }

            /// The number of items that it was made for, at least 1.
            ///
            /// ```
            #[doc = $use]
            /// assert_eq!(Growing::new(Rate::new(1, 1000)?, 10)?.items(), 10);
            /// assert_eq!(Growing::new(Rate::new(1, 1000)?, 0)?.items(), 1);
            /// # Ok::<(), Error>(())
            /// ```
            #[must_use]
            pub fn items(&self) -> usize {
                self.items
            }

            /// How many items the newest filter took that weren't contained.
            ///
            /// ```
            #[doc = $use]
            /// let mut seen = Growing::new(Rate::new(1, 1_000_000)?, 2)?;
            /// for name in ["crab", "lobster", "crab", "ray"] {
            ///     seen.insert(name)?;
            /// }
            /// assert_eq!(seen.taken(), 1);
            /// # Ok::<(), Error>(())
            /// ```
            #[must_use]
            pub fn taken(&self) -> usize {
                self.taken
            }

            /// How many items it took that weren't contained. Some may have been held for others.
            ///
            /// ```
            #[doc = $use]
            /// let mut seen = Growing::new(Rate::new(1, 1_000_000)?, 2)?;
            /// for name in ["crab", "lobster", "crab", "ray"] {
            ///     seen.insert(name)?;
            /// }
            /// assert_eq!(seen.approx_items(), 3);
            /// # Ok::<(), Error>(())
            /// ```
            #[must_use]
            pub fn approx_items(&self) -> usize {
                // Each is for twice the items of the one before, so the older ones took this many.
                let older = self.newest_items - self.items;
                older + self.taken
            }

            /// Two bounds of the rate of false positives as all its filters are. A look-up errs
            /// where one of them does. How their replies depend on each other isn't known: the
            /// lower bound is the greatest of theirs, and the upper one their sum, at most 1.
            ///
            /// ```
            #[doc = $use]
            /// let mut seen = Growing::new(Rate::new(9, 10)?, 36)?;
            /// assert_eq!(seen.false_pos_now().to_f64(), 0.0); // no bit is set
            /// seen.insert_hash(0)?;
            /// assert_eq!(seen.false_pos_now(), seen.newest().false_pos_now());
            /// # Ok::<(), Error>(())
            /// ```
            #[must_use]
            pub fn false_pos_now(&self) -> Bracket {
                let newest = self.newest.false_pos_now();
                self.older
                    .iter()
                    .fold(newest, |rate, it| rate.of_either(it.false_pos_now()))
            }
        }
    };
}

growing_filter!(
    GrowingFilter,
    BloomFilter,
    "# use fastbloom_c::{Error, GrowingFilter as Growing, Rate};"
);
growing_filter!(
    GrowingBlockedFilter,
    BlockedBloomFilter,
    "# use fastbloom_c::{Error, GrowingBlockedFilter as Growing, Rate};"
);
