//! Two filters in turn, for streams without end.

use crate::{BloomFilter, Bracket, Error, Rate};

/// The last items of a stream without end, in memory that stays the same.
///
/// An item is contained at least as long as fewer different ones came behind its last insert than
/// the filter is for. Two filters take turns, each for this many items at half the rate, and a
/// look-up asks both. An item goes into the newer one, also where the older one contains it. Once
/// the newer one took as many as it is for, it becomes the older, and the older one is cleared.
///
/// ```
/// use fastbloom_c::{Error, Rate, RotatingFilter};
///
/// let mut seen = RotatingFilter::new(Rate::new(1, 1_000_000)?, 2)?; // the last two
/// for name in ["crab", "lobster", "crab", "prawn"] {
///     seen.insert(name);
/// }
/// assert!(seen.contains("crab") && seen.contains("prawn"));
/// # Ok::<(), Error>(())
/// ```
#[derive(Clone, Debug, PartialEq, Eq)]
pub struct RotatingFilter {
    older: BloomFilter,
    newer: BloomFilter,
    taken: usize,
    items: usize,
}

impl RotatingFilter {
    /// The empty filter for this many last items, where 0 counts as 1, under the zero key.
    ///
    /// ```
    /// # use fastbloom_c::{Error, Rate, RotatingFilter};
    /// let mut seen = RotatingFilter::new(Rate::new(1, 1000)?, 1_000_000)?;
    /// assert!(!seen.insert("crab")); // it is new
    /// assert_eq!(RotatingFilter::new(Rate::new(1, 1 << 63)?, 1), Err(Error::NotARate));
    /// # Ok::<(), Error>(())
    /// ```
    ///
    /// # Errors
    /// [`Error::NotARate`] where half the rate has a lower part of 2^64 or more, and as
    /// [`expected_items`](crate::BuilderWithFalsePositiveRate::expected_items).
    pub fn new(rate: Rate, items: usize) -> Result<RotatingFilter, Error> {
        RotatingFilter::seeded(rate, items, &0)
    }

    /// As [`new`](Self::new), under the key of a seed, which is its sixteen big-endian bytes.
    ///
    /// ```
    /// # use fastbloom_c::{Error, Rate, RotatingFilter};
    /// let seen = RotatingFilter::seeded(Rate::new(1, 1000)?, 10, &42)?;
    /// assert_eq!(u128::from_be_bytes(*seen.newer().key()), 42);
    /// # Ok::<(), Error>(())
    /// ```
    ///
    /// # Errors
    /// As [`new`](Self::new).
    pub fn seeded(rate: Rate, items: usize, seed: &u128) -> Result<RotatingFilter, Error> {
        let builder = BloomFilter::with_false_pos(rate.half()?).seed(seed);
        Ok(RotatingFilter {
            older: builder.clone().expected_items(items)?,
            newer: builder.expected_items(items)?,
            taken: 0,
            items: items.max(1),
        })
    }

    /// Inserts an item, and returns whether it was contained before, which may be a false positive.
    ///
    /// ```
    /// # use fastbloom_c::{Rate, RotatingFilter};
    /// let mut seen = RotatingFilter::new(Rate::new(1, 1000)?, 10)?;
    /// assert!(!seen.insert("crab") && seen.insert("crab"));
    /// # Ok::<(), fastbloom_c::Error>(())
    /// ```
    pub fn insert(&mut self, val: &(impl AsRef<[u8]> + ?Sized)) -> bool {
        self.insert_hash(self.source_hash(val))
    }

    /// Whether an item is contained, which may be a false positive.
    ///
    /// ```
    /// # use fastbloom_c::{Rate, RotatingFilter};
    /// let mut seen = RotatingFilter::new(Rate::new(1, 1_000_000)?, 1)?; // the last one
    /// seen.insert("crab");
    /// assert!(seen.contains("crab"));
    /// seen.insert("lobster");
    /// assert!(seen.contains("lobster") && !seen.contains("crab"));
    /// # Ok::<(), fastbloom_c::Error>(())
    /// ```
    #[must_use]
    pub fn contains(&self, val: &(impl AsRef<[u8]> + ?Sized)) -> bool {
        self.contains_hash(self.source_hash(val))
    }

    /// The hash of an item: SipHash-1-3 of exactly its bytes under the key.
    ///
    /// ```
    /// # use fastbloom_c::{Rate, RotatingFilter};
    /// let mut seen = RotatingFilter::new(Rate::new(1, 1000)?, 10)?;
    /// seen.insert("crab");
    /// assert!(seen.contains_hash(seen.source_hash("crab")));
    /// # Ok::<(), fastbloom_c::Error>(())
    /// ```
    #[must_use]
    pub fn source_hash(&self, val: &(impl AsRef<[u8]> + ?Sized)) -> u64 {
        self.newer.source_hash(val)
    }

    /// As [`insert`](Self::insert), by the hash.
    ///
    /// ```
    /// # use fastbloom_c::{Rate, RotatingFilter};
    /// let mut seen = RotatingFilter::new(Rate::new(1, 1000)?, 10)?;
    /// assert!(!seen.insert_hash(1) && seen.insert_hash(1));
    /// # Ok::<(), fastbloom_c::Error>(())
    /// ```
    pub fn insert_hash(&mut self, hash: u64) -> bool {
        if self.newer.insert_hash(hash) {
            return true;
        }
        let held = self.older.contains_hash(hash);
        self.taken += 1;
        if self.taken >= self.items {
            std::mem::swap(&mut self.older, &mut self.newer);
            self.newer.clear();
            self.taken = 0;
        }
        held
    }

    /// As [`contains`](Self::contains), by the hash.
    ///
    /// ```
    /// # use fastbloom_c::{Rate, RotatingFilter};
    /// let mut seen = RotatingFilter::new(Rate::new(1, 1000)?, 10)?;
    /// seen.insert_hash(1);
    /// assert!(seen.contains_hash(1));
    /// # Ok::<(), fastbloom_c::Error>(())
    /// ```
    #[must_use]
    pub fn contains_hash(&self, hash: u64) -> bool {
        self.newer.contains_hash(hash) || self.older.contains_hash(hash)
    }

    /// The older filter.
    ///
    /// ```
    /// # use fastbloom_c::{Rate, RotatingFilter};
    /// let mut seen = RotatingFilter::new(Rate::new(1, 1000)?, 1)?;
    /// seen.insert("crab"); // the newer one is for one item, and so it becomes the older
    /// assert!(seen.older().contains("crab"));
    /// # Ok::<(), fastbloom_c::Error>(())
    /// ```
    #[must_use]
    pub fn older(&self) -> &BloomFilter {
        &self.older
    }

    /// The newer filter.
    ///
    /// ```
    /// # use fastbloom_c::{Rate, RotatingFilter};
    /// let mut seen = RotatingFilter::new(Rate::new(1, 1000)?, 10)?;
    /// seen.insert("crab");
    /// assert!(seen.newer().contains("crab") && seen.older().count_ones() == 0);
    /// # Ok::<(), fastbloom_c::Error>(())
    /// ```
    #[must_use]
    pub fn newer(&self) -> &BloomFilter {
        &self.newer
    }

    /// The number of items that it was made for, at least 1.
    ///
    /// ```
    /// # use fastbloom_c::{Rate, RotatingFilter};
    /// assert_eq!(RotatingFilter::new(Rate::new(1, 1000)?, 10)?.items(), 10);
    /// assert_eq!(RotatingFilter::new(Rate::new(1, 1000)?, 0)?.items(), 1);
    /// # Ok::<(), fastbloom_c::Error>(())
    /// ```
    #[must_use]
    pub fn items(&self) -> usize {
        self.items
    }

    /// How many items the newer filter took that it didn't contain.
    ///
    /// ```
    /// # use fastbloom_c::{Rate, RotatingFilter};
    /// let mut seen = RotatingFilter::new(Rate::new(1, 1_000_000)?, 10)?;
    /// for name in ["crab", "lobster", "crab"] {
    ///     seen.insert(name);
    /// }
    /// assert_eq!(seen.taken(), 2);
    /// # Ok::<(), fastbloom_c::Error>(())
    /// ```
    #[must_use]
    pub fn taken(&self) -> usize {
        self.taken
    }

    /// Two bounds of the rate of false positives as both filters are. A look-up errs where one of
    /// the two does. How their replies depend on each other isn't known: the lower bound is the
    /// greater of theirs, and the upper one their sum, at most 1.
    ///
    /// ```
    /// # use fastbloom_c::{Rate, RotatingFilter};
    /// // Each filter has 64 bits, and one hash.
    /// let mut seen = RotatingFilter::new(Rate::new(9, 10)?, 36)?;
    /// seen.insert_hash(0);
    /// assert_eq!(seen.false_pos_now().to_f64(), 1.0 / 64.0);
    /// # Ok::<(), fastbloom_c::Error>(())
    /// ```
    #[must_use]
    pub fn false_pos_now(&self) -> Bracket {
        self.older
            .false_pos_now()
            .of_either(self.newer.false_pos_now())
    }
}
