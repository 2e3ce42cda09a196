//! The calls that plain filters of both kinds have in common.

/// The calls of a filter, by the calls of this module of `raw_calls`. The last text says how its
/// words lie. The examples use the filter as `Filter`.
macro_rules! plain_calls {
    ($filter:ident, $calls:ident, $use:literal, $words:literal) => {
        impl $filter {
            // The filter of so many words that are zero.
            pub(crate) fn empty(
                num_words: usize,
                num_hashes: u32,
                key: $crate::raw::Key,
            ) -> Result<$filter, $crate::Error> {
                Ok($filter {
                    words: $crate::raw_units::zeros(num_words)?,
                    num_hashes,
                    key,
                })
            }

            // The words, to be written.
            pub(crate) fn words_mut(&mut self) -> &mut [u64] {
                $crate::raw_units::words_mut(&mut self.words)
            }

            /// Inserts an item, and returns whether it was contained before, which may be a false
            /// positive.
            ///
            /// ```
            #[doc = $use]
            /// let mut seen = Filter::with_num_bits(1024)?.hashes(4);
            /// assert!(!seen.insert("crab"));
            /// assert!(seen.insert(b"crab")); // the same bytes
            /// # Ok::<(), fastbloom_c::Error>(())
            /// ```
            pub fn insert(&mut self, val: &(impl AsRef<[u8]> + ?Sized)) -> bool {
                let words = $crate::raw_units::words_mut(&mut self.words);
                $calls::insert(words, self.num_hashes, &self.key, val.as_ref())
            }

            /// Whether an item is contained. False: it wasn't inserted since the last `clear` or
            /// `intersect`. True may be a false positive.
            ///
            /// ```
            #[doc = $use]
            /// let seen = Filter::with_num_bits(1024)?.items(["crab"]);
            /// assert!(seen.contains("crab") && !seen.contains("lobster"));
            /// # Ok::<(), fastbloom_c::Error>(())
            /// ```
            #[must_use]
            pub fn contains(&self, val: &(impl AsRef<[u8]> + ?Sized)) -> bool {
                $calls::contains(self.as_slice(), self.num_hashes, &self.key, val.as_ref())
            }

            /// The hash of an item: SipHash-1-3 of exactly its bytes under the filter's key.
            ///
            /// ```
            #[doc = $use]
            /// # use fastbloom_c::hash;
            /// let seen = Filter::with_num_bits(1024)?.hashes(4);
            /// assert_eq!(seen.source_hash("crab"), hash(seen.key(), "crab"));
            /// # Ok::<(), fastbloom_c::Error>(())
            /// ```
            #[must_use]
            pub fn source_hash(&self, val: &(impl AsRef<[u8]> + ?Sized)) -> u64 {
                $crate::hash(&self.key, val)
            }

            /// A hasher under the key of this filter, for the hash of an item that comes in pieces.
            ///
            /// ```
            #[doc = $use]
            /// let seen = Filter::with_num_bits(1024)?.items(["crab"]);
            /// let hash = seen.begin_hash().update("cr").update("ab").finish();
            /// assert!(seen.contains_hash(hash));
            /// # Ok::<(), fastbloom_c::Error>(())
            /// ```
            #[must_use]
            pub fn begin_hash(&self) -> $crate::Hasher {
                $crate::Hasher::new(&self.key)
            }

            /// As [`insert`](Self::insert), by the hash.
            ///
            /// ```
            #[doc = $use]
            /// let mut seen = Filter::with_num_bits(512)?.hashes(2);
            /// assert!(!seen.insert_hash(1));
            /// assert!(seen.insert_hash(1) && seen.count_ones() == 2);
            /// # Ok::<(), fastbloom_c::Error>(())
            /// ```
            pub fn insert_hash(&mut self, hash: u64) -> bool {
                let words = $crate::raw_units::words_mut(&mut self.words);
                $calls::insert_hash(words, self.num_hashes, hash)
            }

            /// As [`contains`](Self::contains), by the hash.
            ///
            /// ```
            #[doc = $use]
            /// let seen = Filter::with_num_bits(512)?.items(["crab"]);
            /// assert!(seen.contains_hash(seen.source_hash("crab")));
            /// # Ok::<(), fastbloom_c::Error>(())
            /// ```
            #[must_use]
            pub fn contains_hash(&self, hash: u64) -> bool {
                $calls::contains_hash(self.as_slice(), self.num_hashes, hash)
            }

            /// Inserts each hash, by one call of the library.
            ///
            /// ```
            #[doc = $use]
            /// let mut seen = Filter::with_num_bits(1024)?.hashes(4);
            /// seen.insert_hashes(&[5, 6]);
            /// assert!(seen.contains_hash(5) && seen.contains_hash(6));
            /// # Ok::<(), fastbloom_c::Error>(())
            /// ```
            pub fn insert_hashes(&mut self, hashes: &[u64]) {
                let words = $crate::raw_units::words_mut(&mut self.words);
                $calls::insert_hashes(words, self.num_hashes, hashes);
            }

            /// Inserts each hash, one after the other, and tells for each whether it was new. A
            /// hash that comes twice is new once at most.
            ///
            /// ```
            #[doc = $use]
            /// let mut seen = Filter::with_num_bits(1024)?.hashes(4);
            /// assert_eq!(seen.insert_hashes_tell_new(&[5, 6, 5]), [true, true, false]);
            /// assert_eq!(seen.contains_hashes(&[7, 6, 5]), [false, true, true]);
            /// # Ok::<(), fastbloom_c::Error>(())
            /// ```
            pub fn insert_hashes_tell_new(&mut self, hashes: &[u64]) -> Vec<bool> {
                let words = $crate::raw_units::words_mut(&mut self.words);
                $crate::many::tell(hashes, |hashes, bits| {
                    $calls::insert_hashes_tell_new(words, self.num_hashes, hashes, bits)
                })
            }

            /// Tells for each hash whether it is contained. True may be a false positive.
            ///
            /// ```
            #[doc = $use]
            /// let mut seen = Filter::with_num_bits(1024)?.hashes(4);
            /// seen.insert_hashes(&[5, 6]);
            /// assert_eq!(seen.contains_hashes(&[6, 5]), [true, true]);
            /// # Ok::<(), fastbloom_c::Error>(())
            /// ```
            #[must_use]
            pub fn contains_hashes(&self, hashes: &[u64]) -> Vec<bool> {
                $crate::many::tell(hashes, |hashes, bits| {
                    $calls::contains_hashes(self.as_slice(), self.num_hashes, hashes, bits)
                })
            }

            /// Inserts each item of an iterator, many by one call of the library. Where the
            /// iterator panics, the items before are inserted.
            ///
            /// ```
            #[doc = $use]
            /// let mut seen = Filter::with_num_bits(1024)?.hashes(4);
            /// seen.insert_all(["crab", "lobster"]);
            /// assert!(seen.contains("crab") && seen.contains("lobster"));
            /// # Ok::<(), fastbloom_c::Error>(())
            /// ```
            pub fn insert_all<T: AsRef<[u8]>>(&mut self, items: impl IntoIterator<Item = T>) {
                let key = self.key;
                $crate::many::insert_all(&key, items, |hashes| self.insert_hashes(hashes));
            }

            /// Removes every item.
            ///
            /// ```
            #[doc = $use]
            /// let mut seen = Filter::with_num_bits(1024)?.items(["crab"]);
            /// seen.clear();
            /// assert_eq!(seen.count_ones(), 0);
            /// # Ok::<(), fastbloom_c::Error>(())
            /// ```
            pub fn clear(&mut self) {
                $crate::raw::clear(self.words_mut());
            }

            /// Whether [`union`](Self::union) and [`intersect`](Self::intersect) take the other
            /// filter: it has as many words and hashes, and the same key.
            ///
            /// ```
            #[doc = $use]
            /// let seen = Filter::with_num_bits(512)?.hashes(2);
            /// assert!(seen.same_shape(&seen.clone()));
            /// assert!(!seen.same_shape(&Filter::with_num_bits(513)?.hashes(2)));
            /// assert!(!seen.same_shape(&Filter::with_num_bits(512)?.seed(&1).hashes(2)));
            /// # Ok::<(), fastbloom_c::Error>(())
            /// ```
            #[must_use]
            pub fn same_shape(&self, other: &$filter) -> bool {
                self.words.len() == other.words.len()
                    && self.num_hashes == other.num_hashes
                    && self.key == other.key
            }

            /// Takes the items of the other filter in.
            ///
            /// ```
            #[doc = $use]
            /// let mut seen = Filter::with_num_bits(1024)?.items(["crab", "lobster"]);
            /// let other = Filter::with_num_bits(1024)?.items(["lobster", "whale"]);
            /// seen.union(&other)?;
            /// assert!(["crab", "lobster", "whale"].iter().all(|name| seen.contains(name)));
            /// # Ok::<(), fastbloom_c::Error>(())
            /// ```
            ///
            /// # Errors
            /// [`Error::OtherShape`](crate::Error::OtherShape) where the filters differ in words,
            /// hashes or keys.
            pub fn union(&mut self, other: &$filter) -> Result<(), $crate::Error> {
                let fits = self.same_shape(other);
                let done = fits && $crate::raw::union(self.words_mut(), other.as_slice());
                done.then_some(()).ok_or($crate::Error::OtherShape)
            }

            /// Keeps only what may be in both filters.
            ///
            /// ```
            #[doc = $use]
            /// let mut seen = Filter::with_num_bits(1024)?.items(["crab", "lobster"]);
            /// let other = Filter::with_num_bits(1024)?.items(["lobster", "whale"]);
            /// seen.intersect(&other)?;
            /// assert!(seen.contains("lobster") && !seen.contains("crab"));
            /// # Ok::<(), fastbloom_c::Error>(())
            /// ```
            ///
            /// # Errors
            /// [`Error::OtherShape`](crate::Error::OtherShape) where the filters differ in words,
            /// hashes or keys.
            pub fn intersect(&mut self, other: &$filter) -> Result<(), $crate::Error> {
                let fits = self.same_shape(other);
                let done = fits && $crate::raw::intersect(self.words_mut(), other.as_slice());
                done.then_some(()).ok_or($crate::Error::OtherShape)
            }

            /// The number of positions that an item has.
            ///
            /// ```
            #[doc = $use]
            /// assert_eq!(Filter::with_num_bits(1024)?.hashes(4).num_hashes(), 4);
            /// # Ok::<(), fastbloom_c::Error>(())
            /// ```
            #[must_use]
            pub fn num_hashes(&self) -> u32 {
                self.num_hashes
            }

            /// The number of bits: those that were asked for, in whole words or lines.
            ///
            /// ```
            #[doc = $use]
            /// assert_eq!(Filter::with_num_bits(1024)?.hashes(4).num_bits(), 1024);
            /// # Ok::<(), fastbloom_c::Error>(())
            /// ```
            #[must_use]
            pub fn num_bits(&self) -> usize {
                64 * self.as_slice().len()
            }

            /// The key, which decides the hash of an item. It may be secret.
            ///
            /// ```
            #[doc = $use]
            /// let seen = Filter::with_num_bits(512)?.seed(&42).hashes(1);
            /// assert_eq!(u128::from_be_bytes(*seen.key()), 42);
            /// # Ok::<(), fastbloom_c::Error>(())
            /// ```
            #[must_use]
            pub fn key(&self) -> &[u8; 16] {
                &self.key
            }

            /// The words.
            #[doc = $words]
            ///
            /// ```
            #[doc = $use]
            /// let mut seen = Filter::with_num_bits(512)?.hashes(1);
            /// seen.insert_hash(0);
            /// assert_eq!(seen.as_slice(), [1, 0, 0, 0, 0, 0, 0, 0]);
            /// # Ok::<(), fastbloom_c::Error>(())
            /// ```
            #[must_use]
            pub fn as_slice(&self) -> &[u64] {
                $crate::raw_units::words(&self.words)
            }

            /// The words, by value.
            ///
            /// ```
            #[doc = $use]
            /// let seen = Filter::with_num_bits(512)?.items(["crab"]);
            /// assert!(seen.iter().eq(seen.as_slice().iter().copied()));
            /// # Ok::<(), fastbloom_c::Error>(())
            /// ```
            pub fn iter(&self) -> impl ExactSizeIterator<Item = u64> + '_ {
                self.as_slice().iter().copied()
            }

            /// The number of bits that are set.
            ///
            /// ```
            #[doc = $use]
            /// let mut seen = Filter::with_num_bits(512)?.hashes(1);
            /// seen.insert("crab");
            /// assert_eq!(seen.count_ones(), 1);
            /// # Ok::<(), fastbloom_c::Error>(())
            /// ```
            #[must_use]
            pub fn count_ones(&self) -> usize {
                $crate::raw::count_ones(self.as_slice())
            }
        }

        /// Inserts each item, as [`insert_all`](Self::insert_all).
        ///
        /// ```
        #[doc = $use]
        /// let mut seen = Filter::with_num_bits(1024)?.hashes(4);
        /// seen.extend("crab and lobster".split(' '));
        /// assert!(seen.contains("lobster"));
        /// # Ok::<(), fastbloom_c::Error>(())
        /// ```
        impl<T: AsRef<[u8]>> Extend<T> for $filter {
            fn extend<I: IntoIterator<Item = T>>(&mut self, items: I) {
                self.insert_all(items);
            }
        }

        impl PartialEq for $filter {
            fn eq(&self, other: &$filter) -> bool {
                self.same_shape(other) && $crate::raw::equal(self.as_slice(), other.as_slice())
            }
        }

        impl Eq for $filter {}

        impl std::fmt::Debug for $filter {
            fn fmt(&self, f: &mut std::fmt::Formatter<'_>) -> std::fmt::Result {
                f.debug_struct(stringify!($filter))
                    .field("num_bits", &self.num_bits())
                    .field("num_hashes", &self.num_hashes)
                    .finish_non_exhaustive()
            }
        }
    };
}

pub(crate) use plain_calls;
