//! The calls that filters which threads share have in common, of both kinds.

/// The calls of a filter, which is made of a plain one, by the calls of this module of `raw_calls`.
/// Two functions make the words shared ones, and plain ones again. The examples use the filters as
/// `Shared` and `Plain`.
macro_rules! shared_calls {
    ($shared:ident, $plain:ident, $calls:ident, $share:expr, $unshare:expr, $use:literal) => {
        impl<W: AsRef<[AtomicU64]>> $shared<W> {
            /// Sets the key: the sixteen big-endian bytes of the seed. Items that were inserted
            /// under another one are no longer found.
            ///
            /// ```
            #[doc = $use]
            /// let seen = Shared::from(Plain::with_num_bits(1024)?.hashes(4));
            /// assert_eq!(u128::from_be_bytes(*seen.seed(&42).key()), 42);
            /// # Ok::<(), fastbloom_c::Error>(())
            /// ```
            #[must_use]
            pub fn seed(self, seed: &u128) -> Self {
                $shared {
                    key: seed.to_be_bytes(),
                    ..self
                }
            }

            /// Inserts an item, and returns whether all its bits were found set. So it returns
            /// false exactly if this call set a bit itself.
            ///
            /// ```
            #[doc = $use]
            /// let seen = Shared::from(Plain::with_num_bits(1024)?.hashes(4));
            /// assert!(!seen.insert("crab"));
            /// assert!(seen.insert(b"crab")); // the same bytes
            /// # Ok::<(), fastbloom_c::Error>(())
            /// ```
            pub fn insert(&self, val: &(impl AsRef<[u8]> + ?Sized)) -> bool {
                $calls::insert(self.as_slice(), self.num_hashes, &self.key, val.as_ref())
            }

            /// Whether an item is contained. True may be a false positive. While no call clears
            /// bits, false means that no insert of it had returned when this call began.
            ///
            /// ```
            #[doc = $use]
            /// let seen = Shared::from(Plain::with_num_bits(1024)?.hashes(4));
            /// assert!(!seen.contains("crab"));
            /// seen.insert("crab");
            /// assert!(seen.contains("crab"));
            /// # Ok::<(), fastbloom_c::Error>(())
            /// ```
            #[must_use]
            pub fn contains(&self, val: &(impl AsRef<[u8]> + ?Sized)) -> bool {
                $calls::contains(self.as_slice(), self.num_hashes, &self.key, val.as_ref())
            }

            /// The hash of an item: SipHash-1-3 of exactly its bytes under the filter's key.
            ///
            /// ```
            #[doc = $use]
            /// # use fastbloom_c::hash;
            /// let seen = Shared::from(Plain::with_num_bits(1024)?.hashes(4));
            /// assert_eq!(seen.source_hash("crab"), hash(seen.key(), "crab"));
            /// # Ok::<(), fastbloom_c::Error>(())
            /// ```
            #[must_use]
            pub fn source_hash(&self, val: &(impl AsRef<[u8]> + ?Sized)) -> u64 {
                $crate::hash(&self.key, val)
            }

            /// A hasher under the key of this filter, for the hash of an item that comes in pieces.
            ///
            /// ```
            #[doc = $use]
            /// let seen = Shared::from(Plain::with_num_bits(1024)?.items(["crab"]));
            /// let hash = seen.begin_hash().update("cr").update("ab").finish();
            /// assert!(seen.contains_hash(hash));
            /// # Ok::<(), fastbloom_c::Error>(())
            /// ```
            #[must_use]
            pub fn begin_hash(&self) -> $crate::Hasher {
                $crate::Hasher::new(&self.key)
            }

            /// As [`insert`](Self::insert), by the hash.
            ///
            /// ```
            #[doc = $use]
            /// let seen = Shared::from(Plain::with_num_bits(1024)?.hashes(4));
            /// assert!(!seen.insert_hash(7));
            /// assert!(seen.insert_hash(7));
            /// # Ok::<(), fastbloom_c::Error>(())
            /// ```
            pub fn insert_hash(&self, hash: u64) -> bool {
                $calls::insert_hash(self.as_slice(), self.num_hashes, hash)
            }

            /// As [`contains`](Self::contains), by the hash.
            ///
            /// ```
            #[doc = $use]
            /// let seen = Shared::from(Plain::with_num_bits(1024)?.hashes(4));
            /// assert!(!seen.contains_hash(7));
            /// seen.insert_hash(7);
            /// assert!(seen.contains_hash(7));
            /// # Ok::<(), fastbloom_c::Error>(())
            /// ```
            #[must_use]
            pub fn contains_hash(&self, hash: u64) -> bool {
                $calls::contains_hash(self.as_slice(), self.num_hashes, hash)
            }

            /// Inserts each hash, by one call of the library.
            ///
            /// ```
            #[doc = $use]
            /// let seen = Shared::from(Plain::with_num_bits(1024)?.hashes(4));
            /// seen.insert_hashes(&[5, 6]);
            /// assert!(seen.contains_hash(5) && seen.contains_hash(6));
            /// # Ok::<(), fastbloom_c::Error>(())
            /// ```
            pub fn insert_hashes(&self, hashes: &[u64]) {
                $calls::insert_hashes(self.as_slice(), self.num_hashes, hashes);
            }

            /// Inserts each hash, and tells for each whether its insert set a bit itself.
            ///
            /// ```
            #[doc = $use]
            /// let seen = Shared::from(Plain::with_num_bits(1024)?.hashes(4));
            /// assert_eq!(seen.insert_hashes_tell_new(&[5, 6, 5]), [true, true, false]);
            /// # Ok::<(), fastbloom_c::Error>(())
            /// ```
            pub fn insert_hashes_tell_new(&self, hashes: &[u64]) -> Vec<bool> {
                $crate::many::tell(hashes, |hashes, bits| {
                    $calls::insert_hashes_tell_new(self.as_slice(), self.num_hashes, hashes, bits)
                })
            }

            /// Looks each hash up.
            ///
            /// ```
            #[doc = $use]
            /// let seen = Shared::from(Plain::with_num_bits(1024)?.hashes(4));
            /// seen.insert_hashes(&[5, 6]);
            /// assert_eq!(seen.contains_hashes(&[6, 5]), [true, true]);
            /// # Ok::<(), fastbloom_c::Error>(())
            /// ```
            #[must_use]
            pub fn contains_hashes(&self, hashes: &[u64]) -> Vec<bool> {
                $crate::many::tell(hashes, |hashes, bits| {
                    $calls::contains_hashes(self.as_slice(), self.num_hashes, hashes, bits)
                })
            }

            /// Inserts each item of an iterator, many by one call of the library. Where the
            /// iterator panics, the items before are inserted.
            ///
            /// ```
            #[doc = $use]
            /// let seen = Shared::from(Plain::with_num_bits(1024)?.hashes(4));
            /// seen.insert_all(["crab", "lobster"]);
            /// assert!(seen.contains("crab") && seen.contains("lobster"));
            /// # Ok::<(), fastbloom_c::Error>(())
            /// ```
            pub fn insert_all<T: AsRef<[u8]>>(&self, items: impl IntoIterator<Item = T>) {
                $crate::many::insert_all(&self.key, items, |hashes| self.insert_hashes(hashes));
            }

            /// Removes every item, one word after the other.
            ///
            /// ```
            #[doc = $use]
            /// let seen = Shared::from(Plain::with_num_bits(1024)?.hashes(4));
            /// seen.insert("crab");
            /// seen.clear();
            /// assert_eq!(seen.count_ones(), 0);
            /// # Ok::<(), fastbloom_c::Error>(())
            /// ```
            pub fn clear(&self) {
                $crate::raw_shared::clear(self.as_slice());
            }

            /// Whether [`union`](Self::union) and [`intersect`](Self::intersect) take the other
            /// filter: it has as many words and hashes, and the same key.
            ///
            /// ```
            #[doc = $use]
            /// let empty = Plain::with_num_bits(1024)?.hashes(4);
            /// let seen = Shared::from(empty.clone());
            /// let other = Shared::from(empty);
            /// assert!(seen.same_shape(&other));
            /// assert!(!seen.same_shape(&other.seed(&42)));
            /// # Ok::<(), fastbloom_c::Error>(())
            /// ```
            #[must_use]
            pub fn same_shape<V: AsRef<[AtomicU64]>>(&self, other: &$shared<V>) -> bool {
                self.as_slice().len() == other.as_slice().len()
                    && self.num_hashes == other.num_hashes
                    && self.key == other.key
            }

            /// Takes the items of the other filter in, one word after the other.
            ///
            /// ```
            #[doc = $use]
            /// let empty = Plain::with_num_bits(1024)?.hashes(4);
            /// let seen = Shared::from(empty.clone());
            /// let other = Shared::from(empty);
            /// other.insert("crab");
            /// seen.union(&other)?;
            /// assert!(seen.contains("crab"));
            /// # Ok::<(), fastbloom_c::Error>(())
            /// ```
            ///
            /// # Errors
            /// [`Error::OtherShape`] where the filters differ in words, hashes or keys.
            pub fn union<V: AsRef<[AtomicU64]>>(
                &self,
                other: &$shared<V>,
            ) -> Result<(), $crate::Error> {
                let fits = self.same_shape(other);
                let done = fits && $crate::raw_shared::union(self.as_slice(), other.as_slice());
                done.then_some(()).ok_or($crate::Error::OtherShape)
            }

            /// Keeps only what may be in both filters, one word after the other.
            ///
            /// ```
            #[doc = $use]
            /// let empty = Plain::with_num_bits(1024)?.hashes(4);
            /// let seen = Shared::from(empty.clone());
            /// let other = Shared::from(empty);
            /// seen.insert("crab");
            /// seen.intersect(&other)?;
            /// assert_eq!(seen.count_ones(), 0); // the other one is empty
            /// # Ok::<(), fastbloom_c::Error>(())
            /// ```
            ///
            /// # Errors
            /// [`Error::OtherShape`] where the filters differ in words, hashes or keys.
            pub fn intersect<V: AsRef<[AtomicU64]>>(
                &self,
                other: &$shared<V>,
            ) -> Result<(), $crate::Error> {
                let fits = self.same_shape(other);
                let done = fits && $crate::raw_shared::intersect(self.as_slice(), other.as_slice());
                done.then_some(()).ok_or($crate::Error::OtherShape)
            }

            // The plain filter whose words a call writes.
            fn plain(
                &self,
                call: fn(&[AtomicU64], &mut [u64]) -> bool,
            ) -> Result<$plain, $crate::Error> {
                let mut plain = $plain::empty(self.as_slice().len(), self.num_hashes, self.key)?;
                let done = call(self.as_slice(), plain.words_mut());
                assert!(done, "there is room for all");
                Ok(plain)
            }

            /// Takes the items out into a plain filter. Each word is read and cleared by one
            /// operation, so no bit that another thread sets meanwhile is lost: it is either taken
            /// or still there.
            ///
            /// ```
            #[doc = $use]
            /// let seen = Shared::from(Plain::with_num_bits(1024)?.hashes(4));
            /// seen.insert("crab");
            /// assert!(seen.take()?.contains("crab"));
            /// assert_eq!(seen.count_ones(), 0);
            /// # Ok::<(), fastbloom_c::Error>(())
            /// ```
            ///
            /// # Errors
            /// [`Error::Memory`], before any word is taken.
            pub fn take(&self) -> Result<$plain, $crate::Error> {
                self.plain($crate::raw_shared::take)
            }

            /// A plain filter with the words as they are loaded, one after the other, as for a
            /// file.
            ///
            /// ```
            #[doc = $use]
            /// let seen = Shared::from(Plain::with_num_bits(1024)?.hashes(4));
            /// seen.insert("crab");
            /// assert!(seen.load()?.contains("crab"));
            /// assert!(seen.contains("crab")); // it stays
            /// # Ok::<(), fastbloom_c::Error>(())
            /// ```
            ///
            /// # Errors
            /// [`Error::Memory`].
            pub fn load(&self) -> Result<$plain, $crate::Error> {
                self.plain($crate::raw_shared::load)
            }

            /// The words, each loaded when it is asked for.
            ///
            /// ```
            #[doc = $use]
            /// let plain = Plain::with_num_bits(1024)?.items(["crab"]);
            /// let seen = Shared::from(plain.clone());
            /// assert!(seen.iter().eq(plain.iter()));
            /// # Ok::<(), fastbloom_c::Error>(())
            /// ```
            pub fn iter(&self) -> impl Iterator<Item = u64> + '_ {
                self.as_slice()
                    .iter()
                    .map(|word| word.load(std::sync::atomic::Ordering::SeqCst))
            }

            /// The number of bits that are set, of the words as they are loaded.
            ///
            /// ```
            #[doc = $use]
            /// let seen = Shared::from(Plain::with_num_bits(1024)?.hashes(1));
            /// seen.insert("crab");
            /// assert_eq!(seen.count_ones(), 1);
            /// # Ok::<(), fastbloom_c::Error>(())
            /// ```
            #[must_use]
            pub fn count_ones(&self) -> usize {
                $crate::raw_shared::count_ones(self.as_slice())
            }

            /// The number of positions that an item has.
            ///
            /// ```
            #[doc = $use]
            /// let seen = Shared::from(Plain::with_num_bits(1024)?.hashes(4));
            /// assert_eq!(seen.num_hashes(), 4);
            /// # Ok::<(), fastbloom_c::Error>(())
            /// ```
            #[must_use]
            pub fn num_hashes(&self) -> u32 {
                self.num_hashes
            }

            /// The number of bits.
            ///
            /// ```
            #[doc = $use]
            /// let seen = Shared::from(Plain::with_num_bits(1024)?.hashes(4));
            /// assert_eq!(seen.num_bits(), 1024);
            /// # Ok::<(), fastbloom_c::Error>(())
            /// ```
            #[must_use]
            pub fn num_bits(&self) -> usize {
                64 * self.as_slice().len()
            }

            /// The key.
            ///
            /// ```
            #[doc = $use]
            /// let seen = Shared::from(Plain::with_num_bits(1024)?.hashes(4));
            /// assert_eq!(seen.key(), &[0; 16]);
            /// # Ok::<(), fastbloom_c::Error>(())
            /// ```
            #[must_use]
            pub fn key(&self) -> &[u8; 16] {
                &self.key
            }

            /// The words.
            ///
            /// ```
            #[doc = $use]
            /// let seen = Shared::from(Plain::with_num_bits(1024)?.hashes(4));
            /// assert_eq!(seen.as_slice().len(), 16);
            /// # Ok::<(), fastbloom_c::Error>(())
            /// ```
            #[must_use]
            pub fn as_slice(&self) -> &[AtomicU64] {
                self.words.as_ref()
            }
        }

        /// A plain filter that becomes shared, with its words where they lie.
        ///
        /// ```
        #[doc = $use]
        /// let plain = Plain::with_num_bits(1024)?.items(["crab"]);
        /// assert!(Shared::from(plain).contains("crab"));
        /// # Ok::<(), fastbloom_c::Error>(())
        /// ```
        impl From<$plain> for $shared {
            fn from(plain: $plain) -> Self {
                $shared {
                    words: $share(plain.words),
                    num_hashes: plain.num_hashes,
                    key: plain.key,
                }
            }
        }

        /// A shared filter that becomes plain, with its words where they lie.
        ///
        /// ```
        #[doc = $use]
        /// let seen = Shared::from(Plain::with_num_bits(1024)?.hashes(4));
        /// seen.insert("crab");
        /// assert!(Plain::from(seen).contains("crab"));
        /// # Ok::<(), fastbloom_c::Error>(())
        /// ```
        impl From<$shared> for $plain {
            fn from(shared: $shared) -> Self {
                $plain {
                    words: $unshare(shared.words),
                    num_hashes: shared.num_hashes,
                    key: shared.key,
                }
            }
        }

        /// Inserts each item, as [`insert_all`](Self::insert_all).
        ///
        /// ```
        #[doc = $use]
        /// let plain = Plain::with_num_bits(1024)?.hashes(4);
        /// let mut seen = Shared::from(plain);
        /// seen.extend(["crab", "lobster"]);
        /// assert!(seen.contains("crab") && seen.contains("lobster"));
        /// # Ok::<(), fastbloom_c::Error>(())
        /// ```
        impl<T: AsRef<[u8]>, W: AsRef<[AtomicU64]>> Extend<T> for $shared<W> {
            fn extend<I: IntoIterator<Item = T>>(&mut self, items: I) {
                self.insert_all(items);
            }
        }

        /// Inserts each item into a filter that others share.
        ///
        /// ```
        #[doc = $use]
        /// let plain = Plain::with_num_bits(1024)?.hashes(4);
        /// let seen = Shared::from(plain);
        /// (&seen).extend(["crab", "lobster"]);
        /// assert!(seen.contains("crab") && seen.contains("lobster"));
        /// # Ok::<(), fastbloom_c::Error>(())
        /// ```
        impl<T: AsRef<[u8]>, W: AsRef<[AtomicU64]>> Extend<T> for &$shared<W> {
            fn extend<I: IntoIterator<Item = T>>(&mut self, items: I) {
                self.insert_all(items);
            }
        }

        /// A shared filter with words of its own. The words are loaded one after the other, so
        /// where other threads change the filter meanwhile, the clone may be what it was at no one
        /// instant.
        ///
        /// ```
        #[doc = $use]
        /// let plain = Plain::with_num_bits(1024)?.hashes(4);
        /// let seen = Shared::from(plain);
        /// let other = seen.clone();
        /// assert_eq!(other, seen);
        /// other.insert("crab");
        /// assert!(!seen.contains("crab"));
        /// # Ok::<(), fastbloom_c::Error>(())
        /// ```
        ///
        /// # Panics
        /// Where there is no memory. [`load`](Self::load) tells this by an error.
        impl Clone for $shared {
            fn clone(&self) -> Self {
                let plain = self.load();
                $shared::from(plain.unwrap_or_else(|refused| panic!("a clone: {refused}")))
            }
        }

        /// Whether shapes are equal, and the words as they are loaded, one after the other.
        ///
        /// ```
        #[doc = $use]
        /// let empty = Plain::with_num_bits(1024)?.hashes(4);
        /// let seen = Shared::from(empty.clone());
        /// let other = Shared::from(empty);
        /// assert_eq!(seen, other);
        /// seen.insert("crab");
        /// assert_ne!(seen, other);
        /// # Ok::<(), fastbloom_c::Error>(())
        /// ```
        impl<V: AsRef<[AtomicU64]>, W: AsRef<[AtomicU64]>> PartialEq<$shared<V>> for $shared<W> {
            fn eq(&self, other: &$shared<V>) -> bool {
                self.same_shape(other) && self.iter().eq(other.iter())
            }
        }

        impl<W: AsRef<[AtomicU64]>> Eq for $shared<W> {}

        impl<W: AsRef<[AtomicU64]>> std::fmt::Debug for $shared<W> {
            fn fmt(&self, f: &mut std::fmt::Formatter<'_>) -> std::fmt::Result {
                f.debug_struct(stringify!($shared))
                    .field("num_bits", &self.num_bits())
                    .field("num_hashes", &self.num_hashes)
                    .finish_non_exhaustive()
            }
        }
    };
}

pub(crate) use shared_calls;
