//! Filters in mapped files. Beside the modules whose names begin with `raw` this one alone has
//! unsafe code.

use crate::raw::{self, of_kind, Kind};
use crate::raw_calls::{blocked, whole};
use crate::{
    hash, AtomicBlockedBloomFilter, AtomicBloomFilter, BlockedBloomFilter, BloomFilter, Error,
    Limits,
};
use fastbloom_c_sys as sys;
use std::path::Path;
use std::sync::atomic::AtomicU64;
use std::{fmt, io, ptr, slice};

/// A file that is mapped, until this is dropped.
struct Mapping(sys::fastbloom_filter);

// SAFETY: the words are mapped for the whole process, and no thread changes where they lie before
// the mapping is dropped.
unsafe impl Send for Mapping {}
// SAFETY: as above; and through `&self` the words are only lent.
unsafe impl Sync for Mapping {}

impl Mapping {
    /// Maps a file of this kind, within limits.
    ///
    /// # Safety
    /// While it is mapped nobody makes the file shorter. Nobody writes into a file that is mapped
    /// to be read. Into one that is mapped to be shared nobody writes but by atomic operations.
    unsafe fn open(kind: Kind, path: &Path, mode: u32, limits: &Limits) -> Result<Mapping, Error> {
        raw::check_processor();
        let path = raw::c_path(path)?;
        let limits = sys::fastbloom_limits {
            max_words: limits.words,
            max_hashes: limits.hashes,
        };
        let mut filter = sys::fastbloom_filter {
            words: ptr::null_mut(),
            num_words: 0,
            num_hashes: 0,
            key: [0; 16],
        };
        let call = of_kind!(kind, fastbloom_map, fastbloom_blocked_map);
        // SAFETY: the path ends in a zero byte, the limits are read, and the filter is written.
        let code = unsafe { call(path.as_ptr(), mode, &limits, &mut filter) };
        if code == sys::FASTBLOOM_INPUT {
            return Err(io::Error::last_os_error().into());
        }
        Error::check(code)?;
        Ok(Mapping(filter))
    }

    fn words(&self) -> *mut u64 {
        self.0.words
    }

    /// The words of a file that is mapped to be read.
    ///
    /// # Safety
    /// It is mapped so.
    unsafe fn as_slice(&self) -> &[u64] {
        // SAFETY: so many words are mapped, aligned, until the mapping is dropped, and by the rule
        // of `open` nobody writes them.
        unsafe { slice::from_raw_parts(self.words(), self.0.num_words) }
    }
}

impl Drop for Mapping {
    fn drop(&mut self) {
        // SAFETY: it was mapped by `open`, and nothing borrows its words any more.
        unsafe { sys::fastbloom_unmap(&mut self.0) }
    }
}

/// A filter in a file that is mapped to be read: it is there at once, however large it is, and takes
/// memory that processes share.
///
/// ```
/// use fastbloom_c::{BloomFilter, MappedFilter};
///
/// # let path = std::env::temp_dir().join(format!("mapped.{}.bloom", std::process::id()));
/// let mut seen = BloomFilter::with_num_bits(1024)?.hashes(4);
/// seen.insert("crab");
/// seen.save(&path)?;
/// // SAFETY: nobody else knows the file.
/// let mapped = unsafe { MappedFilter::open(&path)? };
/// assert!(mapped.contains("crab"));
/// # std::fs::remove_file(&path)?;
/// # Ok::<(), Box<dyn std::error::Error>>(())
/// ```
pub struct MappedFilter(Mapping);

/// A blocked filter in a file that is mapped to be read, as a [`MappedFilter`].
///
/// ```
/// use fastbloom_c::{BlockedBloomFilter, MappedBlockedFilter};
///
/// # let path = std::env::temp_dir().join(format!("mapped_lines.{}.bloom", std::process::id()));
/// let mut seen = BlockedBloomFilter::with_num_bits(1024)?.hashes(4);
/// seen.insert("crab");
/// seen.save(&path)?;
/// // SAFETY: nobody else knows the file.
/// let mapped = unsafe { MappedBlockedFilter::open(&path)? };
/// assert!(mapped.contains("crab"));
/// # std::fs::remove_file(&path)?;
/// # Ok::<(), Box<dyn std::error::Error>>(())
/// ```
pub struct MappedBlockedFilter(Mapping);

/// The words of a file that is mapped to be shared, for an [`AtomicBloomFilter`] or an
/// [`AtomicBlockedBloomFilter`].
///
/// ```
/// use fastbloom_c::{AtomicBloomFilter, BloomFilter, MappedWords};
///
/// # let name = format!("mapped_words.{}.bloom", std::process::id());
/// # let path = std::env::temp_dir().join(name);
/// BloomFilter::with_num_bits(1024)?.hashes(4).save_unsealed(&path)?;
/// // SAFETY: nobody else knows the file.
/// let seen: AtomicBloomFilter<MappedWords> = unsafe { AtomicBloomFilter::map(&path)? };
/// assert_eq!(seen.as_slice().len(), 16);
/// # std::fs::remove_file(&path)?;
/// # Ok::<(), Box<dyn std::error::Error>>(())
/// ```
pub struct MappedWords(Mapping);

impl AsRef<[AtomicU64]> for MappedWords {
    fn as_ref(&self) -> &[AtomicU64] {
        // SAFETY: so many words are mapped, aligned, until the mapping is dropped, and by the rule
        // of `map` each is read and written by atomic operations alone.
        unsafe { slice::from_raw_parts(self.0.words().cast::<AtomicU64>(), self.0 .0.num_words) }
    }
}

impl fmt::Debug for MappedWords {
    fn fmt(&self, f: &mut fmt::Formatter<'_>) -> fmt::Result {
        f.debug_struct("MappedWords").finish_non_exhaustive()
    }
}

/// The calls of filters of a kind in mapped files: of one that is read, and of one that is shared.
/// The examples use them as `Mapped` and `Shared`, and the plain filter that is saved at `path` as
/// `Filter`.
macro_rules! mapped_calls {
    ($mapped:ident, $shared:ident, $filter:ident, $kind:expr, $calls:ident, $use:literal) => {
        impl $mapped {
            /// Maps the file at a path. A file with a seal is read once, whole, to compare it.
            ///
            /// ```
            #[doc = $use]
            /// # use fastbloom_c::Error;
            /// Filter::with_num_bits(1024)?.hashes(4).save(&path)?;
            /// // SAFETY: nobody else knows the file.
            /// assert_eq!(unsafe { Mapped::open(&path)? }.num_bits(), 1024);
            /// std::fs::write(&path, "a text, and no filter")?;
            /// // SAFETY: as above.
            /// let refused = unsafe { Mapped::open(&path) }.unwrap_err();
            /// assert_eq!(refused, Error::NotAFilter);
            /// # std::fs::remove_file(&path)?;
            /// # Ok::<(), Box<dyn std::error::Error>>(())
            /// ```
            ///
            /// # Errors
            #[doc = concat!("As [`", stringify!($filter), "::read_file`];")]
            /// and [`Error::Input`] where the file can't be opened or mapped.
            ///
            /// # Safety
            /// While it is mapped nobody writes into the file or makes it shorter. Another file may
            /// take its name meanwhile, as by
            #[doc = concat!("[`", stringify!($filter), "::save`].")]
            pub unsafe fn open(path: impl AsRef<Path>) -> Result<$mapped, Error> {
                // SAFETY: the caller keeps the same rule.
                unsafe { $mapped::open_with_limits(path, &Limits::default()) }
            }

            /// As [`open`](Self::open), of a file within these limits.
            ///
            /// ```
            #[doc = $use]
            /// # use fastbloom_c::{Error, Limits};
            /// Filter::with_num_bits(1024)?.hashes(65).save(&path)?;
            /// let mut limits = Limits { hashes: 65, words: 16 };
            /// // SAFETY: nobody else knows the file.
            /// assert!(unsafe { Mapped::open_with_limits(&path, &limits) }.is_ok());
            /// limits.words = 15;
            /// // SAFETY: as above.
            /// let refused = unsafe { Mapped::open_with_limits(&path, &limits) };
            /// assert_eq!(refused.err(), Some(Error::TooManyWords));
            /// # std::fs::remove_file(&path)?;
            /// # Ok::<(), Box<dyn std::error::Error>>(())
            /// ```
            ///
            /// # Errors
            /// As [`open`](Self::open).
            ///
            /// # Safety
            /// As [`open`](Self::open).
            pub unsafe fn open_with_limits(
                path: impl AsRef<Path>,
                limits: &Limits,
            ) -> Result<$mapped, Error> {
                // SAFETY: the caller keeps the same rule.
                unsafe { Mapping::open($kind, path.as_ref(), sys::FASTBLOOM_MAP_READ, limits) }
                    .map($mapped)
            }

            /// Whether an item is contained. False: it wasn't inserted since the last `clear` or
            /// `intersect`. True may be a false positive.
            ///
            /// ```
            #[doc = $use]
            /// let mut saved = Filter::with_num_bits(512)?.hashes(4);
            /// saved.insert("crab");
            /// saved.save(&path)?;
            /// // SAFETY: nobody else knows the file.
            /// let seen = unsafe { Mapped::open(&path)? };
            /// assert!(seen.contains("crab") && !seen.contains("lobster"));
            /// # std::fs::remove_file(&path)?;
            /// # Ok::<(), Box<dyn std::error::Error>>(())
            /// ```
            #[must_use]
            pub fn contains(&self, val: &(impl AsRef<[u8]> + ?Sized)) -> bool {
                $calls::contains(self.as_slice(), self.num_hashes(), self.key(), val.as_ref())
            }

            /// The hash of an item: SipHash-1-3 of exactly its bytes under the filter's key.
            ///
            /// ```
            #[doc = $use]
            /// let mut saved = Filter::with_num_bits(512)?.seed(&42).hashes(4);
            /// saved.insert("crab");
            /// saved.save(&path)?;
            /// // SAFETY: nobody else knows the file.
            /// let seen = unsafe { Mapped::open(&path)? };
            /// assert_eq!(seen.source_hash("crab"), fastbloom_c::hash(seen.key(), "crab"));
            /// # std::fs::remove_file(&path)?;
            /// # Ok::<(), Box<dyn std::error::Error>>(())
            /// ```
            #[must_use]
            pub fn source_hash(&self, val: &(impl AsRef<[u8]> + ?Sized)) -> u64 {
                hash(self.key(), val)
            }

            /// As [`contains`](Self::contains), by the hash.
            ///
            /// ```
            #[doc = $use]
            /// let mut saved = Filter::with_num_bits(512)?.hashes(4);
            /// saved.insert("crab");
            /// saved.save(&path)?;
            /// // SAFETY: nobody else knows the file.
            /// let seen = unsafe { Mapped::open(&path)? };
            /// assert!(seen.contains_hash(seen.source_hash("crab")));
            /// # std::fs::remove_file(&path)?;
            /// # Ok::<(), Box<dyn std::error::Error>>(())
            /// ```
            #[must_use]
            pub fn contains_hash(&self, hash: u64) -> bool {
                $calls::contains_hash(self.as_slice(), self.num_hashes(), hash)
            }

            /// The number of hashes, which isn't 0.
            ///
            /// ```
            #[doc = $use]
            /// Filter::with_num_bits(1024)?.hashes(4).save(&path)?;
            /// // SAFETY: nobody else knows the file.
            /// assert_eq!(unsafe { Mapped::open(&path)? }.num_hashes(), 4);
            /// # std::fs::remove_file(&path)?;
            /// # Ok::<(), Box<dyn std::error::Error>>(())
            /// ```
            #[must_use]
            pub fn num_hashes(&self) -> u32 {
                self.0 .0.num_hashes
            }

            /// The number of bits.
            ///
            /// ```
            #[doc = $use]
            /// Filter::with_num_bits(1000)?.hashes(4).save(&path)?;
            /// // SAFETY: nobody else knows the file.
            /// assert_eq!(unsafe { Mapped::open(&path)? }.num_bits(), 1024);
            /// # std::fs::remove_file(&path)?;
            /// # Ok::<(), Box<dyn std::error::Error>>(())
            /// ```
            #[must_use]
            pub fn num_bits(&self) -> usize {
                64 * self.as_slice().len()
            }

            /// The key.
            ///
            /// ```
            #[doc = $use]
            /// Filter::with_num_bits(1024)?.seed(&42).hashes(4).save(&path)?;
            /// // SAFETY: nobody else knows the file.
            /// let seen = unsafe { Mapped::open(&path)? };
            /// assert_eq!(u128::from_be_bytes(*seen.key()), 42);
            /// # std::fs::remove_file(&path)?;
            /// # Ok::<(), Box<dyn std::error::Error>>(())
            /// ```
            #[must_use]
            pub fn key(&self) -> &[u8; 16] {
                &self.0 .0.key
            }

            /// The words, as they lie in the file; of a blocked filter eight in a line.
            ///
            /// ```
            #[doc = $use]
            /// let mut saved = Filter::with_num_bits(512)?.hashes(4);
            /// saved.insert("crab");
            /// saved.save(&path)?;
            /// // SAFETY: nobody else knows the file.
            /// assert_eq!(unsafe { Mapped::open(&path)? }.as_slice(), saved.as_slice());
            /// # std::fs::remove_file(&path)?;
            /// # Ok::<(), Box<dyn std::error::Error>>(())
            /// ```
            #[must_use]
            pub fn as_slice(&self) -> &[u64] {
                // SAFETY: `open` mapped it to be read.
                unsafe { self.0.as_slice() }
            }

            /// A filter with words of its own.
            ///
            /// ```
            #[doc = $use]
            /// let mut saved = Filter::with_num_bits(512)?.hashes(4);
            /// saved.insert("crab");
            /// saved.save(&path)?;
            /// // SAFETY: nobody else knows the file.
            /// assert_eq!(unsafe { Mapped::open(&path)? }.to_filter()?, saved);
            /// # std::fs::remove_file(&path)?;
            /// # Ok::<(), Box<dyn std::error::Error>>(())
            /// ```
            ///
            /// # Errors
            /// [`Error::Memory`].
            pub fn to_filter(&self) -> Result<$filter, Error> {
                let words = self.as_slice();
                let mut filter = $filter::empty(words.len(), self.num_hashes(), *self.key())?;
                filter.words_mut().copy_from_slice(words);
                Ok(filter)
            }
        }

        impl fmt::Debug for $mapped {
            fn fmt(&self, f: &mut fmt::Formatter<'_>) -> fmt::Result {
                f.debug_struct(stringify!($mapped))
                    .field("num_bits", &self.num_bits())
                    .field("num_hashes", &self.num_hashes())
                    .finish_non_exhaustive()
            }
        }

        impl $shared<MappedWords> {
            /// Maps a file without a seal, whose words all processes share that map it so: what one
            /// inserts the others find, and the file has it.
            ///
            /// ```
            #[doc = $use]
            /// Filter::with_num_bits(1024)?.hashes(4).save_unsealed(&path)?;
            /// // SAFETY: nobody else knows the file.
            /// let seen = unsafe { Shared::map(&path)? };
            /// assert!(!seen.insert("crab"));
            /// assert!(Filter::load(&path)?.contains("crab")); // the file has it
            /// # std::fs::remove_file(&path)?;
            /// # Ok::<(), Box<dyn std::error::Error>>(())
            /// ```
            ///
            /// # Errors
            #[doc = concat!("As [`", stringify!($filter), "::read_file`];")]
            /// [`Error::Sealed`]; and [`Error::Input`] where the file can't be opened or mapped.
            ///
            /// # Safety
            /// While it is mapped nobody makes the file shorter, and nobody writes into it but by
            /// such filters, or by the library's calls on shared words. The disk has room for what
            /// is written into a hole of the file, or wherever the file system copies what is
            /// written: otherwise the process ends by a signal.
            pub unsafe fn map(path: impl AsRef<Path>) -> Result<$shared<MappedWords>, Error> {
                // SAFETY: the caller keeps the same rule.
                unsafe { $shared::map_with_limits(path, &Limits::default()) }
            }

            /// As [`map`](Self::map), of a file within these limits.
            ///
            /// ```
            #[doc = $use]
            /// # use fastbloom_c::{Error, Limits};
            /// Filter::with_num_bits(1024)?.hashes(65).save_unsealed(&path)?;
            /// let mut limits = Limits { hashes: 65, words: 16 };
            /// // SAFETY: nobody else knows the file.
            /// assert!(unsafe { Shared::map_with_limits(&path, &limits) }.is_ok());
            /// limits.words = 15;
            /// // SAFETY: as above.
            /// let refused = unsafe { Shared::map_with_limits(&path, &limits) };
            /// assert_eq!(refused.err(), Some(Error::TooManyWords));
            /// # std::fs::remove_file(&path)?;
            /// # Ok::<(), Box<dyn std::error::Error>>(())
            /// ```
            ///
            /// # Errors
            /// As [`map`](Self::map).
            ///
            /// # Safety
            /// As [`map`](Self::map).
            pub unsafe fn map_with_limits(
                path: impl AsRef<Path>,
                limits: &Limits,
            ) -> Result<$shared<MappedWords>, Error> {
                let mode = sys::FASTBLOOM_MAP_SHARE;
                // SAFETY: the caller keeps the same rule.
                let mapping = unsafe { Mapping::open($kind, path.as_ref(), mode, limits)? };
                let (num_hashes, key) = (mapping.0.num_hashes, mapping.0.key);
                let filter = $shared::from_words(MappedWords(mapping), num_hashes)?;
                Ok(filter.seed(&u128::from_be_bytes(key)))
            }
        }
    };
}

mapped_calls!(
    MappedFilter,
    AtomicBloomFilter,
    BloomFilter,
    Kind::Whole,
    whole,
    r#"# use fastbloom_c::{AtomicBloomFilter as Shared, BloomFilter as Filter};
# use fastbloom_c::MappedFilter as Mapped;
# let path = std::env::temp_dir().join(format!("mapped.{}.bloom", std::process::id()));"#
);
mapped_calls!(
    MappedBlockedFilter,
    AtomicBlockedBloomFilter,
    BlockedBloomFilter,
    Kind::Blocked,
    blocked,
    r#"# use fastbloom_c::{AtomicBlockedBloomFilter as Shared, BlockedBloomFilter as Filter};
# use fastbloom_c::MappedBlockedFilter as Mapped;
# let path = std::env::temp_dir().join(format!("mapped.{}.bloom", std::process::id()));"#
);
