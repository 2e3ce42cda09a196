//! Files of filters: a head of 64 bytes, and then the words.

use crate::in_file::{self, InFile};
use crate::paths::{load, save};
use crate::raw::{Head, Key, Kind};
use crate::raw_units::Line;
use crate::{BlockedBloomFilter, BloomFilter, Error, Limits};
use std::io::{self, Read, Write};
use std::path::Path;

/// The calls on files of a kind of filters, whose words are in such units: threads share it as the
/// second filter. A file of the other kind is refused by this error. The examples use the filter as
/// `Filter`, and the other kind as `Other`.
macro_rules! file_calls {
    ($filter:ident, $kind:expr, $unit:ty, $shared:ident, $refused:ident, $use:literal) => {
        impl InFile for $filter {
            const KIND: Kind = $kind;

            type Unit = $unit;

            fn of(head: &Head, words: Vec<$unit>) -> $filter {
                $filter {
                    words,
                    num_hashes: head.num_hashes,
                    key: head.key,
                }
            }

            fn parts(&self) -> (&[u64], u32, &Key) {
                (self.as_slice(), self.num_hashes, &self.key)
            }
        }

        impl $filter {
            /// The head of this filter's file, which its words follow, each as eight little-endian
            /// bytes. By the seal a reader finds out whether a byte was changed. A file that is
            /// changed while others map it isn't sealed.
            ///
            /// ```
            #[doc = $use]
            /// let seen = Filter::with_num_bits(512)?.items(["crab"]);
            /// assert_eq!(seen.head(true), seen.to_bytes()[..64]);
            /// assert_eq!(seen.head(false)[40..48], [0; 8]);
            /// # Ok::<(), fastbloom_c::Error>(())
            /// ```
            #[must_use]
            pub fn head(&self, sealed: bool) -> [u8; 64] {
                in_file::head(self, sealed)
            }

            /// The bytes of this filter's file, sealed. The file has the key.
            ///
            /// ```
            #[doc = $use]
            /// let mut seen = Filter::with_num_bits(512)?.hashes(4);
            /// seen.insert("crab");
            /// assert_eq!(Filter::from_bytes(&seen.to_bytes())?, seen);
            /// # Ok::<(), fastbloom_c::Error>(())
            /// ```
            #[must_use]
            pub fn to_bytes(&self) -> Vec<u8> {
                in_file::to_bytes(self)
            }

            /// The filter of a file's bytes, which has at most 64 hashes, since each call takes as
            /// many steps.
            ///
            /// ```
            #[doc = $use]
            /// # use fastbloom_c::Error;
            /// let mut seen = Filter::with_num_bits(512)?.hashes(4);
            /// seen.insert("crab");
            /// assert!(Filter::from_bytes(&seen.to_bytes())?.contains("crab"));
            /// assert_eq!(Filter::from_bytes(b"a text, and no filter"), Err(Error::NotAFilter));
            /// let bytes = Other::with_num_bits(512)?.hashes(4).to_bytes();
            #[doc = concat!("let refused = Error::", stringify!($refused), ";")]
            /// assert_eq!(Filter::from_bytes(&bytes), Err(refused)); // it is of the other kind
            /// # Ok::<(), Error>(())
            /// ```
            ///
            /// # Errors
            /// Of several reasons the first, as `docs/FILE.md` says:
            #[doc = concat!("[`Error::", stringify!($refused), "`]")]
            /// where the filter is of the other kind, and of a blocked one then
            /// [`Error::PartOfALine`]. Then come [`Error::TooManyHashes`]; and [`Error::Memory`] or
            /// [`Error::Seal`].
            pub fn from_bytes(bytes: &[u8]) -> Result<$filter, Error> {
                in_file::from_bytes(bytes, &Limits::default())
            }

            /// As [`from_bytes`](Self::from_bytes), with at most this many hashes.
            ///
            /// ```
            #[doc = $use]
            /// # use fastbloom_c::Error;
            /// let bytes = Filter::with_num_bits(512)?.hashes(65).to_bytes();
            /// assert_eq!(Filter::from_bytes(&bytes), Err(Error::TooManyHashes));
            /// assert_eq!(Filter::from_bytes_with_hashes(&bytes, 65)?.num_hashes(), 65);
            /// # Ok::<(), Error>(())
            /// ```
            ///
            /// # Errors
            /// As [`from_bytes`](Self::from_bytes).
            pub fn from_bytes_with_hashes(bytes: &[u8], max_hashes: u32) -> Result<$filter, Error> {
                let limits = Limits {
                    hashes: max_hashes,
                    ..Limits::default()
                };
                in_file::from_bytes(bytes, &limits)
            }

            /// Writes the file of this filter, sealed.
            ///
            /// ```
            #[doc = $use]
            /// let seen = Filter::with_num_bits(1024)?.items(["crab"]);
            /// let mut file = Vec::new();
            /// seen.write_file(&mut file)?;
            /// assert_eq!(file, seen.to_bytes());
            /// # Ok::<(), Box<dyn std::error::Error>>(())
            /// ```
            ///
            /// # Errors
            /// That of a write that failed.
            pub fn write_file(&self, output: &mut impl Write) -> io::Result<()> {
                in_file::write(self, output)
            }

            /// Reads a file to its end, which has at most 64 hashes. Memory is asked for as words
            /// come.
            ///
            /// ```
            #[doc = $use]
            /// let mut seen = Filter::with_num_bits(512)?.hashes(4);
            /// seen.insert("crab");
            /// assert_eq!(Filter::read_file(&mut seen.to_bytes().as_slice())?, seen);
            /// # Ok::<(), Box<dyn std::error::Error>>(())
            /// ```
            ///
            /// # Errors
            /// As [`from_bytes`](Self::from_bytes), but [`Error::Memory`], and what limits refuse,
            /// may come before [`Error::Cut`] and what is told after it; and [`Error::Input`] where
            /// a read failed.
            pub fn read_file(input: &mut impl Read) -> Result<$filter, Error> {
                in_file::read(input, &Limits::default())
            }

            /// As [`read_file`](Self::read_file), of a file within these limits.
            ///
            /// ```
            #[doc = $use]
            /// # use fastbloom_c::{Error, Limits};
            /// let bytes = Filter::with_num_bits(1024)?.hashes(65).to_bytes();
            /// let mut limits = Limits { hashes: 65, words: 16 };
            /// let seen = Filter::read_file_with_limits(&mut &bytes[..], &limits)?;
            /// assert_eq!(seen.to_bytes(), bytes);
            /// limits.words = 15;
            /// let refused = Filter::read_file_with_limits(&mut &bytes[..], &limits);
            /// assert_eq!(refused, Err(Error::TooManyWords));
            /// # Ok::<(), Error>(())
            /// ```
            ///
            /// # Errors
            /// As [`read_file`](Self::read_file).
            pub fn read_file_with_limits(
                input: &mut impl Read,
                limits: &Limits,
            ) -> Result<$filter, Error> {
                in_file::read(input, limits)
            }

            /// Writes the file of this filter, sealed, whole or not at all. A new file is written
            /// beside the one at the path, gets its owner, mode and ACL as far as that is allowed,
            /// and then replaces it. Last the folder is flushed, so that the file's name outlasts a
            /// loss of power. A process that is killed meanwhile leaves the new file, whose name
            /// ends in `.part`.
            ///
            /// A link stays, and the file to which it leads is replaced. A device, a pipe and a
            /// descriptor of this process, as `/dev/stdout`, are written as a stream: nothing is
            /// replaced or truncated.
            ///
            /// ```
            #[doc = $use]
            /// # let path = std::env::temp_dir().join(format!("seen.{}", std::process::id()));
            /// let seen = Filter::with_num_bits(1024)?.hashes(4);
            /// seen.save(&path)?;
            /// assert_eq!(Filter::load(&path)?, seen);
            /// # std::fs::remove_file(&path)?;
            /// # Ok::<(), Box<dyn std::error::Error>>(())
            /// ```
            ///
            /// # Errors
            /// That of the file system, as for a folder at the path. What was there is then still
            /// there. Only where the flush of the folder failed, the new file is.
            pub fn save(&self, path: impl AsRef<Path>) -> io::Result<()> {
                save(self, path.as_ref(), true)
            }

            /// As [`save`](Self::save), without a seal: a file that the [`map`] of shared filters
            /// takes. No reader finds out whether its words were changed.
            ///
            #[doc = concat!("[`map`]: crate::", stringify!($shared), "::map")]
            ///
            /// ```
            #[doc = $use]
            /// # let path = std::env::temp_dir().join(format!("seen.{}", std::process::id()));
            /// let seen = Filter::with_num_bits(1024)?.hashes(4);
            /// seen.save_unsealed(&path)?;
            /// assert_eq!(std::fs::read(&path)?[..64], seen.head(false));
            /// assert_eq!(Filter::load(&path)?, seen);
            /// # std::fs::remove_file(&path)?;
            /// # Ok::<(), Box<dyn std::error::Error>>(())
            /// ```
            ///
            /// # Errors
            /// As [`save`](Self::save).
            pub fn save_unsealed(&self, path: impl AsRef<Path>) -> io::Result<()> {
                save(self, path.as_ref(), false)
            }

            /// Reads the file at a path, of at most 64 hashes. Its size is compared before memory
            /// is asked for.
            ///
            /// ```
            #[doc = $use]
            /// # use fastbloom_c::Error;
            /// # let path = std::env::temp_dir().join(format!("seen.{}", std::process::id()));
            /// let refused = Filter::load(&path).unwrap_err();
            /// assert!(matches!(refused, Error::Input(_))); // there is no file yet
            /// let mut seen = Filter::with_num_bits(512)?.hashes(4);
            /// seen.insert("crab");
            /// seen.save(&path)?;
            /// assert!(Filter::load(&path)?.contains("crab"));
            /// # std::fs::remove_file(&path)?;
            /// # Ok::<(), Box<dyn std::error::Error>>(())
            /// ```
            ///
            /// # Errors
            /// As [`from_bytes`](Self::from_bytes); and [`Error::Input`] where the file can't be
            /// opened or read. So it is for a folder, a device or a pipe, which isn't waited for.
            pub fn load(path: impl AsRef<Path>) -> Result<$filter, Error> {
                load(path.as_ref(), &Limits::default())
            }

            /// As [`load`](Self::load), of a file within these limits.
            ///
            /// ```
            #[doc = $use]
            /// # use fastbloom_c::{Error, Limits};
            /// # let path = std::env::temp_dir().join(format!("seen.{}", std::process::id()));
            /// Filter::with_num_bits(1024)?.hashes(65).save(&path)?;
            /// assert_eq!(Filter::load(&path), Err(Error::TooManyHashes));
            /// let limits = Limits { hashes: 65, words: 16 };
            /// assert_eq!(Filter::load_with_limits(&path, &limits)?.num_hashes(), 65);
            /// # std::fs::remove_file(&path)?;
            /// # Ok::<(), Box<dyn std::error::Error>>(())
            /// ```
            ///
            /// # Errors
            /// As [`load`](Self::load).
            pub fn load_with_limits(
                path: impl AsRef<Path>,
                limits: &Limits,
            ) -> Result<$filter, Error> {
                load(path.as_ref(), limits)
            }
        }
    };
}

file_calls!(
    BloomFilter,
    Kind::Whole,
    u64,
    AtomicBloomFilter,
    Blocked,
    "# use fastbloom_c::{BlockedBloomFilter as Other, BloomFilter as Filter};"
);
file_calls!(
    BlockedBloomFilter,
    Kind::Blocked,
    Line,
    AtomicBlockedBloomFilter,
    NotBlocked,
    "# use fastbloom_c::{BlockedBloomFilter as Filter, BloomFilter as Other};"
);
