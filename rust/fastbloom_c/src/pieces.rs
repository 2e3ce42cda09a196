//! Hashes of items that come in pieces.

use crate::raw;
use std::fmt;

/// The hash of an item that comes in pieces: SipHash-1-3 of all pieces, one behind the other.
///
/// A clone goes on by itself. `Debug` shows neither the key nor the bytes.
///
/// ```
/// use fastbloom_c::{hash, Hasher};
///
/// let mut hasher = Hasher::new(&[0; 16]);
/// hasher.update("cr").update("ab");
/// assert_eq!(hasher.finish(), hash(&[0; 16], "crab"));
/// ```
#[derive(Clone)]
pub struct Hasher(raw::Hashing);

impl Hasher {
    /// Begins with no bytes, under the key.
    ///
    /// ```
    /// # use fastbloom_c::{hash, Hasher};
    /// assert_eq!(Hasher::new(&[7; 16]).finish(), hash(&[7; 16], ""));
    /// ```
    #[must_use]
    pub fn new(key: &[u8; 16]) -> Hasher {
        Hasher(raw::begin_hash(key))
    }

    /// Takes in a piece.
    ///
    /// ```
    /// # use fastbloom_c::{hash, Hasher};
    /// let mut hasher = Hasher::new(&[0; 16]);
    /// hasher.update("cr").update(b"ab");
    /// assert_eq!(hasher.finish(), hash(&[0; 16], "crab"));
    /// ```
    pub fn update(&mut self, piece: &(impl AsRef<[u8]> + ?Sized)) -> &mut Hasher {
        raw::update_hash(&mut self.0, piece.as_ref());
        self
    }

    /// The hash of the pieces so far. More may follow.
    ///
    /// ```
    /// # use fastbloom_c::{hash, Hasher};
    /// let mut hasher = Hasher::new(&[0; 16]);
    /// assert_eq!(hasher.update("cr").finish(), hash(&[0; 16], "cr"));
    /// assert_eq!(hasher.update("ab").finish(), hash(&[0; 16], "crab"));
    /// ```
    #[must_use]
    pub fn finish(&self) -> u64 {
        raw::finish_hash(&self.0)
    }
}

impl fmt::Debug for Hasher {
    fn fmt(&self, f: &mut fmt::Formatter<'_>) -> fmt::Result {
        f.debug_struct("Hasher").finish_non_exhaustive()
    }
}
