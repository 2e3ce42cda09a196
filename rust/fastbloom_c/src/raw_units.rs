//! What filters have their words in, and what threads share of it.

use crate::Error;
use std::alloc::{alloc_zeroed, Layout};
use std::slice;
use std::sync::atomic::AtomicU64;

/// How many words a line has.
pub const LINE: usize = 8;

/// Eight words that begin where a line of the cache does.
#[derive(Clone, Copy)]
#[repr(C, align(64))]
pub struct Line([u64; LINE]);

/// Eight words that threads share.
#[repr(C, align(64))]
pub struct AtomicLine([AtomicU64; LINE]);

/// What a filter has its words in: words, or lines of eight.
///
/// # Safety
/// A unit is so many words and no more, and zeros are one. A shared unit has the same layout: an
/// atomic word has the size, the alignment and the bits of a `u64` on the processors that the
/// library is built for.
pub unsafe trait Unit: Copy {
    /// How many words a unit has.
    const WORDS: usize;

    /// The unit of zeros.
    const ZERO: Self;

    /// A unit that threads share.
    type Shared;
}

// SAFETY: it is a word, and an atomic word lies as it does.
unsafe impl Unit for u64 {
    const WORDS: usize = 1;

    const ZERO: u64 = 0;

    type Shared = AtomicU64;
}

// SAFETY: both kinds of lines are eight words, which leave no room in them.
unsafe impl Unit for Line {
    const WORDS: usize = LINE;

    const ZERO: Line = Line([0; LINE]);

    type Shared = AtomicLine;
}

/// The words of units.
pub fn words<U: Unit>(units: &[U]) -> &[u64] {
    // SAFETY: units lie as so many times as many words.
    unsafe { slice::from_raw_parts(units.as_ptr().cast(), U::WORDS * units.len()) }
}

/// The words of units, to be written.
pub fn words_mut<U: Unit>(units: &mut [U]) -> &mut [u64] {
    // SAFETY: as above; the units are borrowed for writing.
    unsafe { slice::from_raw_parts_mut(units.as_mut_ptr().cast(), U::WORDS * units.len()) }
}

/// The words of atomic lines.
pub fn atomic_words(lines: &[AtomicLine]) -> &[AtomicU64] {
    // SAFETY: as above.
    unsafe { slice::from_raw_parts(lines.as_ptr().cast(), LINE * lines.len()) }
}

/// Units of zeros that have so many words together.
pub fn zeros<U: Unit>(num_words: usize) -> Result<Vec<U>, Error> {
    let count = num_words / U::WORDS;
    let layout = Layout::array::<U>(count).map_err(|_| Error::Memory)?;
    if layout.size() == 0 {
        return Ok(Vec::new());
    }
    // SAFETY: the size isn't zero.
    let units = unsafe { alloc_zeroed(layout) }.cast::<U>();
    if units.is_null() {
        return Err(Error::Memory);
    }
    // SAFETY: the allocator of every `Vec` gave this memory, for an array of so many units, and
    // they are zeros.
    Ok(unsafe { Vec::from_raw_parts(units, count, count) })
}

/// Units that become shared ones, where they lie.
pub fn share<U: Unit>(units: Vec<U>) -> Box<[U::Shared]> {
    let units = Box::into_raw(units.into_boxed_slice());
    // SAFETY: a shared unit has the layout of another, and the box was the only owner.
    unsafe { Box::from_raw(units as *mut [U::Shared]) }
}

/// Shared units that become plain ones, where they lie.
pub fn unshare<U: Unit>(units: Box<[U::Shared]>) -> Vec<U> {
    let units = Box::into_raw(units);
    // SAFETY: as above, and nobody borrows the units any more.
    unsafe { Box::from_raw(units as *mut [U]) }.into_vec()
}
