//! What files of both kinds of filters have in common: a head of 64 bytes, and then the words.

use crate::many::AT_ONCE;
use crate::raw::{self, Head, HeadBytes, Key, Kind};
use crate::raw_units::{words_mut, Unit};
use crate::Error;
use std::io::{self, ErrorKind, Read, Write};

/// What a reader of files takes at most. Set it for files that others made: each call on a filter
/// takes as many steps as it has hashes, and a file of few bytes on a disk can have any number of
/// words.
///
/// ```
/// use fastbloom_c::Limits;
///
/// let megabyte = Limits { words: 1 << 17, ..Limits::default() };
/// assert_eq!(megabyte.hashes, 64);
/// ```
#[derive(Clone, Copy, Debug, PartialEq, Eq)]
pub struct Limits {
    /// A file with more hashes is refused by [`Error::TooManyHashes`].
    ///
    /// ```
    /// assert_eq!(fastbloom_c::Limits::default().hashes, 64);
    /// ```
    pub hashes: u32,
    /// A file with more words is refused by [`Error::TooManyWords`].
    ///
    /// ```
    /// assert_eq!(fastbloom_c::Limits::default().words, usize::MAX);
    /// ```
    pub words: usize,
}

impl Default for Limits {
    fn default() -> Limits {
        Limits {
            hashes: 64,
            words: usize::MAX,
        }
    }
}

impl Limits {
    fn check(&self, head: &Head) -> Result<(), Error> {
        if head.num_hashes > self.hashes {
            return Err(Error::TooManyHashes);
        }
        if head.num_words > self.words {
            return Err(Error::TooManyWords);
        }
        Ok(())
    }
}

/// The part of a head that is read before the words. Then come sixteen bytes by which the kinds
/// differ.
const NUMBERS: usize = 48;

/// A filter that has files.
pub(crate) trait InFile: Sized {
    /// Which kind of files they are.
    const KIND: Kind;

    /// What it has its words in.
    type Unit: Unit;

    /// The filter of a head and of what lies behind it.
    fn of(head: &Head, units: Vec<Self::Unit>) -> Self;

    /// Its words, the number of hashes, and the key.
    fn parts(&self) -> (&[u64], u32, &Key);
}

fn seal<F: InFile>(filter: &F) -> u64 {
    let (words, num_hashes, key) = filter.parts();
    raw::seal(F::KIND, words, num_hashes, key)
}

/// The head of a filter's file.
pub(crate) fn head<F: InFile>(filter: &F, sealed: bool) -> HeadBytes {
    let (words, num_hashes, key) = filter.parts();
    let head = Head {
        num_words: words.len(),
        num_hashes,
        key: *key,
        seal: if sealed { seal(filter) } else { 0 },
    };
    match raw::write_head(F::KIND, &head) {
        Ok(bytes) => bytes,
        Err(_) => unreachable!("a filter has from 1 to 2^58 - 1 words, in whole lines"),
    }
}

/// The bytes of a filter's file, sealed.
pub(crate) fn to_bytes(filter: &impl InFile) -> Vec<u8> {
    let (words, _, _) = filter.parts();
    let mut bytes = Vec::with_capacity(64 + 8 * words.len());
    bytes.extend_from_slice(&head(filter, true));
    bytes.extend(words.iter().flat_map(|word| word.to_le_bytes()));
    bytes
}

/// Writes the file of a filter, sealed.
pub(crate) fn write(filter: &impl InFile, output: &mut impl Write) -> io::Result<()> {
    output.write_all(&head(filter, true))?;
    let mut buffer = [0; 8 * AT_ONCE];
    for words in filter.parts().0.chunks(AT_ONCE) {
        for (place, word) in buffer.chunks_exact_mut(8).zip(words) {
            place.copy_from_slice(&word.to_le_bytes());
        }
        output.write_all(&buffer[..8 * words.len()])?;
    }
    Ok(())
}

/// Reads until the buffer is full or the input ends, and returns how many bytes there were.
fn fill(input: &mut impl Read, buffer: &mut [u8]) -> Result<usize, Error> {
    let mut there = 0;
    while there < buffer.len() {
        match input.read(&mut buffer[there..]) {
            Ok(0) => break,
            Ok(count) => there += count,
            Err(error) if error.kind() == ErrorKind::Interrupted => {}
            Err(error) => return Err(error.into()),
        }
    }
    Ok(there)
}

/// The numbers that a head tells, of which this many bytes are there.
fn numbers_of(bytes: &HeadBytes, there: usize) -> Result<Head, Error> {
    // Where the head is truncated, good numbers stand for those that it lacks. The last two, by which
    // the kinds differ, are read later.
    let mut good = [0; 64];
    (good[8], good[16]) = (1, 1);
    let whole = there.min(NUMBERS) / 8 * 8;
    good[..whole].copy_from_slice(&bytes[..whole]);
    raw::read_head(Kind::Whole, &good)
}

/// Reads this many words, as far as they are whole units. Memory is asked for as they come, but for
/// those that are sure to come.
fn read_units<U: Unit>(
    input: &mut impl Read,
    num_words: usize,
    sure: usize,
) -> Result<Vec<U>, Error> {
    let mut units = Vec::new();
    let mut buffer = [0; 8 * AT_ONCE];
    let mut left = num_words;
    units
        .try_reserve_exact(sure / U::WORDS)
        .map_err(|_| Error::Memory)?;
    while left > 0 {
        // (every part but the last has whole units)
        let count = AT_ONCE.min(left);
        let bytes = &mut buffer[..8 * count];
        if fill(input, bytes)? < bytes.len() {
            return Err(Error::Cut);
        }
        let (old, more) = (units.len(), count / U::WORDS);
        units.try_reserve(more).map_err(|_| Error::Memory)?;
        units.resize(old + more, U::ZERO);
        for (word, bytes) in words_mut(&mut units[old..])
            .iter_mut()
            .zip(bytes.chunks_exact(8))
        {
            *word = u64::from_le_bytes(bytes.try_into().expect("eight bytes"));
        }
        left -= count;
    }
    Ok(units)
}

/// What a whole head tells, which is refused for its last bytes, or by limits.
fn whole_head(kind: Kind, bytes: &HeadBytes, limits: &Limits) -> Result<Head, Error> {
    let head = raw::read_head(kind, bytes)?;
    limits.check(&head)?;
    Ok(head)
}

/// The filter of a head and its words, unless the seal is wrong.
fn unsealed<F: InFile>(head: Head, units: Vec<F::Unit>) -> Result<F, Error> {
    let filter = F::of(&head, units);
    if head.seal != 0 && head.seal != seal(&filter) {
        return Err(Error::Seal);
    }
    Ok(filter)
}

/// The filter of a file's bytes.
pub(crate) fn from_bytes<F: InFile>(bytes: &[u8], limits: &Limits) -> Result<F, Error> {
    read_sized(&mut &*bytes, bytes.len() as u64, limits)
}

/// Reads a file of this size, which is compared before memory is asked for.
pub(crate) fn read_sized<F: InFile>(
    input: &mut impl Read,
    size: u64,
    limits: &Limits,
) -> Result<F, Error> {
    let mut head = [0; 64];
    let there = fill(input, &mut head)?;
    let num_words = numbers_of(&head, there)?.num_words;
    let wanted = 64 + 8 * num_words as u64;
    // (a file may have become shorter since its size was told)
    if size < wanted || there < head.len() {
        return Err(Error::Cut);
    }
    if size > wanted {
        return Err(Error::TooLong);
    }
    let head = whole_head(F::KIND, &head, limits)?;
    unsealed(head, read_units(input, num_words, num_words)?)
}

/// Reads a file to its end. One that is beyond a limit is refused by its head.
pub(crate) fn read<F: InFile>(input: &mut impl Read, limits: &Limits) -> Result<F, Error> {
    let mut bytes = [0; 64];
    let there = fill(input, &mut bytes)?;
    let numbers = numbers_of(&bytes, there)?;
    if there < bytes.len() {
        return Err(Error::Cut);
    }
    let head = whole_head(F::KIND, &bytes, limits);
    if limits.check(&numbers).is_err() {
        head.as_ref().map_err(Error::clone)?;
    }
    let units = read_units(input, numbers.num_words, 0)?;
    if fill(input, &mut [0])? > 0 {
        return Err(Error::TooLong);
    }
    unsealed(head?, units)
}
