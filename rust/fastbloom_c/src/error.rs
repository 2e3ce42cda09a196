//! Why a call is refused.

use fastbloom_c_sys as sys;
use std::hash::{Hash, Hasher};
use std::sync::Arc;
use std::{fmt, io, mem};

/// Why a call is refused. What it would have changed is as before.
///
/// Two reads that failed are equal where their kinds of error are.
///
/// ```
/// use fastbloom_c::{BloomFilter, Error};
///
/// let refused = BloomFilter::from_vec(Vec::new()).unwrap_err();
/// assert_eq!(refused, Error::EmptyWords);
/// assert_eq!(refused.code(), Some(2));
/// assert_eq!(refused.to_string(), "no words");
/// ```
#[derive(Clone, Debug)]
#[non_exhaustive]
pub enum Error {
    /// Zero bits were asked for.
    ZeroBits,
    /// There are no words, which are no filter.
    EmptyWords,
    /// There are more than 2^58 - 1 words.
    TooManyWords,
    /// A part of a rate is zero.
    ZeroRate,
    /// A size is 2^64 bits or more.
    SizeOverflow,
    /// Out of memory.
    Memory,
    /// A file has 0 hashes, or 2^32 and more.
    HashCount,
    /// A file has fewer than eight bytes, or doesn't begin with `fbloom` and a zero byte.
    NotAFilter,
    /// The version of a file isn't `1`.
    Version,
    /// A file ends before its last word.
    Cut,
    /// Bytes follow the last word of a file.
    TooLong,
    /// A byte of a file that must be zero isn't.
    Reserved,
    /// A file has a blocked filter, whose words are lines.
    Blocked,
    /// A file's filter isn't blocked: its words are no lines.
    NotBlocked,
    /// The seal of a file is wrong: the file was changed.
    Seal,
    /// A read failed, by this error.
    Input(Arc<io::Error>),
    /// A file that is to be shared has a seal.
    Sealed,
    /// A file has more hashes than the caller allows.
    TooManyHashes,
    /// Two filters differ in their numbers of words or hashes, or in their keys.
    OtherShape,
    /// The number of words isn't a multiple of eight, so that they are no whole lines.
    PartOfALine,
    /// A number or a text is no rate above 0 and below 1 whose parts are below 2^64.
    NotARate,
    /// The library refuses by this number, which a newer release has and this crate doesn't know.
    Unknown(u8),
}

/// What is told of the errors that have a number, by the number's name and words.
macro_rules! numbered {
    ($($error:ident = $number:ident: $words:literal;)+) => {
        impl Error {
            /// The number that the header `fastbloom.h` names. `OtherShape` and `NotARate` have none.
            ///
            /// ```
            /// use fastbloom_c::Error;
            ///
            /// assert_eq!(Error::Seal.code(), Some(14));
            /// assert_eq!(Error::OtherShape.code(), None);
            /// ```
            pub fn code(&self) -> Option<u8> {
                Some(match self {
                    $(Error::$error => sys::$number,)+
                    Error::Input(_) => sys::FASTBLOOM_INPUT,
                    Error::Unknown(code) => *code,
                    Error::OtherShape | Error::NotARate => return None,
                })
            }

            /// What a number says that a call of the library returns.
            pub(crate) fn check(code: u8) -> Result<(), Error> {
                Err(match code {
                    sys::FASTBLOOM_OK => return Ok(()),
                    $(sys::$number => Error::$error,)+
                    code => Error::Unknown(code),
                })
            }
        }

        impl fmt::Display for Error {
            fn fmt(&self, f: &mut fmt::Formatter<'_>) -> fmt::Result {
                f.write_str(match self {
                    $(Error::$error => $words,)+
                    Error::Input(error) => return write!(f, "input failed: {error}"),
                    Error::OtherShape => "the filters differ in words, hashes or keys",
                    Error::NotARate => "a rate is above 0 and below 1, with parts below 2^64",
                    Error::Unknown(code) => return write!(f, "an unknown refusal, {code}"),
                })
            }
        }
    };
}

numbered! {
    ZeroBits = FASTBLOOM_ZERO_BITS: "zero bits";
    EmptyWords = FASTBLOOM_EMPTY_WORDS: "no words";
    TooManyWords = FASTBLOOM_TOO_MANY_WORDS: "too many words";
    ZeroRate = FASTBLOOM_ZERO_RATE: "rate with a zero part";
    SizeOverflow = FASTBLOOM_SIZE_OVERFLOW: "size too large";
    Memory = FASTBLOOM_MEMORY: "no memory";
    HashCount = FASTBLOOM_HASH_COUNT: "hash count out of range";
    NotAFilter = FASTBLOOM_NOT_A_FILTER: "not a filter";
    Version = FASTBLOOM_UNKNOWN_VERSION: "a version of the file that isn't known";
    Cut = FASTBLOOM_CUT: "the file is cut";
    TooLong = FASTBLOOM_TOO_LONG: "the file goes on after its last word";
    Reserved = FASTBLOOM_RESERVED: "a reserved byte isn't zero";
    Blocked = FASTBLOOM_BLOCKED: "the file has a blocked filter";
    NotBlocked = FASTBLOOM_NOT_BLOCKED: "the file's filter isn't blocked";
    Seal = FASTBLOOM_SEAL: "the seal is wrong: the file was changed";
    Sealed = FASTBLOOM_SEALED: "a file with a seal can't be shared";
    TooManyHashes = FASTBLOOM_TOO_MANY_HASHES: "more hashes than are allowed";
    PartOfALine = FASTBLOOM_PART_OF_A_LINE: "words that are no whole lines";
}

impl std::error::Error for Error {
    fn source(&self) -> Option<&(dyn std::error::Error + 'static)> {
        match self {
            Error::Input(error) => Some(&**error),
            _ => None,
        }
    }
}

/// A read that failed.
///
/// ```
/// use std::error::Error as _;
/// use std::io;
///
/// let error = fastbloom_c::Error::from(io::Error::other("the line was cut"));
/// assert_eq!(error.to_string(), "input failed: the line was cut");
/// assert!(error.source().is_some_and(|source| source.is::<io::Error>()));
/// ```
impl From<io::Error> for Error {
    fn from(error: io::Error) -> Error {
        Error::Input(Arc::new(error))
    }
}

impl Error {
    /// The kind of the error of a read that failed.
    fn kind(&self) -> Option<io::ErrorKind> {
        match self {
            Error::Input(error) => Some(error.kind()),
            _ => None,
        }
    }
}

impl PartialEq for Error {
    fn eq(&self, other: &Error) -> bool {
        mem::discriminant(self) == mem::discriminant(other)
            && self.code() == other.code()
            && self.kind() == other.kind()
    }
}

impl Eq for Error {}

impl Hash for Error {
    fn hash<H: Hasher>(&self, state: &mut H) {
        mem::discriminant(self).hash(state);
        self.code().hash(state);
        self.kind().hash(state);
    }
}

#[cfg(test)]
mod tests {
    use super::{sys, Error};
    use std::collections::HashSet;

    /// Each number that isn't 0 is an error with this number, also one that no release has yet.
    #[test]
    fn each_number_is_an_error_with_it() {
        assert_eq!(Error::check(0), Ok(()));
        let errors = (1..=255).filter(|code| *code != sys::FASTBLOOM_INPUT);
        let errors: HashSet<_> = errors
            .map(|code| {
                let error = Error::check(code).expect_err("a refusal");
                assert_eq!(error.code(), Some(code));
                error
            })
            .collect();
        assert_eq!(errors.len(), 254);
        let unknown = Error::check(200).expect_err("a refusal");
        assert_eq!(unknown.to_string(), "an unknown refusal, 200");
    }
}
