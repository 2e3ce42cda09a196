//! Each refusal once, with its number and its text.

use fastbloom_c::{BloomFilter, Error, Rate};
use std::collections::HashSet;
use std::io::{self, ErrorKind};

fn rate(num: u64, den: u64) -> Rate {
    Rate::new(num, den).expect("a rate")
}

#[test]
fn no_words_are_refused() {
    assert_eq!(BloomFilter::from_vec(Vec::new()), Err(Error::EmptyWords));
    assert_eq!(BloomFilter::with_num_bits(0), Err(Error::ZeroBits));
}

#[test]
fn sizes_are_refused() {
    assert_eq!(
        BloomFilter::with_num_bits(usize::MAX),
        Err(Error::TooManyWords)
    );
    assert_eq!(
        BloomFilter::with_num_bits(usize::MAX - 62),
        Err(Error::TooManyWords)
    );
    // The greatest number of items that a plan of half has words for, and the one with too many
    // bits behind it.
    let (many, more) = (12_786_308_645_202_655_226, 12_786_308_645_202_655_227);
    let half = |items| BloomFilter::with_false_pos(rate(1, 2)).expected_items(items);
    assert_eq!(half(many), Err(Error::TooManyWords));
    assert_eq!(half(more), Err(Error::SizeOverflow));
    assert_eq!(half(usize::MAX), Err(Error::SizeOverflow));
}

#[test]
fn parts_of_zero_are_refused() {
    for (num, den) in [(0, 5), (1, 0), (0, 0)] {
        assert_eq!(Rate::new(num, den), Err(Error::ZeroRate));
    }
}

/// As Python and C++ refuse it: such a rate is mostly the inverse of the one that was meant.
#[test]
fn rates_of_1_and_above_are_refused() {
    for (num, den) in [(1, 1), (1000, 1), (1001, 1000), (u64::MAX, u64::MAX)] {
        assert_eq!(Rate::new(num, den), Err(Error::NotARate));
    }
    assert!(Rate::new(u64::MAX - 1, u64::MAX).is_ok());
}

/// No machine has 2^60 bytes of memory.
#[test]
fn a_size_that_has_no_room_is_refused() {
    assert_eq!(BloomFilter::with_num_bits(1 << 63), Err(Error::Memory));
    let refused = BloomFilter::with_false_pos(rate(1, 2)).expected_items(1 << 62);
    assert_eq!(refused, Err(Error::Memory));
}

fn all() -> [(Error, Option<u8>, &'static str); 19] {
    [
        (Error::ZeroBits, Some(1), "zero bits"),
        (Error::EmptyWords, Some(2), "no words"),
        (Error::TooManyWords, Some(3), "too many words"),
        (Error::ZeroRate, Some(4), "rate with a zero part"),
        (Error::SizeOverflow, Some(5), "size too large"),
        (Error::Memory, Some(6), "no memory"),
        (Error::HashCount, Some(7), "hash count out of range"),
        (Error::NotAFilter, Some(9), "not a filter"),
        (
            Error::Version,
            Some(10),
            "a version of the file that isn't known",
        ),
        (Error::Cut, Some(11), "the file is cut"),
        (
            Error::TooLong,
            Some(12),
            "the file goes on after its last word",
        ),
        (Error::Reserved, Some(13), "a reserved byte isn't zero"),
        (Error::Blocked, Some(17), "the file has a blocked filter"),
        (
            Error::NotBlocked,
            Some(18),
            "the file's filter isn't blocked",
        ),
        (
            Error::Seal,
            Some(14),
            "the seal is wrong: the file was changed",
        ),
        (
            Error::from(io::Error::from(ErrorKind::TimedOut)),
            Some(15),
            "input failed: timed out",
        ),
        (
            Error::TooManyHashes,
            Some(255),
            "more hashes than are allowed",
        ),
        (
            Error::PartOfALine,
            Some(16),
            "words that are no whole lines",
        ),
        (
            Error::OtherShape,
            None,
            "the filters differ in words, hashes or keys",
        ),
    ]
}

#[test]
fn each_has_its_number_and_its_text() {
    for (error, code, text) in all() {
        assert_eq!((error.code(), error.to_string().as_str()), (code, text));
    }
}

/// Each is equal to itself alone, and has the hash of its equals.
#[test]
fn each_is_another_one() {
    let errors = || all().into_iter().map(|(error, _, _)| error);
    for (place, error) in errors().enumerate() {
        let equal = errors().enumerate().filter(|(_, other)| *other == error);
        assert_eq!(equal.map(|(at, _)| at).collect::<Vec<_>>(), [place]);
    }
    assert_eq!(errors().chain(errors()).collect::<HashSet<_>>().len(), 19);
}

#[test]
fn each_is_an_error_that_the_question_mark_takes() {
    fn refused() -> Result<BloomFilter, Box<dyn std::error::Error + Send + Sync>> {
        Ok(BloomFilter::from_vec(Vec::new())?.hashes(1))
    }
    let error = refused().expect_err("no words");
    assert_eq!(error.downcast_ref(), Some(&Error::EmptyWords));
}
