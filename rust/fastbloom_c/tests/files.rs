//! Files that are written, read and refused, of each kind. The form is that of docs/FILE.md.

mod common;

use common::{bytes_of, Place};
use fastbloom_c::{
    AtomicBlockedBloomFilter, AtomicBloomFilter, BlockedBloomFilter, BloomFilter, Error, Limits,
    MappedBlockedFilter, MappedFilter,
};
use std::error::Error as _;
use std::fs;
use std::io::{self, ErrorKind, Read};

/// The files of a model, which docs/FILE.md explains: one word or one line, three hashes, and the
/// key bytes 0 to 15, of `crab` and `lobster`.
const WHOLE: &str = include_str!("../../../examples/file.hex");
const LINES: &str = include_str!("../../../examples/blocked-file.hex");

fn changed(file: &[u8], place: usize, byte: u8) -> Vec<u8> {
    let mut file = file.to_vec();
    file[place] = byte;
    file
}

/// Gives one byte at a time, and is interrupted before each.
struct Slow<'a> {
    bytes: &'a [u8],
    interrupted: bool,
}

impl Read for Slow<'_> {
    fn read(&mut self, buffer: &mut [u8]) -> io::Result<usize> {
        self.interrupted = !self.interrupted;
        if self.interrupted {
            return Err(ErrorKind::Interrupted.into());
        }
        let most = buffer.len().min(1);
        self.bytes.read(&mut buffer[..most])
    }
}

/// Fails where the bytes are at their end.
struct Broken<'a>(&'a [u8]);

impl Read for Broken<'_> {
    fn read(&mut self, buffer: &mut [u8]) -> io::Result<usize> {
        match self.0.read(buffer)? {
            0 => Err(ErrorKind::ConnectionReset.into()),
            count => Ok(count),
        }
    }
}

type Rows = Vec<(Error, Vec<Vec<u8>>)>;

/// Files that differ from a good one, by the refusal that a reader tells.
fn refused(file: &[u8]) -> Rows {
    let change = |place, byte| changed(file, place, byte);
    let cut = |place, byte, len| changed(file, place, byte)[..len].to_vec();
    let last = file.len() - 1;
    let rows = [
        (Error::EmptyWords, vec![change(16, 0), cut(16, 0, 24)]),
        (Error::TooManyWords, vec![change(23, 4), cut(23, 4, 24)]),
        (
            Error::HashCount,
            vec![change(8, 0), change(12, 1), cut(8, 0, 16)],
        ),
        (
            Error::NotAFilter,
            vec![
                vec![],
                file[..7].to_vec(),
                change(0, 70),
                changed(&change(6, 1), 7, 50),
            ],
        ),
        (
            Error::Version,
            vec![change(7, 50), changed(&change(7, 50), 8, 0)[..8].to_vec()],
        ),
        (
            Error::Cut,
            vec![
                file[..8].to_vec(),
                cut(8, 0, 15),
                cut(16, 0, 23),
                file[..63].to_vec(),
                file[..64].to_vec(),
                file[..last].to_vec(),
                cut(48, 1, 60),
                cut(48, 1, last),
                change(23, 3),
            ],
        ),
        (
            Error::TooLong,
            vec![[file, &[0]].concat(), [&change(63, 1)[..], &[0]].concat()],
        ),
        (
            Error::Reserved,
            vec![
                change(48, 2),
                change(63, 128),
                changed(&change(55, 1), 40, 0),
            ],
        ),
        (Error::TooManyHashes, vec![change(8, 65)]),
        (
            Error::Seal,
            [8, 24, 39, 40, 64, last]
                .map(|place| change(place, 1))
                .to_vec(),
        ),
    ];
    rows.into()
}

/// Those that one kind alone refuses so.
fn refused_whole(file: &[u8]) -> Rows {
    vec![(Error::Blocked, vec![changed(file, 48, 1)])]
}

fn refused_lines(file: &[u8]) -> Rows {
    let (whole, part) = (changed(file, 48, 0), changed(file, 16, 7));
    let cut = vec![whole[..127].to_vec(), part[..119].to_vec()];
    let long = vec![part.clone(), [&whole[..], &[0]].concat()];
    let other = changed(&part, 48, 0)[..120].to_vec();
    vec![
        (Error::Cut, cut),
        (Error::TooLong, long),
        (Error::Reserved, vec![changed(file, 49, 1)]),
        (Error::NotBlocked, vec![whole, other]),
        (Error::PartOfALine, vec![part[..120].to_vec()]),
    ]
}

/// The tests of one kind, whose least filter has so many bits.
macro_rules! tests_of_kind {
    ($kind:ident, $filter:ident, $mapped:ident, $file:ident, $bits:literal, $refused:ident) => {
        mod $kind {
            use super::*;

            fn worked() -> Vec<u8> {
                bytes_of($file)
            }

            fn empty(bits: usize, hashes: u32) -> $filter {
                $filter::with_num_bits(bits).expect("bits").hashes(hashes)
            }

            /// What each way to read returns, where all agree.
            pub fn read(place: &Place, file: &[u8]) -> Result<$filter, Error> {
                let answer = $filter::from_bytes(file);
                assert_eq!($filter::read_file(&mut &*file), answer);
                let mut slow = Slow {
                    bytes: file,
                    interrupted: false,
                };
                assert_eq!($filter::read_file(&mut slow), answer);
                // (as much at once as comes, which is no whole line)
                let (first, rest) = file.split_at(file.len().min(101));
                assert_eq!($filter::read_file(&mut first.chain(rest)), answer);
                fs::write(&place.0, file).expect("room");
                assert_eq!($filter::load(&place.0), answer);
                // SAFETY: no other test has this file.
                let mapped = unsafe { $mapped::open(&place.0) };
                assert_eq!(mapped.and_then(|mapped| mapped.to_filter()), answer);
                answer
            }

            fn place(name: &str) -> Place {
                Place::new(&format!("{}.{name}", stringify!($kind)))
            }

            #[test]
            fn a_worked_file_is_written_and_read() {
                let place = place("worked");
                let key = std::array::from_fn(|place| place as u8);
                let bits = $filter::with_num_bits($bits).expect("bits");
                let mut made = bits.seed(&u128::from_be_bytes(key)).hashes(3);
                assert!(!made.insert("crab") && !made.insert("lobster"));
                assert_eq!(made.to_bytes(), worked());
                assert_eq!(made.head(true), worked()[..64]);
                let mut written = Vec::new();
                made.write_file(&mut written).expect("room");
                assert_eq!(written, worked());
                let again = read(&place, &worked()).expect("a filter");
                assert!(again.contains("crab") && again.contains("lobster"));
                assert!(!again.contains("whale") && again == made);
                fs::remove_file(&place.0).expect("a file");
                again.save(&place.0).expect("room");
                assert_eq!(fs::read(&place.0).expect("a file"), worked());
            }

            #[test]
            fn a_file_without_a_seal() {
                let place = place("unsealed");
                let made = read(&place, &worked()).expect("a filter");
                let mut plain = worked();
                plain[40..48].fill(0);
                assert_eq!(made.head(false), plain[..64]);
                assert_eq!(read(&place, &plain), Ok(made));
            }

            #[test]
            fn files_of_many_words() {
                let place = place("many");
                for count in [1, 2, 127, 128, 129, 300, 1023, 1024, 1025, 3000] {
                    let mut made = empty($bits * count, 7);
                    made.extend((0..500).map(|item: u32| item.to_string()));
                    let file = made.to_bytes();
                    let mut written = Vec::new();
                    made.write_file(&mut written).expect("room");
                    assert_eq!(written, file);
                    assert_eq!(file.len(), 64 + $bits / 8 * count);
                    assert_eq!(read(&place, &file), Ok(made));
                    assert_eq!(read(&place, &file[..file.len() - 1]), Err(Error::Cut));
                    assert_eq!(read(&place, &[file, vec![0]].concat()), Err(Error::TooLong));
                }
            }

            #[test]
            fn files_are_refused_each_for_its_reason() {
                let place = place("refused");
                let mut count = 0;
                for (error, files) in [refused(&worked()), $refused(&worked())].concat() {
                    for file in files {
                        assert_eq!(read(&place, &file), Err(error.clone()), "{file:x?}");
                        count += 1;
                    }
                }
                assert!(count > 34);
            }

            #[test]
            fn a_file_with_many_hashes_is_refused() {
                let place = place("hashes");
                let with = |num_hashes: u32| {
                    let file = empty($bits, num_hashes);
                    (file.to_bytes(), Ok(file))
                };
                let many_hashes = Err(Error::TooManyHashes);
                let (few, few_read) = with(64);
                let (more, more_read) = with(65);
                let (many, many_read) = with(u32::MAX);
                assert_eq!(read(&place, &few), few_read);
                assert_eq!(read(&place, &more), many_hashes);
                assert_eq!(read(&place, &many), many_hashes);
                assert_eq!($filter::from_bytes_with_hashes(&few, 63), many_hashes);
                assert_eq!($filter::from_bytes_with_hashes(&more, 65), more_read);
                assert_eq!($filter::from_bytes_with_hashes(&many, u32::MAX), many_read);
                // What is told before it, and after it.
                assert_eq!(read(&place, &changed(&many, 50, 1)), Err(Error::Reserved));
                assert_eq!(read(&place, &changed(&many, 64, 1)), many_hashes);
            }

            #[test]
            fn what_cannot_be_read_or_written_is_reported() {
                let (file, place) = (worked(), place("told"));
                for there in [0, 5, 63, 64, file.len() - 1, file.len()] {
                    let answer = $filter::read_file(&mut Broken(&file[..there]));
                    let wanted = Error::from(io::Error::from(ErrorKind::ConnectionReset));
                    assert_eq!(answer, Err(wanted), "{there}");
                }
                let none = $filter::load(&place.0).expect_err("no file");
                assert!(matches!(none, Error::Input(error) if error.kind() == ErrorKind::NotFound));
                let made = $filter::from_bytes(&file).expect("a filter");
                assert!(made.save(place.0.join("seen.bloom")).is_err());
                for room in [0, 63, 64, file.len() - 1] {
                    let mut written = vec![0; room];
                    let error = made.write_file(&mut &mut written[..]).expect_err("no room");
                    assert_eq!(error.kind(), ErrorKind::WriteZero);
                }
            }
        }
    };
}

tests_of_kind!(whole, BloomFilter, MappedFilter, WHOLE, 64, refused_whole);
tests_of_kind!(
    lines,
    BlockedBloomFilter,
    MappedBlockedFilter,
    LINES,
    512,
    refused_lines
);

#[test]
fn each_kind_refuses_the_files_of_the_other() {
    let place = Place::new("other");
    let whole = BloomFilter::with_num_bits(1024).expect("bits").hashes(4);
    assert_eq!(
        lines::read(&place, &whole.to_bytes()),
        Err(Error::NotBlocked)
    );
    // SAFETY: no other test has this file; so it is in each of these blocks.
    let shared = unsafe { AtomicBlockedBloomFilter::map(&place.0) };
    assert_eq!(shared.err(), Some(Error::NotBlocked));
    let bits = BlockedBloomFilter::with_num_bits(1 << 16).expect("bits");
    let lines = bits.hashes(4);
    lines.save(&place.0).expect("room");
    let blocked = Some(Error::Blocked);
    assert_eq!(BloomFilter::from_bytes(&lines.to_bytes()).err(), blocked);
    assert_eq!(BloomFilter::load(&place.0).err(), blocked);
    // SAFETY: as above.
    assert_eq!(unsafe { MappedFilter::open(&place.0) }.err(), blocked);
    // SAFETY: as above.
    let shared = unsafe { AtomicBloomFilter::map(&place.0) };
    assert_eq!(shared.err(), blocked);
    // SAFETY: as above.
    let sealed = unsafe { AtomicBlockedBloomFilter::map(&place.0) };
    assert_eq!(sealed.err(), Some(Error::Sealed));
}

/// Words come without end behind these heads. Each is refused before a word is read.
#[test]
fn what_is_beyond_a_limit_is_refused_by_the_head() {
    let head = |hashes, words: u64, layout| {
        let mut head = changed(&bytes_of(WHOLE)[..64], 8, hashes);
        head[16..24].copy_from_slice(&words.to_le_bytes());
        changed(&head, 48, layout)
    };
    let refused = |head: &[u8], limits| {
        let whole = BloomFilter::read_file_with_limits(&mut head.chain(io::repeat(0)), limits);
        let lines =
            BlockedBloomFilter::read_file_with_limits(&mut head.chain(io::repeat(0)), limits);
        [whole.expect_err("limits"), lines.expect_err("limits")]
    };
    let limits = Limits {
        hashes: 3,
        words: 16,
    };
    let (words, hashes) = (Error::TooManyWords, Error::TooManyHashes);
    let many = 1 << 50;
    for (number, first) in [(3, &words), (4, &hashes)] {
        let whole = refused(&head(number, many, 0), &limits);
        assert_eq!(whole, [first.clone(), Error::NotBlocked]);
        let lines = refused(&head(number, many, 1), &limits);
        assert_eq!(lines, [Error::Blocked, first.clone()]);
    }
    let usual = refused(&head(65, many, 0), &Limits::default());
    assert_eq!(usual, [hashes, Error::NotBlocked]);
}

/// A read that fails by an error with a cause.
struct Unplugged;

#[derive(Debug)]
struct Cause;

impl std::fmt::Display for Cause {
    fn fmt(&self, f: &mut std::fmt::Formatter<'_>) -> std::fmt::Result {
        f.write_str("the plug was pulled")
    }
}

impl std::error::Error for Cause {}

impl Read for Unplugged {
    fn read(&mut self, _: &mut [u8]) -> io::Result<usize> {
        Err(io::Error::new(ErrorKind::TimedOut, Cause))
    }
}

#[test]
fn the_cause_of_a_read_that_failed_is_kept() {
    let error = BloomFilter::read_file(&mut Unplugged).expect_err("no file");
    assert_eq!(error.to_string(), "input failed: the plug was pulled");
    assert_eq!(error.code(), Some(15));
    let source = error.source().expect("a source");
    let told: &io::Error = source.downcast_ref().expect("that of the read");
    assert_eq!(told.kind(), ErrorKind::TimedOut);
    assert!(told.get_ref().expect("a cause").is::<Cause>());
    assert!(error.clone().source().is_some() && Error::Seal.source().is_none());
    // Two are equal where their kinds are.
    assert_eq!(error, Error::from(io::Error::from(ErrorKind::TimedOut)));
    assert_ne!(error, Error::from(io::Error::from(ErrorKind::BrokenPipe)));
    assert_ne!(error, Error::Seal);
}
