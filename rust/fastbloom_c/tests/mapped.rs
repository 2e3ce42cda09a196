//! Filters in mapped files, of each kind.

mod common;

use common::Place;
use fastbloom_c::{
    AtomicBlockedBloomFilter, AtomicBloomFilter, BlockedBloomFilter, BloomFilter, Error,
    MappedBlockedFilter, MappedFilter,
};
use std::fs::{self, OpenOptions};
use std::io::ErrorKind;
use std::thread;

fn kind_of(error: Error) -> Option<ErrorKind> {
    match error {
        Error::Input(error) => Some(error.kind()),
        _ => None,
    }
}

/// The tests of one kind.
macro_rules! tests_of_kind {
    ($kind:ident, $filter:ident, $mapped:ident, $shared:ident) => {
        mod $kind {
            use super::*;

            fn filter_of(items: u32) -> $filter {
                let builder = $filter::with_num_bits(1 << 16).unwrap().seed(&7);
                let mut filter = builder.hashes(4);
                filter.extend((0..items).map(|item| item.to_string()));
                filter
            }

            fn place(name: &str) -> Place {
                Place::new(&format!("mapped.{}.{name}", stringify!($kind)))
            }

            #[test]
            fn a_mapped_file_is_read_as_the_filter_that_was_saved() {
                let (place, saved) = (place("read"), filter_of(1000));
                saved.save(&place.0).unwrap();
                // SAFETY: no other test has this file.
                let mapped = unsafe { $mapped::open(&place.0) }.unwrap();
                assert_eq!(mapped.as_slice(), saved.as_slice());
                assert_eq!((mapped.num_bits(), mapped.num_hashes()), (1 << 16, 4));
                assert_eq!(mapped.key(), saved.key());
                for item in 0..2000u32 {
                    let item = item.to_string();
                    assert_eq!(mapped.contains(&item), saved.contains(&item));
                    let hash = mapped.source_hash(&item);
                    assert_eq!(hash, saved.source_hash(&item));
                    assert_eq!(mapped.contains_hash(hash), saved.contains(&item));
                }
                assert_eq!(mapped.to_filter().unwrap(), saved);
                let shape = "num_bits: 65536, num_hashes: 4, ..";
                let wanted = format!("{} {{ {shape} }}", stringify!($mapped));
                assert_eq!(format!("{mapped:?}"), wanted);
                // Another file takes the name, and the one that is mapped stays.
                filter_of(0).save(&place.0).unwrap();
                assert!(mapped.contains("999"));
            }

            #[test]
            fn threads_fill_one_mapped_file_and_no_insert_is_lost() {
                let place = place("shared");
                filter_of(0).save_unsealed(&place.0).unwrap();
                thread::scope(|scope| {
                    for part in 0..4u32 {
                        let path = &place.0;
                        // Each thread maps the file for itself, as a process would.
                        scope.spawn(move || {
                            // SAFETY: no other test has this file, and such filters alone change it.
                            let filter = unsafe { $shared::map(path) }.unwrap();
                            for item in (part..1000).step_by(4) {
                                filter.insert(&item.to_string());
                            }
                        });
                    }
                });
                assert_eq!($filter::load(&place.0).unwrap(), filter_of(1000));
            }

            #[test]
            fn what_is_no_file_of_a_filter_is_refused() {
                let place = place("refused");
                // SAFETY: no other test has this file; so it is in each of these blocks.
                let missing = unsafe { $mapped::open(&place.0) }.unwrap_err();
                assert_eq!(kind_of(missing), Some(ErrorKind::NotFound));
                // SAFETY: as above.
                let odd = unsafe { $mapped::open("a\0b") }.unwrap_err();
                assert_eq!(kind_of(odd), Some(ErrorKind::InvalidInput));
                filter_of(10).save(&place.0).unwrap();
                // SAFETY: as above.
                let sealed = unsafe { $shared::map(&place.0) }.err();
                assert_eq!(sealed, Some(Error::Sealed));
                assert_eq!(Error::Sealed.code(), Some(252));
                let file = OpenOptions::new().write(true).open(&place.0).unwrap();
                file.set_len(64 + 8).unwrap();
                // SAFETY: as above.
                assert_eq!(unsafe { $mapped::open(&place.0) }.unwrap_err(), Error::Cut);
                fs::write(&place.0, b"no filter at all").unwrap();
                // SAFETY: as above.
                assert_eq!(
                    unsafe { $mapped::open(&place.0) }.unwrap_err(),
                    Error::NotAFilter
                );
            }
        }
    };
}

tests_of_kind!(whole, BloomFilter, MappedFilter, AtomicBloomFilter);
tests_of_kind!(
    lines,
    BlockedBloomFilter,
    MappedBlockedFilter,
    AtomicBlockedBloomFilter
);
