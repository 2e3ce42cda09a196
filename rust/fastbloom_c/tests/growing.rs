//! Filters that grow: their plan, what is refused, and their rates.

use fastbloom_c::{
    BlockedBloomFilter, BloomFilter, Error, GrowingBlockedFilter, GrowingFilter, Rate,
};

fn rate(num: u64, den: u64) -> Rate {
    Rate::new(num, den).expect("a rate")
}

/// For 8 items at 1/10 the items, the bits and the hashes of the first four filters, as worked out by
/// hand from the rules of sizes. The proved filter is held to them, too.
const FILTERS: [(usize, usize, u32); 4] = [(8, 64, 6), (16, 128, 6), (32, 320, 7), (64, 704, 8)];

#[test]
fn sizes_are_those_of_the_proved_filter() {
    let mut seen = GrowingFilter::new(rate(1, 10), 8).expect("a filter");
    let mut hash = 0u64;
    for (place, (items, bits, hashes)) in FILTERS.into_iter().enumerate() {
        for taken in 1..=items {
            while seen.insert_hash(hash).expect("room") {
                hash = hash.wrapping_add(0x9e37_79b9_7f4a_7c15);
            }
            let newest = seen.newest();
            assert_eq!((newest.num_bits(), newest.num_hashes()), (bits, hashes));
            assert_eq!((seen.older().len(), seen.taken()), (place, taken));
        }
    }
}

/// The tests of a kind.
macro_rules! growing_tests {
    ($kind:ident, $growing:ident, $filter:ident) => {
        mod $kind {
            use super::*;

            #[test]
            fn each_filter_is_for_twice_the_items_at_half_the_rate() {
                let mut seen = $growing::seeded(rate(1, 10), 3, &42).expect("a filter");
                let names: Vec<_> = (0..100).map(|number| format!("item{number}")).collect();
                let is_new = |name: &&String| !seen.insert(*name).expect("room");
                let new = names.iter().filter(is_new).count();
                let filters: Vec<_> = seen.older().iter().chain([seen.newest()]).collect();
                assert!(filters.len() > 3);
                for (place, filter) in filters.iter().enumerate() {
                    let builder = $filter::with_false_pos(rate(1, 20 << place)).seed(&42);
                    let wanted = builder.expected_items(3 << place).expect("a filter");
                    assert!(filter.same_shape(&wanted), "filter {place}");
                }
                let newest = 3 << seen.older().len();
                assert_eq!((newest - 3 + seen.taken(), seen.approx_items()), (new, new));
                assert!((1..=newest).contains(&seen.taken()) && seen.items() == 3);
                let grown = seen.clone();
                for name in &names {
                    assert!(
                        seen.contains(name) && seen.insert(name) == Ok(true),
                        "{name}"
                    );
                }
                assert_eq!(seen, grown);
            }

            #[test]
            fn a_refusal_changes_nothing() {
                let refused = |rate, items| $growing::new(rate, items).expect_err("a refusal");
                assert_eq!(refused(rate(1, 2), usize::MAX), Error::SizeOverflow);
                assert_eq!(refused(rate(1, 2), 1 << 62), Error::Memory);
                assert_eq!(refused(rate(1, 1 << 63), 1), Error::NotARate);
                let mut seen = $growing::new(rate(1, 1 << 62), 1).expect("a filter");
                assert_eq!(seen.insert("crab"), Ok(false));
                // The next filter's rate has a part of 2^64.
                let before = seen.clone();
                assert_eq!(seen.insert("eel"), Err(Error::NotARate));
                assert_eq!(seen, before);
                assert_eq!(
                    (seen.insert("crab"), seen.contains("eel")),
                    (Ok(true), false)
                );
            }
        }
    };
}

growing_tests!(plain, GrowingFilter, BloomFilter);
growing_tests!(blocked, GrowingBlockedFilter, BlockedBloomFilter);

#[test]
fn rates_are_of_all_filters() {
    // The first filter has 64 bits and one hash.
    let mut seen = GrowingFilter::new(rate(9, 10), 36).expect("a filter");
    for place in 0..36 {
        let now = seen.false_pos_now();
        assert_eq!((now.low(), now.high()), (place << 57, place << 57));
        assert_eq!(seen.insert_hash(place << 58), Ok(false));
    }
    assert_eq!(seen.insert_hash(63 << 58), Ok(false));
    let (newest, now) = (seen.newest().false_pos_now(), seen.false_pos_now());
    assert!(seen.older().len() == 1 && newest.high() > 0);
    assert_eq!(
        (now.low(), now.high()),
        (36 << 57, (36 << 57) + newest.high())
    );
}
