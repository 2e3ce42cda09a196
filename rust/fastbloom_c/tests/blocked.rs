//! Blocked filters: what a model says of drawn sessions, and what the crate adds to the calls of C.

use fastbloom_c::{AtomicBlockedBloomFilter, BlockedBloomFilter, Error, Rate};
use std::sync::atomic::AtomicU64;

/// What dev/blocked-model says of these sessions.
const WANTED: [(u64, u64); 11] = [
    (0, 10201929447077217113),
    (1, 9114022726019433226),
    (2, 14037430642071227216),
    (3, 13490501208424134116),
    (4, 3149811784735866628),
    (5, 10801210578881592884),
    (6, 83973745466136214),
    (12, 16881468693709726912),
    (49, 3236104131571975975),
    (99, 11864419982559889783),
    (199, 1515267214006784225),
];

/// The number of an index that a session draws, by splitmix64.
fn drawn(session: u64, index: u64) -> u64 {
    let word = ((session << 32) + index).wrapping_add(0x9e37_79b9_7f4a_7c15);
    let word = (word ^ (word >> 30)).wrapping_mul(0xbf58_476d_1ce4_e5b9);
    let word = (word ^ (word >> 27)).wrapping_mul(0x94d0_49bb_1331_11eb);
    word ^ (word >> 31)
}

fn row(session: u64, indices: std::ops::Range<u64>) -> Vec<u64> {
    indices.map(|index| drawn(session, index)).collect()
}

/// Results of calls as words of 64 bits.
fn words_of(told: &[bool]) -> impl Iterator<Item = u64> + '_ {
    let word_of = |part: &[bool]| {
        part.iter()
            .rev()
            .fold(0, |word, bit| word << 1 | *bit as u64)
    };
    told.chunks(64).map(word_of)
}

/// All results of a session and then all words of a filter, folded into one number.
macro_rules! number_of {
    ($session:ident, $seen:ident) => {{
        let mut told: Vec<u64> = (0..20)
            .map(|index| $seen.insert_hash(drawn($session, index)) as u64)
            .collect();
        let several: Vec<_> = (0..130).map(|i| drawn($session, 7 * i % 95)).collect();
        told.extend(words_of(&$seen.insert_hashes_tell_new(&several)));
        $seen.insert_hashes(&row($session, 200..350));
        told.extend(words_of(&$seen.contains_hashes(&row($session, 300..450))));
        told.extend((440..460).map(|index| $seen.contains_hash(drawn($session, index)) as u64));
        told.extend($seen.iter());
        folded(told)
    }};
}

fn folded(told: Vec<u64>) -> u64 {
    told.into_iter().fold(0, |fold: u64, number| {
        (fold ^ number)
            .wrapping_mul(0x9e37_79b9_7f4a_7c15)
            .rotate_left(7)
    })
}

fn thousand(items: &[&str]) -> BlockedBloomFilter {
    let rate = Rate::new(1, 1000).expect("a rate");
    let mut seen = BlockedBloomFilter::with_false_pos(rate)
        .expected_items(1000)
        .expect("a filter");
    seen.insert_all(items);
    seen
}

#[test]
fn drawn_filters_are_those_of_the_model() {
    for (session, wanted) in WANTED {
        let lines = match session % 50 {
            49 => 16384 + session as usize,
            _ => 1 + session as usize % 7,
        };
        let hashes = 1 + (session % 13) as u32;
        let bits = BlockedBloomFilter::with_num_bits(512 * lines).expect("lines");
        let mut plain = bits.hashes(hashes);
        let words: Vec<_> = (0..8 * lines).map(|_| AtomicU64::new(0)).collect();
        let shared = AtomicBlockedBloomFilter::from_words(words, hashes).expect("lines");
        let told = [number_of!(session, plain), number_of!(session, shared)];
        assert_eq!(told, [wanted; 2], "session {session}");
    }
}

#[test]
fn sizes_are_those_of_the_library() {
    let seen = thousand(&[]);
    assert_eq!((seen.as_slice().len(), seen.num_hashes()), (248, 9));
    assert_eq!(seen.as_slice().as_ptr() as usize % 64, 0);
    let bits = |bits| BlockedBloomFilter::with_num_bits(bits).map(|it| it.hashes(0).num_bits());
    assert_eq!(
        (bits(1), bits(512), bits(513)),
        (Ok(512), Ok(512), Ok(1024))
    );
    assert_eq!(
        (bits(0), bits(usize::MAX)),
        (Err(Error::ZeroBits), Err(Error::TooManyWords))
    );
    let rate = Rate::new(1, 2).expect("a rate");
    let large = BlockedBloomFilter::with_false_pos(rate).expected_items(usize::MAX);
    assert_eq!(large.unwrap_err(), Error::SizeOverflow);
}

#[test]
fn items_are_found() {
    let mut seen = thousand(&["crab"]);
    assert!(seen.insert("crab") && !seen.insert("eel") && seen.contains(b"eel"));
    assert!(seen.contains_hash(seen.source_hash("crab")) && !seen.contains("whale"));
    seen.extend(["prawn", "krill"]);
    assert!(seen.contains("prawn") && seen.contains("krill"));
    seen.clear();
    assert_eq!((seen.count_ones(), seen.contains("crab")), (0, false));
    let names: Vec<_> = (0..5000).map(|number| format!("item{number}")).collect();
    let rate = Rate::new(1, 100).expect("a rate");
    let mut all = BlockedBloomFilter::with_false_pos(rate)
        .items(&names)
        .expect("a filter");
    let mut one = BlockedBloomFilter::from_words(&vec![0; all.as_slice().len()])
        .expect("lines")
        .hashes(all.num_hashes());
    for name in &names {
        one.insert(name);
    }
    assert_eq!(all, one);
    assert!(names.iter().all(|name| all.insert(name)));
}

#[test]
fn two_filters() {
    let (one, other) = (
        thousand(&["crab", "lobster"]),
        thousand(&["lobster", "whale"]),
    );
    let (mut united, mut common) = (one.clone(), one.clone());
    assert_eq!(
        (united.union(&other), common.intersect(&other)),
        (Ok(()), Ok(()))
    );
    assert!(united.contains("whale") && united.contains("crab"));
    assert!(common.contains("lobster") && !common.contains("crab"));
    assert!(one != other && one == one.clone());
    let empty = |bits| BlockedBloomFilter::with_num_bits(bits).expect("bits");
    for other in [
        empty(512).hashes(9),
        empty(15872).hashes(8),
        empty(15872).seed(&1).hashes(9),
    ] {
        assert_eq!(united.union(&other), Err(Error::OtherShape));
        assert_eq!(united.intersect(&other), Err(Error::OtherShape));
    }
}

#[test]
fn words_that_are_no_lines_are_refused() {
    let refused = |words: &[u64]| {
        BlockedBloomFilter::from_words(words)
            .map(|_| ())
            .unwrap_err()
    };
    assert_eq!(refused(&[]), Error::EmptyWords);
    assert_eq!(
        (refused(&[0; 7]), refused(&[0; 12])),
        (Error::PartOfALine, Error::PartOfALine)
    );
    assert_eq!(Error::PartOfALine.code(), Some(16));
    let words: Vec<u64> = (0..16).collect();
    let kept = BlockedBloomFilter::from_words(&words)
        .expect("lines")
        .seed(&5)
        .hashes(3);
    assert_eq!(kept.as_slice(), words);
    assert_eq!(
        format!("{kept:?}"),
        "BlockedBloomFilter { num_bits: 1024, num_hashes: 3, .. }"
    );
}

#[test]
fn threads_lose_nothing() {
    let mut wanted = BlockedBloomFilter::with_num_bits(1 << 21)
        .expect("bits")
        .hashes(5);
    let hashes = row(7, 0..40_000);
    wanted.insert_hashes(&hashes);
    let seen = AtomicBlockedBloomFilter::from(
        BlockedBloomFilter::with_num_bits(1 << 21)
            .expect("bits")
            .hashes(5),
    );
    assert_eq!(seen.as_slice().as_ptr() as usize % 64, 0);
    std::thread::scope(|scope| {
        for first in [0, 1, 2, 3, 0, 1] {
            let (seen, hashes) = (&seen, &hashes);
            scope.spawn(move || {
                for part in hashes.chunks(500).skip(first).step_by(4) {
                    seen.insert_hashes(part);
                    assert_eq!(seen.contains_hashes(part), vec![true; part.len()]);
                }
            });
        }
    });
    assert_eq!(seen.load().as_ref(), Ok(&wanted));
    assert_eq!(BlockedBloomFilter::from(seen), wanted);
}

#[test]
fn a_shared_filter_has_the_calls_of_a_plain_one() {
    let seen = AtomicBlockedBloomFilter::from(thousand(&["crab"]));
    let other = AtomicBlockedBloomFilter::from(thousand(&["lobster"]));
    assert!(seen.insert("crab") && seen.contains("crab") && !seen.contains("lobster"));
    assert!(seen.contains_hash(seen.source_hash("crab")));
    assert_eq!(seen.union(&other), Ok(()));
    assert_eq!(seen.load(), Ok(thousand(&["crab", "lobster"])));
    assert_eq!(seen.intersect(&other), Ok(()));
    assert!(seen == other && seen.same_shape(&other));
    assert_eq!(
        (seen.take(), seen.count_ones()),
        (Ok(thousand(&["lobster"])), 0)
    );
    seen.insert_all(["eel", "prawn"]);
    assert!(seen.contains("eel") && seen.contains("prawn"));
    seen.clear();
    assert!(!seen.contains("eel"));
    let words: Vec<_> = (0..16).map(|_| AtomicU64::new(0)).collect();
    let one = AtomicBlockedBloomFilter::from_words(&words[..], 0)
        .expect("lines")
        .seed(&5);
    assert_eq!((one.num_hashes(), one.num_bits()), (1, 1024));
    assert_eq!(u128::from_be_bytes(*one.key()), 5);
    assert_eq!(one.union(&seen), Err(Error::OtherShape));
    assert_eq!(one.intersect(&seen), Err(Error::OtherShape));
    let refused = |words: &[AtomicU64]| AtomicBlockedBloomFilter::from_words(words, 1).unwrap_err();
    assert_eq!(
        (refused(&words[..0]), refused(&words[..9])),
        (Error::EmptyWords, Error::PartOfALine)
    );
    assert_eq!(
        format!("{one:?}"),
        "AtomicBlockedBloomFilter { num_bits: 1024, num_hashes: 1, .. }"
    );
}

#[test]
fn rates_and_items_are_those_of_exact_fractions() {
    // Lines, hashes, items, and the mean rate by fractions of Python.
    for (lines, hashes, items, wanted) in [
        (1, 1, 1, 1.0 / 512.0),
        (1, 8, 10, 1.9775794994280592e-07),
        (31, 9, 1000, 0.0008727198074233734),
        (200, 6, 10_000, 0.008751541284288553),
    ] {
        let plain = BlockedBloomFilter::with_num_bits(512 * lines)
            .expect("room")
            .hashes(hashes);
        let shared = AtomicBlockedBloomFilter::from(plain.clone());
        let unit = 2f64.powi(-63);
        for bounds in [
            plain.false_pos_bounds(items),
            shared.false_pos_bounds(items),
        ] {
            let (low, high) = (bounds.low() as f64 * unit, bounds.high() as f64 * unit);
            assert!(low <= wanted && wanted <= high && high - low < 3e-12 * wanted);
        }
        let rate = "1/1000".parse().expect("a rate");
        assert_eq!(plain.capacity_for(rate), shared.capacity_for(rate));
    }
    let small = BlockedBloomFilter::with_num_bits(512 * 31).expect("room");
    assert_eq!(
        small
            .hashes(9)
            .capacity_for("1/1000".parse().expect("a rate")),
        1023
    );
}

#[test]
fn shared_lines_tell_what_plain_ones_do() {
    let mut plain = BlockedBloomFilter::with_num_bits(100_000)
        .expect("room")
        .hashes(7);
    let empty = plain.clone();
    plain.insert_all((0..5000).map(|item: u32| item.to_string()));
    let shared = AtomicBlockedBloomFilter::from(plain.clone());
    assert_eq!(shared.false_pos_now(), plain.false_pos_now());
    assert_eq!(shared.estimated_items(), plain.estimated_items());
    let items = plain.estimated_items();
    assert!(4_900 < items.low() && items.high() < Some(5_100));
    // No bit is set in the other one.
    assert_eq!(empty.false_pos_now().high(), 0);
    let common = plain.estimated_common(&empty).expect("one shape");
    assert!(common.low() == 0 && common.high() <= Some(1));
    assert_eq!(plain.estimated_union(&empty), Ok(items));
    assert_eq!(plain.jaccard(&plain).map(|it| it.high()), Ok(1 << 63));
    let other = BlockedBloomFilter::with_num_bits(512).expect("room");
    assert_eq!(plain.jaccard(&other.hashes(7)), Err(Error::OtherShape));
}

/// The builder by bits and items has as many hashes as the library's plan of these bits.
#[test]
fn the_number_of_hashes_is_that_of_plans() {
    let with = |bits, items| {
        let bits = BlockedBloomFilter::with_num_bits(bits).expect("bits");
        bits.expected_items(items)
    };
    for den in [2, 3, 5, 10, 30, 100, 300, 1000, 10_000, 100_000, 1 << 40] {
        for items in [0, 1, 7, 100, 1000, 12_345] {
            let rate = Rate::new(1, den).expect("a rate");
            let planned = BlockedBloomFilter::with_false_pos(rate)
                .expected_items(items)
                .expect("room");
            assert_eq!(with(planned.num_bits(), items), planned, "1/{den}, {items}");
        }
    }
    // One hash more suits above each of these hundredths of a bit for each item.
    for (items, hashes) in [(25_600, 1), (24_616, 1), (24_615, 2), (1, 16), (0, 16)] {
        assert_eq!(with(51_200, items).num_hashes(), hashes, "{items}");
    }
    let made = BlockedBloomFilter::with_num_bits(1024).expect("bits");
    let made = made.seed(&5).items(["crab", "eel"]);
    assert!(made.contains("crab") && made.contains("eel") && made.num_hashes() == 16);
    assert_eq!(u128::from_be_bytes(*made.key()), 5);
}
