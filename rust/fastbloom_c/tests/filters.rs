//! What filters hold and return. The values are from outside: SipHash-1-3 of Rust itself, a model
//! in Python, and values worked by hand.

use fastbloom_c::{
    hash, AtomicBlockedBloomFilter, AtomicBloomFilter, BlockedBloomFilter, BloomFilter, Error,
    Hasher, Rate, RotatingFilter,
};

const ZERO_KEY: [u8; 16] = [0; 16];

fn counting_key() -> [u8; 16] {
    std::array::from_fn(|place| place as u8)
}

fn filter_of(words: &[u64], num_hashes: u32) -> BloomFilter {
    BloomFilter::from_vec(words.to_vec())
        .expect("words")
        .hashes(num_hashes)
}

/// The empty filter for a thousand items.
fn thousand() -> BloomFilter {
    let rate = Rate::new(1, 1000).expect("a rate");
    BloomFilter::with_false_pos(rate)
        .expected_items(1000)
        .expect("a filter")
}

fn names(numbers: std::ops::Range<u32>) -> impl ExactSizeIterator<Item = String> {
    numbers.map(|number| format!("item{number}"))
}

#[test]
fn the_hash_is_that_of_every_language() {
    let key = counting_key();
    assert_eq!(hash(&key, &key[..15]), 0xd320_d86d_2a51_9956);
    assert_eq!(hash(&key, ""), 0xabac_0158_050f_c4dc);
    // From docs/FILE.md.
    assert_eq!(hash(&key, "crab"), 0x28b5_d1a8_6888_d657);
    assert_eq!(hash(&key, &b"lobster".to_vec()), 0x3320_0a5d_9ff2_5023);
}

#[test]
fn pieces_have_the_hash_of_the_whole() {
    let key = counting_key();
    let seed = u128::from_be_bytes(key);
    let seen = BloomFilter::with_num_bits(64)
        .expect("bits")
        .seed(&seed)
        .hashes(1);
    let lines = BlockedBloomFilter::with_num_bits(512).expect("a line");
    let lines = lines.seed(&seed).hashes(1);
    let (shared, shared_lines) = (seen.clone().into(), lines.clone().into());
    for begun in [
        Hasher::new(&key),
        seen.begin_hash(),
        lines.begin_hash(),
        AtomicBloomFilter::begin_hash(&shared),
        AtomicBlockedBloomFilter::begin_hash(&shared_lines),
    ] {
        assert_eq!(begun.finish(), 0xabac_0158_050f_c4dc);
        for cut in 0..=15 {
            for end in cut..=15 {
                let mut hasher = begun.clone();
                hasher.update(&key[..cut]).update(&key[cut..end]);
                let mut other = hasher.clone();
                assert_eq!(hasher.update(&key[end..15]).finish(), 0xd320_d86d_2a51_9956);
                other.update("another end");
                assert_eq!(hasher.update("").finish(), 0xd320_d86d_2a51_9956);
            }
        }
    }
    assert_eq!(format!("{:?}", seen.begin_hash()), "Hasher { .. }");
}

#[test]
fn a_seed_is_the_big_endian_bytes_of_the_key() {
    let seed = u128::from_be_bytes(counting_key());
    let bits = BloomFilter::with_num_bits(64)
        .expect("bits")
        .seed(&seed)
        .hashes(1);
    let rate = BloomFilter::with_false_pos(Rate::new(1, 2).expect("a rate")).seed(&seed);
    let rate = rate.expected_items(1).expect("a filter");
    for mut filter in [bits, rate] {
        assert_eq!(filter.key(), &counting_key());
        assert_eq!(filter.source_hash("crab"), 0x28b5_d1a8_6888_d657);
        filter.insert("crab");
        assert!(filter.contains_hash(0x28b5_d1a8_6888_d657));
    }
    let unseeded = BloomFilter::with_num_bits(64).expect("bits").hashes(1);
    assert_eq!(unseeded.key(), &ZERO_KEY);
}

#[test]
fn the_words_of_a_thousand_items() {
    let mut seen = thousand();
    for name in names(0..1000) {
        seen.insert(&name);
        assert!(seen.contains(&name) && seen.contains_hash(hash(&ZERO_KEY, &name)));
    }
    let digest = seen
        .iter()
        .fold(1_469_598_103_934_665_603u64, |digest, word| {
            (digest ^ word).wrapping_mul(1_099_511_628_211)
        });
    assert_eq!(digest, 0x3aa7_d46b_83aa_b8c9);
    assert_eq!(
        names(1000..101_000)
            .filter(|name| seen.contains(name))
            .count(),
        109
    );

    let rate = Rate::new(1, 1000).expect("a rate");
    let at_once = BloomFilter::with_false_pos(rate)
        .items(names(0..1000))
        .expect("a filter");
    assert_eq!(at_once, seen);
}

#[test]
fn an_insert_sets_the_positions_of_its_hash() {
    for (words, hashes, hash, wanted) in [
        (1, 2, u64::MAX, vec![0x8000_0800_0000_0000]),
        (1, 2, 1, vec![1 << 20 | 1]),
        (1, 3, 1, vec![1 << 32 | 1 << 20 | 1]),
        (1, 7, 0, vec![1]),
        (3, 1, 1 << 63, vec![0, 1 << 32, 0]),
    ] {
        let mut seen = filter_of(&vec![0; words], hashes);
        assert!(!seen.contains_hash(hash) && !seen.insert_hash(hash));
        assert_eq!(seen.as_slice(), wanted);
        assert!(seen.contains_hash(hash) && seen.insert_hash(hash));
        assert_eq!(seen.as_slice(), wanted);
        assert_eq!(
            seen.count_ones(),
            wanted.iter().map(|word| word.count_ones()).sum::<u32>() as usize
        );
        seen.clear();
        assert_eq!((seen.count_ones(), seen.as_slice().len()), (0, words));
    }
}

#[test]
fn each_kind_of_item_is_its_bytes() {
    let mut seen = BloomFilter::with_num_bits(1024).expect("bits").hashes(4);
    assert!(!seen.insert("crab"));
    let owned = String::from("crab");
    assert!(seen.contains(&owned) && seen.contains(owned.as_str()) && seen.contains(&"crab"));
    assert!(
        seen.contains(b"crab")
            && seen.contains(&b"crab"[..])
            && seen.contains(&vec![99u8, 114, 97, 98])
    );
    assert!(!seen.contains("") && !seen.insert("") && seen.contains(&b""[..]));
}

#[test]
fn sizes_are_those_of_the_formulas() {
    let bits = |bits, items| {
        let seen = BloomFilter::with_num_bits(bits)
            .expect("bits")
            .expected_items(items);
        (seen.num_bits(), seen.num_hashes())
    };
    assert_eq!(bits(1024, 2), (1024, 355));
    assert_eq!(bits(1024, 500), (1024, 1));
    assert_eq!(bits(64, 1), (64, 44));
    assert_eq!(bits(64, 0), (64, 44));
    assert_eq!(bits(1202, 4), (1216, 211));
    assert_eq!(bits(64, usize::MAX), (64, 1));
    let rate = |num, den, items| {
        let rate = Rate::new(num, den).expect("a rate");
        let seen = BloomFilter::with_false_pos(rate)
            .expected_items(items)
            .expect("a filter");
        (seen.num_bits(), seen.num_hashes())
    };
    assert_eq!(rate(1, 2, 1000), (1472, 1));
    assert_eq!(rate(1, 1000, 2), (64, 22));
    assert_eq!(rate(1, 1000, 1000), (64 * 225, 10));
    assert_eq!(rate(1, u64::MAX, 1).0, 128);
    assert_eq!(rate(1, 2, 0), rate(1, 2, 1));
}

/// The library has no call for the number of hashes of a size; in its plans both are related so.
#[test]
fn the_number_of_hashes_is_that_of_the_plans_of_this_size() {
    for den in (0..60).map(|power| 3u64 << power) {
        for items in [1, 2, 3, 7, 64, 1000, 4097] {
            let rate = Rate::new(2, den).expect("a rate");
            let planned = BloomFilter::with_false_pos(rate)
                .expected_items(items)
                .expect("a filter");
            let sized = BloomFilter::with_num_bits(planned.num_bits()).expect("bits");
            assert_eq!(
                sized.expected_items(items).num_hashes(),
                planned.num_hashes()
            );
        }
    }
}

#[test]
fn no_hashes_count_as_one() {
    let mut seen = filter_of(&[0], 0);
    assert_eq!(seen.num_hashes(), 1);
    seen.insert_hash(0xabac_0158_050f_c4dc);
    assert_eq!(seen.as_slice(), [1 << 42]);
    assert_eq!(filter_of(&[0], u32::MAX).num_hashes(), u32::MAX);
}

#[test]
fn unions_and_intersections() {
    let with = |parity| {
        let mut half = thousand();
        half.extend(
            names(0..1000)
                .enumerate()
                .filter(|(at, _)| at % 2 == parity)
                .map(|(_, name)| name),
        );
        half
    };
    let (even, odd) = (with(0), with(1));
    let mut seen = even.clone();
    assert_ne!(even, odd);
    assert_eq!(seen.union(&odd), Ok(()));
    let mut all = thousand();
    all.insert_all(names(0..1000));
    assert_eq!(seen, all);
    assert_eq!(seen.intersect(&odd), Ok(()));
    assert_eq!(seen, odd);

    let mut word = filter_of(&[5], 1);
    assert_eq!(word.union(&filter_of(&[6], 1)), Ok(()));
    assert_eq!(word.as_slice(), [7]);
    let mut word = filter_of(&[5], 1);
    assert_eq!(word.intersect(&filter_of(&[6], 1)), Ok(()));
    assert_eq!(word.as_slice(), [4]);
}

#[test]
fn filters_of_other_shapes_are_refused_and_unequal() {
    let words = |words: Vec<u64>| BloomFilter::from_vec(words).expect("words");
    let seen = words(vec![5, 0]).hashes(2);
    for other in [
        words(vec![5]).hashes(2),
        words(vec![5, 0, 0]).hashes(2),
        words(vec![5, 0]).hashes(3),
        words(vec![5, 0]).seed(&1).hashes(2),
    ] {
        let mut changed = seen.clone();
        assert_eq!(changed.union(&other), Err(Error::OtherShape));
        assert_eq!(changed.intersect(&other), Err(Error::OtherShape));
        assert_eq!(changed.as_slice(), [5, 0]);
        assert_eq!(seen.estimated_union(&other), Err(Error::OtherShape));
        assert_eq!(seen.estimated_common(&other), Err(Error::OtherShape));
        assert_eq!(seen.jaccard(&other), Err(Error::OtherShape));
        assert!(!seen.same_shape(&other));
        assert_ne!(seen, other);
    }
    assert!(seen.same_shape(&filter_of(&[6, 0], 2)));
    assert_ne!(seen, filter_of(&[6, 0], 2));
    assert_eq!(seen, filter_of(&[5, 0], 2));
}

#[test]
fn a_clone_has_words_of_its_own() {
    let mut seen = thousand();
    let clone = seen.clone();
    assert_eq!(seen, clone);
    seen.insert("crab");
    assert!(!clone.contains("crab"));
    assert_ne!(seen, clone);
}

#[test]
fn the_rate_to_expect() {
    let bracket = |words: usize, hashes, items| {
        let rate = filter_of(&vec![0; words], hashes).expected_false_pos(items);
        (rate.low(), rate.high())
    };
    assert_eq!(
        bracket(1, 1, 1),
        (144_115_188_075_855_872, 144_115_188_075_855_872)
    );
    assert_eq!(
        bracket(1, 1, 2),
        (285_978_576_338_026_496, 285_978_576_338_026_496)
    );
    assert_eq!(bracket(1, 2, 0), (0, 0));
    assert_eq!(
        filter_of(&[0], 1).expected_false_pos(2).to_f64(),
        127.0 / 4096.0
    );
}

/// Of 64 bits one is expected to be set after one hash, 1.98 after two, 2.95 after three.
#[test]
fn how_many_items_are_in_a_filter() {
    let bounds = |words: &[u64], hashes| {
        let estimate = filter_of(words, hashes).estimated_items();
        (estimate.low(), estimate.high())
    };
    assert_eq!(bounds(&[0], 1), (0, Some(0)));
    assert_eq!(bounds(&[1], 1), (1, Some(1)));
    assert_eq!(bounds(&[3], 2), (1, Some(2)));
    assert_eq!(bounds(&[7], 3), (1, Some(2)));
    assert_eq!(bounds(&[7], 1), (3, Some(4)));
    assert_eq!(bounds(&[u64::MAX], 1), (usize::MAX, None));
    // 52,415.466 items by the formula, from Python's decimals: 14,022 of 14,400 bits are set
    let words: Vec<_> = (0..225)
        .map(|at| u64::MAX >> (6 * u64::from(at < 63)))
        .collect();
    let (low, high) = bounds(&words, 1);
    let high = high.expect("a bound");
    assert!(low <= 52_415 && 52_416 <= high && high - low <= 2);
}

#[test]
fn what_two_filters_have_in_common() {
    const UNIT: u64 = 1 << 63;
    let rows = [
        (1, 1, (1, Some(1)), (1, Some(1)), (UNIT, UNIT)),
        (1, 2, (2, Some(3)), (0, Some(0)), (0, 0)),
        (0, 0, (0, Some(0)), (0, Some(0)), (0, UNIT)),
        (7, 7, (3, Some(4)), (2, Some(5)), (UNIT / 2, UNIT)),
        (1, u64::MAX, (usize::MAX, None), (0, None), (0, UNIT)),
    ];
    for (first, second, union, common, part) in rows {
        let (first, second) = (filter_of(&[first], 1), filter_of(&[second], 1));
        let told = first.estimated_union(&second).expect("one shape");
        assert_eq!((told.low(), told.high()), union);
        let told = first.estimated_common(&second).expect("one shape");
        assert_eq!((told.low(), told.high()), common);
        let told = first.jaccard(&second).expect("one shape");
        assert_eq!((told.low(), told.high()), part);
    }
}

/// Hashes that are spread, by a linear congruence of Knuth's.
fn spread(count: usize) -> Vec<u64> {
    let next = |hash: &u64| {
        Some(
            hash.wrapping_mul(6_364_136_223_846_793_005)
                .wrapping_add(1_442_695_040_888_963_407),
        )
    };
    std::iter::successors(Some(1), next).take(count).collect()
}

#[test]
fn many_hashes_at_once_are_as_one_after_the_other() {
    for count in [0, 1, 63, 64, 65, 1023, 1024, 1025, 2048, 5000] {
        let mut hashes = spread(count);
        hashes.extend_from_within(..count / 2);
        let empty = BloomFilter::with_num_bits(16 * 1024)
            .expect("bits")
            .hashes(5);

        let mut singly = empty.clone();
        let new: Vec<bool> = hashes
            .iter()
            .map(|&hash| !singly.insert_hash(hash))
            .collect();
        let mut told = empty.clone();
        assert_eq!(told.insert_hashes_tell_new(&hashes), new);
        assert_eq!(told, singly);
        // A hash that comes again is not new; each of a few is.
        assert!(new[count..].iter().all(|new| !new));
        assert!(count > 100 || new[..count].iter().all(|new| *new));

        let mut together = empty.clone();
        together.insert_hashes(&hashes);
        assert_eq!(together, singly);

        let asked = spread(2 * count);
        let found: Vec<bool> = asked
            .iter()
            .map(|&hash| singly.contains_hash(hash))
            .collect();
        assert_eq!(singly.contains_hashes(&asked), found);
        assert!(found[..count].iter().all(|found| *found));
        assert!(empty.contains_hashes(&asked).iter().all(|found| !found));
    }
}

#[test]
fn many_items_at_once_are_as_one_after_the_other() {
    for count in [0, 1, 1023, 1024, 1025, 3000] {
        let mut singly = BloomFilter::with_num_bits(64 * 1024)
            .expect("bits")
            .hashes(5);
        let (mut all, mut extended) = (singly.clone(), singly.clone());
        for name in names(0..count) {
            singly.insert(&name);
        }
        all.insert_all(names(0..count));
        extended.extend(names(0..count));
        assert_eq!((&all, &extended), (&singly, &singly));
    }
    let bits = BloomFilter::with_num_bits(1024).expect("bits");
    let seen = bits.items(["42", "🦀"]);
    assert_eq!(seen.num_hashes(), 355);
    assert_eq!(
        seen.contains_hashes(&["42", "🦀"].map(|item| seen.source_hash(item))),
        [true; 2]
    );
}

/// An item of which the bytes may not be there.
struct Item(Option<String>);

impl AsRef<[u8]> for Item {
    fn as_ref(&self) -> &[u8] {
        self.0.as_ref().expect("the bytes").as_bytes()
    }
}

/// Where the items stop with a panic, those before it are inserted, and the caller goes on.
#[test]
fn items_that_panic_leave_those_before_them() {
    for last in [0, 1, 1023, 1024, 1500] {
        let mut wanted = thousand();
        names(0..last).for_each(|name| {
            wanted.insert(&name);
        });
        let stops = format!("item{last}");
        let (mut all, mut extended) = (thousand(), thousand());
        let items = names(0..2000).inspect(|name| assert_ne!(*name, stops));
        let inserts = std::panic::AssertUnwindSafe(|| all.insert_all(items));
        assert!(std::panic::catch_unwind(inserts).is_err());
        let items = names(0..2000).map(|name| Item((name != stops).then_some(name)));
        let extends = std::panic::AssertUnwindSafe(|| extended.extend(items));
        assert!(std::panic::catch_unwind(extends).is_err());
        assert_eq!((&all, &extended), (&wanted, &wanted));
    }
}

/// So it is with the other kinds.
#[test]
fn items_that_panic_leave_those_before_them_in_each_kind() {
    let lines = || {
        BlockedBloomFilter::from_words(&[0; 800])
            .expect("lines")
            .hashes(3)
    };
    for last in [0, 1, 1023, 1024, 1500] {
        let stops = format!("item{last}");
        let items = || names(0..2000).inspect(|name| assert_ne!(*name, stops));
        let (mut wanted, mut in_lines) = (thousand(), lines());
        names(0..last).for_each(|name| {
            wanted.insert(&name);
            in_lines.insert(&name);
        });
        let mut all = lines();
        let shared = AtomicBloomFilter::from(thousand());
        let shared_lines = AtomicBlockedBloomFilter::from(lines());
        let inserts = std::panic::AssertUnwindSafe(|| all.insert_all(items()));
        assert!(std::panic::catch_unwind(inserts).is_err());
        let inserts = std::panic::AssertUnwindSafe(|| shared.insert_all(items()));
        assert!(std::panic::catch_unwind(inserts).is_err());
        let inserts = std::panic::AssertUnwindSafe(|| shared_lines.insert_all(items()));
        assert!(std::panic::catch_unwind(inserts).is_err());
        assert_eq!((all, BloomFilter::from(shared)), (in_lines.clone(), wanted));
        assert_eq!(BlockedBloomFilter::from(shared_lines), in_lines);
    }
}

#[test]
fn the_key_is_not_shown() {
    let seed = u128::from_be_bytes(*b"a secret of mine");
    let bits = BloomFilter::with_num_bits(64).expect("bits").seed(&seed);
    let rate = BloomFilter::with_false_pos(Rate::new(1, 2).expect("a rate")).seed(&seed);
    assert_eq!(format!("{bits:?}"), "BuilderWithBits { num_bits: 64, .. }");
    let wanted = "BuilderWithFalsePositiveRate { rate: Rate { num: 1, den: 2 }, .. }";
    assert_eq!(format!("{rate:?}"), wanted);
    let seen = bits.hashes(3);
    assert_eq!(
        format!("{seen:?}"),
        "BloomFilter { num_bits: 64, num_hashes: 3, .. }"
    );
    assert_eq!(format!("{seen:#?}").lines().count(), 5);
}

#[test]
fn builders_compare_by_words_or_rate_and_by_key() {
    let bits = || BloomFilter::with_num_bits(64).expect("bits");
    assert_eq!(bits(), bits().clone());
    assert_ne!(bits(), bits().seed(&1));
    let rate = |num, den| BloomFilter::with_false_pos(Rate::new(num, den).expect("a rate"));
    assert_eq!(rate(1, 2), rate(2, 4));
    assert_ne!(rate(1, 2), rate(1, 3));
}

#[test]
fn rates_of_filters_in_turn_are_the_greater_and_the_sum() {
    // Filters of 64 bits and one hash. After the turn the older one has 36 of them, and then the
    // newer one gets as many again, so that the sum of the rates passes 1.
    let rate = Rate::new(9, 10).expect("a rate");
    let mut seen = RotatingFilter::new(rate, 36).expect("room");
    assert_eq!(
        (seen.newer().num_bits(), seen.newer().num_hashes()),
        (64, 1)
    );
    for place in 0..36u64 {
        let now = seen.false_pos_now();
        assert_eq!((now.low(), now.high()), (place << 57, place << 57));
        assert!(!seen.insert_hash(place << 58));
    }
    for place in 0..35u64 {
        let now = seen.false_pos_now();
        assert_eq!(
            (now.low(), now.high()),
            (36 << 57, (36 + place).min(64) << 57)
        );
        assert!(seen.insert_hash(place << 58));
    }
}

#[test]
fn a_filter_takes_what_whole_numbers_of_another_language_say() {
    for (words, hashes, rate, items) in [
        (1, 1, "1/64", 1),
        (1, 4, "1/10", 12),
        (16, 7, "1/100", 106),
        (156_250, 7, "1/128", 990_209),
    ] {
        let rate = rate.parse().expect("a rate");
        assert_eq!(filter_of(&vec![0; words], hashes).capacity_for(rate), items);
    }
}
