//! Threads insert into one filter at once, and lose nothing.

use fastbloom_c::{AtomicBloomFilter, BloomFilter, Error, Rate};
use std::sync::atomic::AtomicU64;
use std::sync::{Arc, Barrier, LazyLock};
use std::thread;

const THREADS: u64 = 8;
const WORDS: usize = 30_011;
const TOGETHER: usize = 1000;

/// That this compiles shows it.
const fn is_for_threads<T: Send + Sync + Unpin>() {}
const _: () = {
    is_for_threads::<AtomicBloomFilter>();
    is_for_threads::<AtomicBloomFilter<&'static [AtomicU64]>>();
    is_for_threads::<AtomicBloomFilter<Arc<[AtomicU64]>>>();
};

/// How often each test is run.
fn runs() -> usize {
    std::env::var("FASTBLOOM_RUNS").map_or(20, |runs| runs.parse().expect("a number"))
}

/// How many hashes threads insert. A slow checker is given fewer.
static HASHES: LazyLock<u64> = LazyLock::new(|| {
    std::env::var("FASTBLOOM_HASHES").map_or(1_000_000, |hashes| hashes.parse().expect("a number"))
});

/// The hash of a number, spread evenly: the finish of splitmix64.
fn hash_of(number: u64) -> u64 {
    let word = number.wrapping_add(0x9e37_79b9_7f4a_7c15);
    let word = (word ^ (word >> 30)).wrapping_mul(0xbf58_476d_1ce4_e5b9);
    let word = (word ^ (word >> 27)).wrapping_mul(0x94d0_49bb_1331_11eb);
    word ^ (word >> 31)
}

fn empty(num_hashes: u32) -> BloomFilter {
    let words = BloomFilter::from_vec(vec![0; WORDS]).expect("words");
    words.hashes(num_hashes)
}

/// Inserts part of the hashes, each of which another thread inserts too, and counts the new ones.
fn insert_part<W: AsRef<[AtomicU64]>>(seen: &AtomicBloomFilter<W>, me: u64, way: usize) -> usize {
    let part = *HASHES / (THREADS / 2);
    let numbers: Vec<_> = (0..part)
        .map(|i| hash_of((*HASHES / THREADS * me + i) % *HASHES))
        .collect();
    let mut fresh = 0;
    for hashes in numbers.chunks(TOGETHER) {
        match way {
            0 => fresh += hashes.iter().filter(|h| !seen.insert_hash(**h)).count(),
            1 => {
                let told = seen.insert_hashes_tell_new(hashes);
                fresh += told.iter().filter(|is_new| **is_new).count();
            }
            _ => seen.insert_hashes(hashes),
        }
        assert_eq!(seen.contains_hashes(hashes), vec![true; hashes.len()]);
    }
    fresh
}

#[test]
fn threads_insert_at_once_and_lose_no_bit() {
    let plain = [1, 3].map(|num_hashes| {
        let mut plain = empty(num_hashes);
        (0..*HASHES).for_each(|number| {
            plain.insert_hash(hash_of(number));
        });
        plain
    });
    for run in 0..runs() {
        let plain = &plain[run / 3 % 2];
        let lent: Box<[AtomicU64]> = (0..WORDS).map(|_| AtomicU64::new(0)).collect();
        let seen = AtomicBloomFilter::from_words(&lent[..], plain.num_hashes()).expect("words");
        let begin = Barrier::new(THREADS as usize);
        let fresh: usize = thread::scope(|scope| {
            let writers: Vec<_> = (0..THREADS)
                .map(|me| {
                    let (seen, begin) = (&seen, &begin);
                    scope.spawn(move || {
                        begin.wait();
                        insert_part(seen, me, run % 3)
                    })
                })
                .collect();
            writers
                .into_iter()
                .map(|w| w.join().expect("a count"))
                .sum()
        });
        assert_eq!(&seen.load().expect("room"), plain);
        assert_eq!(seen.count_ones(), plain.count_ones());
        // With one position a hash each new hash set one bit.
        if plain.num_hashes() == 1 && run % 3 < 2 {
            assert_eq!(fresh, plain.count_ones());
        }
    }
}

#[test]
fn what_is_taken_and_what_is_left_is_all() {
    let mut all = empty(2);
    (0..*HASHES).for_each(|number| {
        all.insert_hash(hash_of(number));
    });
    for _ in 0..runs() / 5 + 1 {
        let seen = AtomicBloomFilter::from(empty(2));
        let mut taken = empty(2);
        thread::scope(|scope| {
            let writers: Vec<_> = (0..THREADS)
                .map(|me| {
                    let seen = &seen;
                    scope.spawn(move || {
                        for number in (0..*HASHES).filter(|n| n % THREADS == me) {
                            seen.insert_hash(hash_of(number));
                        }
                    })
                })
                .collect();
            while !writers.iter().all(|writer| writer.is_finished()) {
                taken.union(&seen.take().expect("room")).expect("one shape");
            }
        });
        taken.union(&BloomFilter::from(seen)).expect("one shape");
        assert_eq!(taken, all);
    }
}

#[test]
fn one_thread_gets_what_a_plain_filter_gives() {
    let mut plain = BloomFilter::with_num_bits(640)
        .expect("bits")
        .seed(&7)
        .hashes(3);
    let seen = AtomicBloomFilter::from(plain.clone());
    let other = AtomicBloomFilter::from(plain.clone());
    assert_eq!((seen.num_bits(), seen.num_hashes()), (640, 3));
    assert_eq!(seen.key(), plain.key());
    for number in 0..100u32 {
        let item = number.to_le_bytes();
        assert_eq!(seen.contains(&item), plain.contains(&item));
        assert_eq!(seen.insert(&item), plain.insert(&item));
        assert_eq!(seen.source_hash(&item), plain.source_hash(&item));
        other.insert(&(number + 50).to_le_bytes());
    }
    assert_eq!(seen.iter().collect::<Vec<_>>(), plain.as_slice());
    let united = {
        seen.union(&other).expect("one shape");
        seen.load().expect("room")
    };
    plain
        .union(&other.load().expect("room"))
        .expect("one shape");
    assert_eq!(united, plain);
    seen.intersect(&other).expect("one shape");
    assert_eq!(seen.load().expect("room"), other.load().expect("room"));
    assert_eq!(seen, other);
    seen.clear();
    assert_eq!(seen.count_ones(), 0);
    assert_ne!(seen, other);
    assert_ne!(
        AtomicBloomFilter::from(empty(1)),
        AtomicBloomFilter::from(empty(2))
    );
}

#[test]
fn threads_extend_one_filter_and_a_clone_has_words_of_its_own() {
    let seen = AtomicBloomFilter::from(empty(3));
    thread::scope(|scope| {
        for me in 0..THREADS {
            let mut seen = &seen;
            scope.spawn(move || seen.extend((0..100).map(|item| format!("{me}, {item}"))));
        }
    });
    let mut plain = empty(3);
    plain.extend((0..800).map(|item| format!("{}, {}", item / 100, item % 100)));
    assert_eq!(seen.load().expect("room"), plain);
    let other = seen.clone().seed(&0);
    assert_eq!(other, seen);
    seen.clear();
    assert_eq!(other.false_pos_now(), plain.false_pos_now());
    assert_eq!(other.estimated_items(), plain.estimated_items());
    let rate = Rate::new(1, 100).expect("a rate");
    assert_eq!(other.capacity_for(rate), plain.capacity_for(rate));
    assert_eq!(BloomFilter::from(other), plain);
    let rates = [seen.expected_false_pos(800), seen.false_pos_bounds(800)];
    assert_eq!(
        rates,
        [plain.expected_false_pos(800), plain.false_pos_bounds(800)]
    );
}

#[test]
fn words_that_make_no_filter_are_refused() {
    let none: [AtomicU64; 0] = [];
    let refused = AtomicBloomFilter::from_words(&none[..], 1).map(|_| ());
    assert_eq!(refused, Err(Error::EmptyWords));
    let small = AtomicBloomFilter::from(empty(1));
    let other = AtomicBloomFilter::from(empty(2));
    small.insert("crab");
    assert_eq!(small.union(&other), Err(Error::OtherShape));
    assert_eq!(small.intersect(&other), Err(Error::OtherShape));
    assert!(small.contains("crab"));
}
