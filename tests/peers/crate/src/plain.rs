//! The calls of a plain filter, as in plain.rt of the bench.

use crate::{count, count_bits, count_odd, foreign_keys, hash_of, Plan};
use crate::{FOUND, ODD_WORDS, SEVEN, TRUE};
use fastbloom::BloomFilter;
use std::ops::Range;

const HASHES: &[u32] = &[1, 2, 3, 7, 22];

const TEXTS: &[u32] = &[8, 16, 32, 64, 1000];

const ODD_HASHES: &str = "odd hashes";

const CHANGED: &str = "equal, or found after it";

/// What the calls are made on: a filter and another, which has the hash 0, and items of both kinds.
struct Calls {
    keys: u64,
    filter: BloomFilter,
    other: BloomFilter,
    texts: Vec<String>,
    numbers: Vec<u64>,
}

/// An empty filter with the zero key.
fn make_filter(keys: u64, num_hashes: u32) -> BloomFilter {
    let builder = BloomFilter::with_num_bits(count_bits(keys));
    builder.seed(&0).hashes(num_hashes)
}

/// 32 texts of this many bytes, at most 1,000.
fn make_texts(size: u32) -> Vec<String> {
    let text = "0123456789abcdefghijklmnopqrstuv".repeat(33);
    let texts = (0..32).map(|from| text[from..from + size as usize].to_string());
    texts.collect()
}

/// Makes a call of a filter for this many items, which are 32 texts by turns.
#[inline(never)]
fn count_texts<F>(
    mut filter: F,
    texts: &[String],
    keys: u64,
    call: impl Fn(&mut F, &String) -> bool,
) -> u64 {
    let mut answers = 0;
    for key in 0..keys {
        if let Some(item) = texts.get(key as usize % 32) {
            answers += u64::from(call(&mut filter, item));
        }
    }
    answers
}

fn insert_keys(filter: &mut BloomFilter, keys: u64) -> u64 {
    count(filter, 0..keys, |it, key| it.insert_hash(hash_of(key)))
}

fn insert_numbers(filter: &mut BloomFilter, keys: u64) -> u64 {
    count(filter, 0..keys, |it, key| it.insert(&key))
}

fn insert_texts(filter: &mut BloomFilter, texts: &[String], keys: u64) -> u64 {
    count_texts(filter, texts, keys, |it, item| it.insert(item))
}

fn contains_keys(filter: &BloomFilter, keys: Range<u64>) -> u64 {
    count(filter, keys, |it, key| it.contains_hash(hash_of(key)))
}

/// What is prepared before a round. The number is that of the row.
impl Calls {
    fn renew(&mut self, num_hashes: u32, round: u64) {
        if round == 0 {
            self.filter = make_filter(self.keys, num_hashes);
        }
    }

    fn empty(&mut self, num_hashes: u32, round: u64) {
        self.renew(num_hashes, round);
        self.filter.clear();
    }

    fn fill_with_hashes(&mut self, num_hashes: u32, round: u64) {
        self.renew(num_hashes, round);
        if round == 0 {
            insert_keys(&mut self.filter, self.keys);
        }
    }

    fn fill_with_numbers(&mut self, num_hashes: u32, round: u64) {
        self.renew(num_hashes, round);
        if round == 0 {
            insert_numbers(&mut self.filter, self.keys);
        }
    }

    fn copy(&mut self, _num_hashes: u32, round: u64) {
        if round == 0 {
            self.filter = self.other.clone();
        }
    }

    fn renew_texts(&mut self, size: u32, round: u64) {
        if round == 0 {
            self.texts = make_texts(size);
        }
    }

    fn empty_for_texts(&mut self, size: u32, round: u64) {
        self.renew_texts(size, round);
        self.filter.clear();
    }

    fn fill_with_texts(&mut self, size: u32, round: u64) {
        self.renew_texts(size, round);
        if round == 0 {
            insert_texts(&mut self.filter, &self.texts, 32);
        }
    }
}

fn measure_items(plan: &Plan, calls: &mut Calls) {
    let keys = plan.keys;
    let rows = ("source_hash, u64", SEVEN, ODD_HASHES);
    plan.measure(rows, calls, Calls::renew, |it, _| {
        count(&it.filter, 0..keys, |it, key| it.source_hash(&key) % 2 == 1)
    });
    let rows = ("insert, u64", SEVEN, TRUE);
    plan.measure(rows, calls, Calls::empty, |it, _| {
        insert_numbers(&mut it.filter, keys)
    });
    let rows = ("contains, u64", SEVEN, TRUE);
    plan.measure(rows, calls, Calls::fill_with_numbers, |it, _| {
        count(&it.filter, 0..keys, |it, key| it.contains(&key))
    });
    let rows = ("extend, u64", SEVEN, FOUND);
    plan.measure(rows, calls, Calls::empty, |it, _| {
        it.filter.extend(0..keys);
        it.filter.contains(&0u64)
    });
    let rows = ("insert_all, u64", SEVEN, FOUND);
    plan.measure(rows, calls, Calls::empty, |it, _| {
        it.filter.insert_all(&it.numbers);
        it.filter.contains(&0u64)
    });
    let rows = ("source_hash, text of bytes:", TEXTS, ODD_HASHES);
    plan.measure(rows, calls, Calls::renew_texts, |it, _| {
        count_texts(&it.filter, &it.texts, keys, |it, item| {
            it.source_hash(item) % 2 == 1
        })
    });
    let rows = ("insert, text of bytes:", TEXTS, TRUE);
    plan.measure(rows, calls, Calls::empty_for_texts, |it, _| {
        insert_texts(&mut it.filter, &it.texts, keys)
    });
    let rows = ("contains, text of bytes:", TEXTS, TRUE);
    plan.measure(rows, calls, Calls::fill_with_texts, |it, _| {
        count_texts(&it.filter, &it.texts, keys, |it, item| it.contains(item))
    });
}

fn measure_hashes(plan: &Plan, calls: &mut Calls) {
    let keys = plan.keys;
    let rows = ("insert_hash", HASHES, TRUE);
    plan.measure(rows, calls, Calls::empty, |it, _| {
        insert_keys(&mut it.filter, keys)
    });
    let rows = ("contains_hash, hit", HASHES, TRUE);
    plan.measure(rows, calls, Calls::fill_with_hashes, |it, _| {
        contains_keys(&it.filter, 0..keys)
    });
    let rows = ("contains_hash, miss", HASHES, TRUE);
    plan.measure(rows, calls, Calls::fill_with_hashes, |it, round| {
        contains_keys(&it.filter, foreign_keys(keys, round))
    });
}

fn measure_filters(plan: &Plan, calls: &mut Calls) {
    let rows = ("union, a word", SEVEN, CHANGED);
    plan.measure(rows, calls, Calls::copy, |it, _| {
        it.filter.union(&it.other);
        it.filter.contains_hash(0)
    });
    let rows = ("intersect, a word", SEVEN, CHANGED);
    plan.measure(rows, calls, Calls::copy, |it, _| {
        it.filter.intersect(&it.other);
        it.filter.contains_hash(0)
    });
    let rows = ("==, a word", SEVEN, CHANGED);
    plan.measure(rows, calls, Calls::copy, |it, _| it.filter == it.other);
    let rows = ("clear, a word", SEVEN, CHANGED);
    plan.measure(rows, calls, Calls::copy, |it, _| {
        it.filter.clear();
        it.filter.contains_hash(0)
    });
    let rows = ("try_clone, a word", SEVEN, FOUND);
    plan.measure(rows, calls, Calls::renew, |it, _| it.other.clone());
    let rows = ("iter, a word", SEVEN, ODD_WORDS);
    plan.measure(rows, calls, Calls::renew, |it, _| {
        count_odd(it.other.iter())
    });
}

/// Measures the rows of a plain filter: of items with seven hashes, of hashes with one to 22, and
/// of whole filters.
pub fn measure_rows(plan: &Plan) {
    let mut calls = Calls {
        keys: plan.keys,
        numbers: (0..plan.keys).collect(),
        filter: make_filter(plan.keys, 7),
        other: make_filter(plan.keys, 7),
        texts: Vec::new(),
    };
    calls.other.insert_hash(0);
    // Words that were never written have one page between them, so reading them costs no memory.
    // A copy has pages of its own, as the other filter of `bin/bench` has.
    calls.other = calls.other.clone();
    measure_items(plan, &mut calls);
    measure_hashes(plan, &mut calls);
    measure_filters(plan, &mut calls);
}
