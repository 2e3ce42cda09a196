//! The calls of a filter that threads share, made by one thread, as in shared.rt of the bench.

use crate::{count, count_bits, count_odd, foreign_keys, hash_of, Plan};
use crate::{FOUND, ODD_WORDS, SEVEN, TRUE};
use fastbloom::AtomicBloomFilter;
use std::ops::Range;

const CHANGED: &str = "same, or found after it";

/// What the calls are made on: a filter and another, which has the hash 0, and items.
struct Calls {
    keys: u64,
    filter: AtomicBloomFilter,
    other: AtomicBloomFilter,
    numbers: Vec<u64>,
}

/// An empty filter with the zero key.
fn make_filter(keys: u64) -> AtomicBloomFilter {
    let builder = AtomicBloomFilter::with_num_bits(count_bits(keys));
    builder.seed(&0).hashes(7)
}

fn insert_keys(filter: &AtomicBloomFilter, keys: u64) -> u64 {
    count(filter, 0..keys, |it, key| it.insert_hash(hash_of(key)))
}

fn contains_keys(filter: &AtomicBloomFilter, keys: Range<u64>) -> u64 {
    count(filter, keys, |it, key| it.contains_hash(hash_of(key)))
}

/// What is prepared before a round. The number is that of the row.
impl Calls {
    fn keep(&mut self, _number: u32, _round: u64) {}

    fn empty(&mut self, _number: u32, _round: u64) {
        self.filter.clear();
    }

    fn fill(&mut self, _number: u32, round: u64) {
        if round == 0 {
            insert_keys(&self.filter, self.keys);
        }
    }

    fn copy(&mut self, _number: u32, round: u64) {
        if round == 0 {
            self.filter = self.other.clone();
        }
    }
}

fn measure_keys(plan: &Plan, calls: &mut Calls) {
    let keys = plan.keys;
    let rows = ("shared insert_hash", SEVEN, TRUE);
    plan.measure(rows, calls, Calls::empty, |it, _| {
        insert_keys(&it.filter, keys)
    });
    let rows = ("shared hit", SEVEN, TRUE);
    plan.measure(rows, calls, Calls::fill, |it, _| {
        contains_keys(&it.filter, 0..keys)
    });
    let rows = ("shared miss", SEVEN, TRUE);
    plan.measure(rows, calls, Calls::fill, |it, round| {
        contains_keys(&it.filter, foreign_keys(keys, round))
    });
    let rows = ("shared extend, u64", SEVEN, FOUND);
    plan.measure(rows, calls, Calls::empty, |it, _| {
        it.filter.extend(0..keys);
        it.filter.contains(&0u64)
    });
    let rows = ("shared insert_all, u64", SEVEN, FOUND);
    plan.measure(rows, calls, Calls::empty, |it, _| {
        it.filter.insert_all(&it.numbers);
        it.filter.contains(&0u64)
    });
}

fn measure_filters(plan: &Plan, calls: &mut Calls) {
    let rows = ("shared union, a word", SEVEN, CHANGED);
    plan.measure(rows, calls, Calls::copy, |it, _| {
        it.filter.union(&it.other);
        it.filter.contains_hash(0)
    });
    let rows = ("shared intersect, a word", SEVEN, CHANGED);
    plan.measure(rows, calls, Calls::copy, |it, _| {
        it.filter.intersect(&it.other);
        it.filter.contains_hash(0)
    });
    let rows = ("shared clear, a word", SEVEN, CHANGED);
    plan.measure(rows, calls, Calls::copy, |it, _| {
        it.filter.clear();
        it.filter.contains_hash(0)
    });
    let rows = ("shared try_clone, a word", SEVEN, FOUND);
    plan.measure(rows, calls, Calls::keep, |it, _| it.other.clone());
    let rows = ("shared iter, a word", SEVEN, ODD_WORDS);
    plan.measure(rows, calls, Calls::keep, |it, _| count_odd(it.other.iter()));
}

/// Measures the rows of a shared filter with seven hashes: of hashes, items and whole filters.
pub fn measure_rows(plan: &Plan) {
    let mut calls = Calls {
        keys: plan.keys,
        numbers: (0..plan.keys).collect(),
        filter: make_filter(plan.keys),
        other: make_filter(plan.keys),
    };
    calls.other.insert_hash(0);
    // Words that were never written have one page between them, so reading them costs no memory.
    // A copy has pages of its own, as the other filter of `bin/bench` has.
    calls.other = calls.other.clone();
    measure_keys(plan, &mut calls);
    measure_filters(plan, &mut calls);
}
