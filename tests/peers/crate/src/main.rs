//! What the calls of the Rust crate fastbloom cost: `crate [KEYS [ROUNDS [WORD]]]`, those whose row
//! has the word in its name.
//!
//! It makes the calls that `bin/bench` makes of this project: in the same order, with the same keys
//! and texts, and on filters of the same sizes with the zero key. It prints the same rows, of which
//! it has those that docs/SPEED.md lists. So the two counts of a row are equal, and its two times
//! can be compared. `dev/bench-against --peers` builds it, and runs both in turn.

mod plain;
mod shared;

use fastbloom::{AtomicBloomFilter, BloomFilter};
use std::env;
use std::hint::black_box;
use std::ops::Range;
use std::process::ExitCode;
use std::time::Instant;

const SEVEN: &[u32] = &[7];

const TRUE: &str = "true";

const FOUND: &str = "found after it";

const ODD_WORDS: &str = "odd words";

/// The rows of a call: their name, their numbers, and what is counted of the results.
type Rows = (&'static str, &'static [u32], &'static str);

/// What a round made. It is counted, and dropped, once the clock has stopped.
trait Made {
    fn count(self) -> u64;
}

/// A count already.
impl Made for u64 {
    fn count(self) -> u64 {
        self
    }
}

impl Made for bool {
    fn count(self) -> u64 {
        u64::from(self)
    }
}

/// A copy, in which the hash 0 is looked up.
impl Made for BloomFilter {
    fn count(self) -> u64 {
        u64::from(self.contains_hash(0))
    }
}

impl Made for AtomicBloomFilter {
    fn count(self) -> u64 {
        u64::from(self.contains_hash(0))
    }
}

/// For how many keys rows are measured, in how many rounds, and which by a word in their names.
struct Plan {
    keys: u64,
    rounds: u64,
    word: String,
}

impl Plan {
    /// The plan that the arguments tell, if they are two numbers and a word, or fewer.
    fn read(mut words: impl Iterator<Item = String>) -> Option<Plan> {
        let mut number = |missing: u32| match words.next() {
            Some(word) => word.parse::<u32>().ok(),
            None => Some(missing),
        };
        let (keys, rounds) = (number(1_000_000)?, number(10)?);
        let (keys, rounds) = (u64::from(keys), u64::from(rounds));
        let word = words.next().unwrap_or_default();
        words
            .next()
            .is_none()
            .then_some(Plan { keys, rounds, word })
    }

    fn print_head(&self) {
        let (keys, rounds, words) = (self.keys, self.rounds, count_bits(self.keys).div_ceil(64));
        let (bits, bytes) = (words * 64, words * 8);
        println!("{keys} keys, best of {rounds} rounds, filters of {bits} bits ({bytes} bytes)");
        println!("The number is that of hashes, or of what the name tells before a colon.");
        println!("call                          number     answers          ps  answers count");
    }

    /// Measures the rows of a call, if they are wanted, and prints them. Each round is prepared
    /// before its clock starts.
    fn measure<S, M: Made>(
        &self,
        (call, numbers, counted): Rows,
        calls: &mut S,
        prepare: impl Fn(&mut S, u32, u64),
        make: impl Fn(&mut S, u64) -> M,
    ) {
        let wanted = call.contains(&self.word);
        for &number in if wanted { numbers } else { &[] } {
            let (mut answers, mut best) = (0, None);
            for round in 0..self.rounds {
                prepare(calls, number, round);
                // The compiler sees that no call changes what hashes are made of. So without this
                // it makes the hashes of all rounds once, before the first.
                let calls = black_box(&mut *calls);
                let start = Instant::now();
                let made = make(calls, round);
                let time = start.elapsed().as_nanos();
                answers = made.count();
                best = Some(best.unwrap_or(time).min(time));
            }
            let time = best.and_then(|best| (best * 1000).checked_div(self.operations(call)));
            let time = time.map_or("-".to_string(), |time| time.to_string());
            println!("{call:<28}{number:>8}{answers:>12}{time:>12}  {counted}");
        }
    }

    /// How many operations a round makes: one for each key, or for each word of a filter where the
    /// name says so.
    fn operations(&self, call: &str) -> u128 {
        match self.keys {
            0 => 0,
            keys if call.ends_with(", a word") => count_bits(keys).div_ceil(64) as u128,
            keys => u128::from(keys),
        }
    }
}

/// How many bits a filter is asked for: ten for each key, and one at least.
fn count_bits(keys: u64) -> usize {
    (keys as usize * 10).max(1)
}

/// Makes a call of a filter for each of these numbers, and counts the calls that returned true. The
/// loop gets the filter as an argument, as the loops of the bench do.
#[inline(never)]
fn count<F>(mut filter: F, numbers: Range<u64>, call: impl Fn(&mut F, u64) -> bool) -> u64 {
    let mut answers = 0;
    for number in numbers {
        answers += u64::from(call(&mut filter, number));
    }
    answers
}

/// Counts the odd words.
#[inline(never)]
fn count_odd(words: impl Iterator<Item = u64>) -> u64 {
    let mut odd = 0;
    for word in words {
        odd += word % 2;
    }
    odd
}

/// The hash of a key: the numbers of keys, spread evenly.
#[inline]
fn hash_of(key: u64) -> u64 {
    let word = key.wrapping_add(0x9e37_79b9_7f4a_7c15);
    let word = (word ^ (word >> 30)).wrapping_mul(0xbf58_476d_1ce4_e5b9);
    let word = (word ^ (word >> 27)).wrapping_mul(0x94d0_49bb_1331_11eb);
    word ^ (word >> 31)
}

/// The keys that a round looks up, of which none is ever inserted. Each round takes others.
fn foreign_keys(keys: u64, round: u64) -> Range<u64> {
    let first = keys * round + (1 << 40);
    first..first + keys
}

fn main() -> ExitCode {
    let Some(plan) = Plan::read(env::args().skip(1)) else {
        eprintln!("usage: crate [KEYS [ROUNDS [WORD]]]");
        return ExitCode::from(2);
    };
    plan.print_head();
    plain::measure_rows(&plan);
    shared::measure_rows(&plan);
    ExitCode::SUCCESS
}
