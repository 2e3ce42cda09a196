//! Filters go to other threads, and are read by many at once.

use fastbloom_c::{
    BloomFilter, Bracket, BuilderWithBits, BuilderWithFalsePositiveRate, Error, Hasher, Rate,
};
use std::sync::{Barrier, RwLock};
use std::thread;

const READERS: u64 = 4;
const ITEMS: u64 = 2000;

/// That this compiles shows it.
const fn is_for_threads<T: Send + Sync + Unpin + 'static>() {}
const _: () = {
    is_for_threads::<BloomFilter>();
    is_for_threads::<BuilderWithBits>();
    is_for_threads::<BuilderWithFalsePositiveRate>();
    is_for_threads::<Hasher>();
    is_for_threads::<Rate>();
    is_for_threads::<Bracket>();
    is_for_threads::<Error>();
};

fn empty() -> BloomFilter {
    let rate = Rate::new(1, 1000).expect("a rate");
    BloomFilter::with_false_pos(rate)
        .expected_items(ITEMS as usize)
        .expect("a filter")
}

#[test]
fn threads_look_up_at_once() {
    let names: Vec<_> = (0..ITEMS).map(|number| format!("item{number}")).collect();
    let mut seen = empty();
    seen.insert_all(&names);
    let hashes: Vec<_> = names.iter().map(|name| seen.source_hash(name)).collect();
    let (seen, other, file) = (&seen, &seen.clone(), &seen.to_bytes());
    let begin = Barrier::new(READERS as usize);
    thread::scope(|scope| {
        for _ in 0..READERS {
            scope.spawn(|| {
                begin.wait();
                for _ in 0..20 {
                    assert!(names.iter().all(|name| seen.contains(name)));
                    assert_eq!(seen.contains_hashes(&hashes), vec![true; hashes.len()]);
                    assert!(seen == other && seen.count_ones() == other.count_ones());
                    assert_eq!(&seen.to_bytes(), file);
                }
            });
        }
    });
}

#[test]
fn filters_of_threads_are_joined() {
    let part = |worker| {
        move || {
            let mut part = empty();
            part.insert_all(
                (0..ITEMS)
                    .filter(|n| n % READERS == worker)
                    .map(|n| n.to_le_bytes()),
            );
            part
        }
    };
    let workers: Vec<_> = (0..READERS)
        .map(|worker| thread::spawn(part(worker)))
        .collect();
    let mut seen = empty();
    for worker in workers {
        seen.union(&worker.join().expect("a part"))
            .expect("one shape");
    }
    let mut all = empty();
    all.insert_all((0..ITEMS).map(u64::to_le_bytes));
    assert_eq!(seen, all);
}

/// A filter behind a lock loses nothing of what threads insert.
#[test]
fn threads_insert_behind_a_lock() {
    let seen = RwLock::new(empty());
    thread::scope(|scope| {
        for worker in 0..READERS {
            let seen = &seen;
            scope.spawn(move || {
                for n in (0..ITEMS).filter(|n| n % READERS == worker) {
                    seen.write().expect("no panic").insert(&n.to_le_bytes());
                    assert!(seen.read().expect("no panic").contains(&n.to_le_bytes()));
                }
            });
        }
    });
    let mut all = empty();
    all.insert_all((0..ITEMS).map(u64::to_le_bytes));
    assert_eq!(seen.into_inner().expect("no panic"), all);
}
