//! Many items by one call, which costs less than a call for each.

use crate::{hash, BloomFilter, Rate};

/// This many hashes are handed to one call of the library.
pub(crate) const AT_ONCE: usize = 1024;

/// What a call tells of each hash by a bit. It returns false where there are fewer bits than
/// hashes.
pub(crate) fn tell(hashes: &[u64], mut call: impl FnMut(&[u64], &mut [u64]) -> bool) -> Vec<bool> {
    let mut told = Vec::with_capacity(hashes.len());
    for part in hashes.chunks(AT_ONCE) {
        let mut bits = [0; AT_ONCE / 64];
        let done = call(part, &mut bits);
        assert!(done, "there are bits for all");
        told.extend((0..part.len()).map(|place| bits[place / 64] >> (place % 64) & 1 == 1));
    }
    told
}

/// Hashes that aren't inserted yet. They are when it is dropped, as by a panic.
struct Pending<F: FnMut(&[u64])> {
    insert: F,
    hashes: [u64; AT_ONCE],
    count: usize,
}

impl<F: FnMut(&[u64])> Pending<F> {
    fn push(&mut self, hash: u64) {
        self.hashes[self.count] = hash;
        self.count += 1;
        if self.count == AT_ONCE {
            self.insert();
        }
    }

    fn insert(&mut self) {
        (self.insert)(&self.hashes[..self.count]);
        self.count = 0;
    }
}

impl<F: FnMut(&[u64])> Drop for Pending<F> {
    fn drop(&mut self) {
        self.insert();
    }
}

/// Inserts the hash of each item by a call for many. Where the iterator panics, those of the items
/// before are inserted.
pub(crate) fn insert_all<T: AsRef<[u8]>>(
    key: &[u8; 16],
    items: impl IntoIterator<Item = T>,
    insert: impl FnMut(&[u64]),
) {
    let mut pending = Pending {
        insert,
        hashes: [0; AT_ONCE],
        count: 0,
    };
    for item in items {
        pending.push(hash(key, &item));
    }
}

/// The filter of the items of any iterator, at one false positive in a thousand, under the zero key.
/// For another rate or key, and a known number of items, take a builder's `items`.
///
/// ```
/// # use fastbloom_c::BloomFilter;
/// let seen: BloomFilter = "crab and lobster".split(' ').collect();
/// assert!(seen.contains("lobster") && !seen.contains("whale"));
/// ```
///
/// # Panics
/// Where there is no memory, as other collections do.
impl<T: AsRef<[u8]>> FromIterator<T> for BloomFilter {
    fn from_iter<I: IntoIterator<Item = T>>(items: I) -> BloomFilter {
        let key = [0; 16];
        let hashes: Vec<u64> = items.into_iter().map(|item| hash(&key, &item)).collect();
        let mut filter = Rate::new(1, 1000)
            .and_then(|rate| BloomFilter::with_false_pos(rate).expected_items(hashes.len()))
            .unwrap_or_else(|refused| panic!("a filter of {} items: {refused}", hashes.len()));
        filter.insert_hashes(&hashes);
        filter
    }
}
