//! Prints each line of standard input that is new, by a set of the hashes of the lines so far: what
//! `duplicates` is measured beside. A line whose hash is that of another is held back.
use std::collections::HashSet;
use std::hash::{BuildHasherDefault, Hasher};
use std::io::{self, BufRead, BufReader, BufWriter, Write};

const ROOM: usize = 65536;
const FACTOR: u64 = 0x9fb2_1c65_1e98_df25;

/// The set takes a line's hash as its own.
#[derive(Default)]
struct Same(u64);

impl Hasher for Same {
    fn finish(&self) -> u64 {
        self.0
    }

    fn write_u64(&mut self, hash: u64) {
        self.0 = hash;
    }

    fn write(&mut self, _bytes: &[u8]) {
        unreachable!("only hashes are written")
    }
}

/// Both halves of a product.
fn fold(a: u64) -> u64 {
    let product = u128::from(a) * u128::from(FACTOR);
    product as u64 ^ (product >> 64) as u64
}

fn hash_of(line: &[u8]) -> u64 {
    let words = line.chunks_exact(8);
    let mut last = [0; 8];
    last[..words.remainder().len()].copy_from_slice(words.remainder());
    let begun = words.fold(line.len() as u64, |hash, word| {
        fold(hash ^ u64::from_le_bytes(word.try_into().unwrap()))
    });
    fold(begun ^ u64::from_le_bytes(last) ^ FACTOR)
}

fn main() -> io::Result<()> {
    let mut input = BufReader::with_capacity(ROOM, io::stdin().lock());
    let mut output = BufWriter::with_capacity(ROOM, io::stdout().lock());
    let mut seen = HashSet::<u64, BuildHasherDefault<Same>>::default();
    let mut line = Vec::new();
    while input.read_until(b'\n', &mut line)? > 0 {
        if seen.insert(hash_of(&line)) {
            output.write_all(&line)?;
        }
        line.clear();
    }
    output.flush()
}
