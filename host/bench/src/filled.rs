//! A table filled to a load, and what is asked of it.

use crate::ordinary;

/// How many queries, and how many changes of each kind, one pass makes.
pub const CALLS: usize = 1 << 18;
/// So many entries are out of the table at once when changes are timed.
pub const BATCH: usize = 1024;
/// The width of the payloads.
pub const W: u32 = 12;

/// A generator of hashes (splitmix64).
struct Hashes(u64);

impl Hashes {
    fn next(&mut self) -> u64 {
        self.0 = self.0.wrapping_add(0x9e37_79b9_7f4a_7c15);
        let mut z = self.0;
        z = (z ^ (z >> 30)).wrapping_mul(0xbf58_476d_1ce4_e5b9);
        z = (z ^ (z >> 27)).wrapping_mul(0x94d0_49bb_1331_11eb);
        z ^ (z >> 31)
    }
}

pub struct Filled {
    pub k: u32,
    pub words: Vec<u32>,
    pub bytes: Vec<u8>,
    /// The same entries a generation older: each has lost one bit.
    pub older: Vec<u32>,
    /// The hashes inserted, each once.
    pub held: Vec<u64>,
    /// Whole batches of them, each at most once, in one random order after the other.
    pub orders: Vec<u64>,
    /// Hashes that the table holds, in random order.
    pub hits: Vec<u64>,
    /// Hashes that match nothing in it.
    pub misses: Vec<u64>,
    /// The part of other hashes that match something in it.
    pub rate: f64,
}

impl Filled {
    /// How many hashes one order has.
    pub fn order(&self) -> usize {
        self.held.len() / BATCH * BATCH
    }
}

/// So many orders that there are enough for a pass: a processor can't learn one by heart.
fn orders(hashes: &mut Hashes, held: &[u64]) -> Vec<u64> {
    let mut order = held.to_vec();
    let mut all = Vec::new();
    while all.len() < CALLS {
        shuffle(hashes, &mut order);
        all.extend(&order[..held.len() / BATCH * BATCH]);
    }
    all
}

fn shuffle(hashes: &mut Hashes, order: &mut [u64]) {
    for at in 1..order.len() {
        order.swap(at, hashes.next() as usize % (at + 1));
    }
}

/// A table of 2^k slots with `used` fresh entries.
pub fn filled(k: u32, used: usize) -> Filled {
    let mut hashes = Hashes(u64::from(k) * 1000 + used as u64);
    let held: Vec<u64> = (0..used).map(|_| hashes.next()).collect();
    let words = laid_out(k, &held, fresh_payload);
    let mut misses = Vec::new();
    let mut matches = 0;
    while misses.len() < CALLS {
        let hash = hashes.next();
        match ordinary::first(&words, k, W, hash) {
            None => misses.push(hash),
            Some(_) => matches += 1,
        }
    }
    Filled {
        k,
        bytes: words.iter().flat_map(|word| word.to_le_bytes()).collect(),
        words,
        older: laid_out(k, &held, older_payload),
        hits: (0..CALLS)
            .map(|_| held[hashes.next() as usize % used])
            .collect(),
        orders: orders(&mut hashes, &held),
        held,
        rate: f64::from(matches) / f64::from(matches + misses.len() as u32),
        misses,
    }
}

/// The words of a table with these hashes. Both sides fill it, to the same words.
fn laid_out(k: u32, held: &[u64], payload: fn(u32, u64) -> u32) -> Vec<u32> {
    let mut words = vec![0u32; 1 << k];
    let mut proved = words.clone();
    for &hash in held {
        let (c, x) = (address(k, hash), payload(k, hash));
        ordinary::insert(&mut words, c, x);
        probe::insert(&mut proved, c, x);
    }
    assert!(words == proved, "the filled tables differ");
    words
}

pub fn address(k: u32, hash: u64) -> usize {
    hash as usize & ((1 << k) - 1)
}

/// A zero and W - 1 bits of the hash.
pub fn fresh_payload(k: u32, hash: u64) -> u32 {
    (hash >> k) as u32 & ((1 << (W - 1)) - 1)
}

/// A one, a zero and W - 2 bits of the hash.
fn older_payload(k: u32, hash: u64) -> u32 {
    (2 << (W - 2)) + ((hash >> k) as u32 & ((1 << (W - 2)) - 1))
}
