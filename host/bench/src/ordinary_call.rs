//! Query as one would write it in Rust without proofs: the record and the lengths are looked at,
//! with the numbers of document 01, and then comes the ordinary walk.

use crate::ordinary;
use exports::Filter;

const EXTRA: [u32; 18] = [0, 2, 4, 4, 6, 6, 6, 6, 8, 8, 8, 8, 8, 8, 8, 8, 10, 10];
const RECORD: u32 = 2;
const LENGTH: u32 = 3;

fn limit(power: u32) -> u32 {
    (1 << power) - (1 << (power - 3))
}

/// The words that the annex tables take, if the directory is right.
fn words_taken(k: u32, places: &[[u32; 3]; 15]) -> Option<usize> {
    let used = places.iter().take_while(|place| place[0] != 0).count();
    let (mut last, mut words) = (5, 0);
    for &[b, s, count] in &places[..used] {
        if b <= last || k < b || s < 3 || b <= s || limit(s) < count {
            return None;
        }
        last = b;
        words += 1 << s;
    }
    let unused = &places[used..];
    unused.iter().all(|place| *place == [0; 3]).then_some(words)
}

/// The words that the annex tables take, if the record is in range.
fn in_range(filter: &Filter) -> Option<usize> {
    let [k, power, f, regime, used, queued] = filter.numbers;
    let settings = (3..=10).contains(&power) && (3..=15).contains(&f) && regime <= 1;
    let numbers = settings && power <= k && k <= 20 && used <= limit(k) && queued <= 1 << 20;
    numbers.then(|| words_taken(k, &filter.annex)).flatten()
}

/// Never inlined, since the proved one is not.
#[inline(never)]
pub fn query(filter: &Filter, [main, queue, annex]: [&[u32]; 3], hash: u64) -> u32 {
    let Some(taken) = in_range(filter) else {
        return RECORD;
    };
    let [k, power, f, regime, _, queued] = filter.numbers;
    if main.len() != 1 << k || queue.len() < queued as usize || annex.len() < taken {
        return LENGTH;
    }
    let extra = regime * EXTRA[(k - power) as usize];
    u32::from(ordinary::first(main, k, f + extra + 1, hash).is_some())
}

/// The same on bytes, as the exported Query is asked.
#[inline(never)]
pub fn query_bytes(k: u32, w: u32, bytes: &[u8], hash: u64) -> u32 {
    if !(3..=20).contains(&k) || !(4..=26).contains(&w) {
        return RECORD;
    }
    if bytes.len() != 4 << k {
        return LENGTH;
    }
    u32::from(ordinary::first_bytes(bytes, k, w, hash).is_some())
}
