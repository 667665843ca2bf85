//! The ordinary table: that of document 01 as one would write it in Rust without proofs.

const OCCUPIED: u32 = 1;
const CONTINUATION: u32 = 2;
const SHIFTED: u32 = 4;

/// A table of 2^k words, read by the walk.
pub trait Words {
    fn word(&self, slot: usize) -> u32;
    fn slots(&self) -> usize;
}

impl Words for [u32] {
    fn word(&self, slot: usize) -> u32 {
        self[slot]
    }

    fn slots(&self) -> usize {
        self.len()
    }
}

/// Four bytes a slot, lowest first.
impl Words for [u8] {
    fn word(&self, slot: usize) -> u32 {
        u32::from_le_bytes(self[4 * slot..4 * slot + 4].try_into().unwrap())
    }

    fn slots(&self) -> usize {
        self.len() / 4
    }
}

fn matches(payload: u32, w: u32, k: u32, hash: u64) -> bool {
    if payload >> w != 0 {
        return false;
    }
    let zeros = !payload & ((1 << w) - 1);
    if zeros == 0 {
        return false;
    }
    let length = 31 - zeros.leading_zeros();
    let mask = (1u32 << length) - 1;
    payload & mask == (hash >> k) as u32 & mask
}

/// Where the run of slot c begins, or would begin.
fn run_start<T: Words + ?Sized>(words: &T, c: usize) -> usize {
    let mask = words.slots() - 1;
    let mut i = c;
    let mut runs = 0;
    while words.word(i) & SHIFTED != 0 {
        i = i.wrapping_sub(1) & mask;
        runs += words.word(i) & OCCUPIED;
    }
    while runs > 0 {
        i = (i + 1) & mask;
        if words.word(i) & CONTINUATION == 0 {
            runs -= 1;
        }
    }
    i
}

fn first_match<T: Words + ?Sized>(words: &T, k: u32, w: u32, hash: u64) -> Option<u32> {
    let mask = words.slots() - 1;
    let c = hash as usize & mask;
    if words.word(c) & OCCUPIED == 0 {
        return None;
    }
    let mut i = run_start(words, c);
    loop {
        let payload = words.word(i) >> 3;
        if matches(payload, w, k, hash) {
            return Some(payload);
        }
        i = (i + 1) & mask;
        if words.word(i) & CONTINUATION == 0 {
            return None;
        }
    }
}

/// The first payload of the hash's run that matches. Never inlined, since the proved one is not.
#[inline(never)]
pub fn first(words: &[u32], k: u32, w: u32, hash: u64) -> Option<u32> {
    first_match(words, k, w, hash)
}

/// The same of a table of bytes.
#[inline(never)]
pub fn first_bytes(bytes: &[u8], k: u32, w: u32, hash: u64) -> Option<u32> {
    first_match(bytes, k, w, hash)
}

/// Adds a payload to the run of c. There must be an empty slot.
#[inline(never)]
pub fn insert(words: &mut [u32], c: usize, payload: u32) {
    let mask = words.len() - 1;
    if words[c] == 0 {
        words[c] = payload << 3 | OCCUPIED;
        return;
    }
    let had_run = words[c] & OCCUPIED != 0;
    let begin = run_start(&*words, c);
    let mut i = begin;
    words[c] |= OCCUPIED;
    if had_run {
        while words[i] >> 3 < payload {
            i = (i + 1) & mask;
            if words[i] & CONTINUATION == 0 {
                break;
            }
        }
    }
    let mut hand = payload << 3;
    if i != begin {
        hand |= CONTINUATION;
    }
    if i != c {
        hand |= SHIFTED;
    }
    push(words, i, hand, had_run && i == begin);
}

/// The word in hand goes to slot i, and each entry from there moves one to the right, up to an
/// empty slot. A run's first entry that moves for a smaller one becomes a continuation.
fn push(words: &mut [u32], mut i: usize, mut hand: u32, mut was_first: bool) {
    let mask = words.len() - 1;
    loop {
        let old = words[i];
        words[i] = hand | old & OCCUPIED;
        if old == 0 {
            return;
        }
        hand = old & !OCCUPIED | SHIFTED;
        if was_first {
            hand |= CONTINUATION;
            was_first = false;
        }
        i = (i + 1) & mask;
    }
}

/// Takes the first entry with this payload out of the run of c; false if there is none.
#[inline(never)]
pub fn remove(words: &mut [u32], c: usize, payload: u32) -> bool {
    let mask = words.len() - 1;
    if words[c] & OCCUPIED == 0 {
        return false;
    }
    let begin = run_start(&*words, c);
    let mut i = begin;
    while words[i] >> 3 != payload {
        i = (i + 1) & mask;
        if words[i] & CONTINUATION == 0 {
            return false;
        }
    }
    let behind = words[(i + 1) & mask];
    if i == begin && behind & CONTINUATION != 0 {
        let low = words[i] & (SHIFTED | OCCUPIED);
        words[i] = behind >> 3 << 3 | low;
        i = (i + 1) & mask;
    } else if i == begin {
        words[c] &= !OCCUPIED;
    }
    close_gap(words, c, i);
    true
}

/// How many runs have their address after c and before slot `end`.
fn marks_between(words: &[u32], c: usize, end: usize) -> u32 {
    let mask = words.len() - 1;
    let mut marks = 0;
    let mut i = c;
    while i != end {
        if i != c {
            marks += words[i] & OCCUPIED;
        }
        i = (i + 1) & mask;
    }
    marks
}

/// Each entry behind the gap moves one to the left, up to a slot that is empty or at home. A run
/// that moves to a slot is at home there if no run of an earlier address still waits.
fn close_gap(words: &mut [u32], c: usize, gap: usize) {
    let mask = words.len() - 1;
    let mut waiting = marks_between(words, c, gap);
    let mut i = gap;
    loop {
        let next = (i + 1) & mask;
        let moving = words[next];
        if moving & SHIFTED == 0 {
            words[i] = 0;
            return;
        }
        let here = words[i] & OCCUPIED;
        let starts = moving & CONTINUATION == 0;
        let mut entry = moving & !OCCUPIED;
        if starts && waiting == 0 {
            entry &= !SHIFTED;
        }
        words[i] = entry | here;
        waiting = waiting + here - u32::from(starts);
        i = next;
    }
}
