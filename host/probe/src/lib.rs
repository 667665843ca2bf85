//! The proved functions of one table, as crate probe exports them, each wrapped once.
//!
//! A slice is lent for its call alone, and the exported function is given its true length. A call
//! out of range is a slip of the caller and panics.

const REFUSED: u32 = 9;
const NONE: u32 = u32::MAX;
const FIRST_REFUSED: u32 = u32::MAX - 1;
const LEAST_SLOTS: usize = 2;
const MOST_SLOTS: usize = 1 << 20;

extern "C" {
    fn probe_insert(words: *mut u32, slots: usize, c: usize, x: u32) -> u32;
    fn probe_remove(words: *mut u32, slots: usize, c: usize, x: u32) -> u32;
    fn probe_raise_last(words: *mut u32, slots: usize, c: usize, x: u32) -> u32;
    fn probe_exchange(words: *mut u32, slots: usize, c: usize, x: u32, y: u32) -> u32;
    fn probe_first(words: *const u32, slots: usize, k: u32, w: u32, hash: u64) -> u32;
    fn probe_first_bytes(bytes: *const u8, length: usize, k: u32, w: u32, hash: u64) -> u32;
}

#[inline]
fn check_slots(slots: usize) {
    assert!(
        (LEAST_SLOTS..=MOST_SLOTS).contains(&slots),
        "{slots} slots are out of range"
    );
}

#[inline]
fn done(answer: u32) -> bool {
    assert!(answer != REFUSED, "the call is refused");
    answer == 1
}

#[inline]
fn found(answer: u32) -> Option<u32> {
    assert!(answer != FIRST_REFUSED, "the call is refused");
    (answer != NONE).then_some(answer)
}

/// The payload x goes into the run of c.
#[inline]
pub fn insert(words: &mut [u32], c: usize, x: u32) {
    check_slots(words.len());
    // SAFETY: pointer and length are those of the slice.
    done(unsafe { probe_insert(words.as_mut_ptr(), words.len(), c, x) });
}

/// One entry with payload x goes from the run of c; false where there is none.
#[inline]
pub fn remove(words: &mut [u32], c: usize, x: u32) -> bool {
    check_slots(words.len());
    // SAFETY: pointer and length are those of the slice.
    done(unsafe { probe_remove(words.as_mut_ptr(), words.len(), c, x) })
}

/// The last entry with payload x in the run of c gets x + 1; false where there is none.
#[inline]
pub fn raise_last(words: &mut [u32], c: usize, x: u32) -> bool {
    check_slots(words.len());
    // SAFETY: pointer and length are those of the slice.
    done(unsafe { probe_raise_last(words.as_mut_ptr(), words.len(), c, x) })
}

/// One entry with payload x goes from the run of c and one with y comes; false where there is no x.
#[inline]
pub fn exchange(words: &mut [u32], c: usize, x: u32, y: u32) -> bool {
    check_slots(words.len());
    // SAFETY: pointer and length are those of the slice.
    done(unsafe { probe_exchange(words.as_mut_ptr(), words.len(), c, x, y) })
}

/// The first payload of the hash's run that matches: the address has k bits, payloads have w.
#[inline]
pub fn first(words: &[u32], k: u32, w: u32, hash: u64) -> Option<u32> {
    check_slots(words.len());
    // SAFETY: pointer and length are those of the slice.
    found(unsafe { probe_first(words.as_ptr(), words.len(), k, w, hash) })
}

/// The same where the words are bytes, four a slot, lowest first.
#[inline]
pub fn first_bytes(bytes: &[u8], k: u32, w: u32, hash: u64) -> Option<u32> {
    check_slots(bytes.len() / 4);
    // SAFETY: pointer and length are those of the slice.
    found(unsafe { probe_first_bytes(bytes.as_ptr(), bytes.len(), k, w, hash) })
}
