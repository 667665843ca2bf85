//! A filter through the C interface.

use crate::filled::W;
use exports::*;

#[derive(Clone)]
pub struct Session {
    filter: Filter,
    main: Vec<u32>,
    queue: Vec<u32>,
    annex: Vec<u32>,
}

type Words = ([Lent; 3], [usize; 3]);

impl Session {
    /// The fixed regime with payloads of width W; the words hold `used` entries and no voids.
    pub fn new(k: u32, used: usize, words: &[u32]) -> Session {
        let filter = Filter {
            numbers: [k, 10, W - 1, 0, used as u32, 0],
            ..Filter::default()
        };
        let mut session = Session {
            filter,
            main: words.to_vec(),
            queue: vec![0; 16],
            annex: vec![0; 8],
        };
        let (r, ([m, q, a], [ml, ql, al])) = session.lent();
        // SAFETY: pointers and lengths are those of the session's own words, here and below.
        let number = unsafe { kj_audit(r, m, ml, q, ql, a, al) };
        assert_eq!(number, 0, "the filled filter is not sound");
        session
    }

    fn lent(&mut self) -> (*mut Filter, Words) {
        let lengths = [self.main.len(), self.queue.len(), self.annex.len()];
        let words = [&mut self.main, &mut self.queue, &mut self.annex];
        let pointers = words.map(|words| words.as_mut_ptr());
        (&raw mut self.filter, (pointers, lengths))
    }

    /// The record, and main, queue and annex.
    pub fn parts(&self) -> (&Filter, [&[u32]; 3]) {
        (&self.filter, [&self.main, &self.queue, &self.annex])
    }

    pub fn main(&self) -> &[u32] {
        &self.main
    }

    /// Other words for the main table, of the same length and with as many entries.
    pub fn refill(&mut self, words: &[u32]) {
        self.main.copy_from_slice(words);
    }

    pub fn query(&mut self, hash: u64) -> bool {
        let (r, ([m, q, a], [ml, ql, al])) = self.lent();
        // SAFETY: as above.
        unsafe { kj_query(r, m, ml, q, ql, a, al, hash) == 1 }
    }

    pub fn insert(&mut self, hash: u64) -> bool {
        let (r, ([m, q, a], [ml, ql, al])) = self.lent();
        // SAFETY: as above.
        unsafe { kj_insert(r, m, ml, q, ql, a, al, hash) == 0 }
    }

    pub fn delete(&mut self, hash: u64) -> bool {
        let (r, ([m, q, a], [ml, ql, al])) = self.lent();
        // SAFETY: as above.
        unsafe { kj_delete(r, m, ml, q, ql, a, al, hash) == 0 }
    }

    pub fn rejuvenate(&mut self, hash: u64) -> bool {
        let (r, ([m, q, a], [ml, ql, al])) = self.lent();
        // SAFETY: as above.
        unsafe { kj_rejuvenate(r, m, ml, q, ql, a, al, hash) == 0 }
    }
}

/// The exported Query on bytes.
pub fn query_bytes(k: u32, bytes: &[u8], hash: u64) -> bool {
    // SAFETY: pointer and length are those of the slice.
    unsafe { kj_query_bytes(k, W, hash, bytes.as_ptr(), bytes.len()) == 1 }
}
