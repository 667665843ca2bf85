//! Times of the slow calls on tables filled to the load limit, from 2^12 to 2^20 slots, with an empty
//! queue and with a full one, beside one pass over the same words. Each size is reached by the same
//! number of doublings, so that all have as many annex tables, from a filter of F 3 that is filled
//! before each; what is old becomes void by then, and deletes of voids fill the queue. The last row
//! is the longest life: start power 3, fifteen annex tables.
//!
//! A row is 2^20 slots of different filters, one filter after the other: a call at night finds its
//! words in no cache and its branches in no memory of the processor, and a small filter that is
//! called over and over would find both. Each round goes through all rows, so that a processor whose
//! speed changes is as fast for one row as for the other.

#[path = "../../bench/src/clock.rs"]
mod clock;

use clock::nanoseconds;
use exports::*;
use std::hint::black_box;

const LEAST: u32 = 3;
const FIRST: u32 = 12;
const LAST: u32 = 20;
const DOUBLINGS: u32 = 10;
const ROUNDS: usize = 15;

/// An odd number: its multiples visit every address once, far from one another.
const STRIDE: u64 = 0x9e37_79b9_7f4a_7c15;

/// A filter with its words.
#[derive(Clone)]
struct Session {
    filter: Filter,
    main: Vec<u32>,
    queue: Vec<u32>,
    annex: Vec<u32>,
    random: u64,
}

fn timed(work: impl FnOnce() -> u32) -> f64 {
    let begun = nanoseconds();
    assert_eq!(black_box(work()), 0, "a call was refused");
    (nanoseconds() - begun) as f64 / 1e9
}

impl Session {
    /// An empty filter of 2^power slots, with as many annex words as main words after the doublings.
    fn new(power: u32, doublings: u32, seed: u64) -> Session {
        let mut session = Session {
            filter: Filter::default(),
            main: vec![0; 1 << power],
            queue: Vec::new(),
            annex: vec![0; 1 << (power + doublings)],
            random: seed << 40,
        };
        let (r, [m, q, a], [ml, ql, al]) = session.lent();
        // Pointers and lengths are those of the session's own words.
        let number = unsafe { kj_start(r, m, ml, q, ql, a, al, power, 3, 0) };
        assert_eq!(number, 0);
        session
    }

    /// A table of 2^k slots after so many doublings, filled before each and at the end.
    fn grown(k: u32, doublings: u32, seed: u64) -> Session {
        let mut session = Session::new(k - doublings, doublings, seed);
        session.fill();
        for _ in 0..doublings {
            session.double();
            session.fill();
        }
        session
    }

    fn lent(&mut self) -> (*mut Filter, [Lent; 3], [usize; 3]) {
        let lengths = [self.main.len(), self.queue.len(), self.annex.len()];
        let words = [&mut self.main, &mut self.queue, &mut self.annex];
        (&raw mut self.filter, words.map(|w| w.as_mut_ptr()), lengths)
    }

    fn next_hash(&mut self) -> u64 {
        self.random = self.random.wrapping_add(STRIDE);
        let x = (self.random ^ (self.random >> 30)).wrapping_mul(0xbf58_476d_1ce4_e5b9);
        let x = (x ^ (x >> 27)).wrapping_mul(0x94d0_49bb_1331_11eb);
        x ^ (x >> 31)
    }

    fn queued(&self) -> usize {
        self.filter.numbers[5] as usize
    }

    /// Inserts until the load limit.
    fn fill(&mut self) {
        loop {
            let hash = self.next_hash();
            let (r, [m, q, a], [ml, ql, al]) = self.lent();
            // As above.
            if unsafe { kj_insert(r, m, ml, q, ql, a, al, hash) } != 0 {
                return;
            }
        }
    }

    /// One delete at each address, of any hash.
    fn delete_at_each(&mut self) {
        let k = self.filter.numbers[0];
        for i in 0..1u64 << k {
            let address = i.wrapping_mul(STRIDE) & ((1 << k) - 1);
            let hash = self.next_hash() << k | address;
            let (r, [m, q, a], [ml, ql, al]) = self.lent();
            // As above.
            let number = unsafe { kj_delete(r, m, ml, q, ql, a, al, hash) };
            assert!([0, 6].contains(&number), "delete answered {number}");
        }
    }

    /// Deletes all voids, lends a queue of just the words that are then in use, and fills the table
    /// again.
    fn fill_queue(&mut self) {
        self.queue = vec![0; self.main.len()];
        loop {
            let before = self.queued();
            self.delete_at_each();
            if self.queued() == before {
                self.queue.truncate(before);
                return self.fill();
            }
        }
    }

    /// Settles, and fills the table again.
    fn settle_and_fill(&mut self) {
        self.settle();
        self.fill();
    }

    /// The lengths of the annex tables in use.
    fn tables(&self) -> impl Iterator<Item = usize> + '_ {
        let places = self.filter.annex.iter().take_while(|place| place[0] != 0);
        places.map(|place| 1 << place[1])
    }

    /// One pass over the words that Audit reads.
    fn pass(&mut self) -> f64 {
        let parts = [
            &self.main[..],
            &self.queue[..self.queued()],
            &self.annex[..self.tables().sum()],
        ];
        timed(|| {
            let words = parts.iter().flat_map(|part| part.iter());
            black_box(words.fold(0u64, |sum, &w| sum + u64::from(w)));
            0
        })
    }

    fn audit(&mut self) -> f64 {
        let (r, [m, q, a], [ml, ql, al]) = self.lent();
        // As above.
        timed(|| unsafe { kj_audit(r, m, ml, q, ql, a, al) })
    }

    fn settle(&mut self) -> f64 {
        let (r, [m, q, a], [ml, ql, al]) = self.lent();
        // As above.
        timed(|| unsafe { kj_settle(r, m, ml, q, ql, a, al) })
    }

    fn double(&mut self) -> f64 {
        let mut second = vec![1; self.main.len() * 2];
        let (s, sl) = (second.as_mut_ptr(), second.len());
        let (r, [m, q, a], [ml, ql, al]) = self.lent();
        // As above, with the second main.
        let took = timed(|| unsafe { kj_double(r, m, ml, q, ql, a, al, s, sl) });
        self.main = second;
        took
    }
}

/// Filters of one size and of different hashes, and for each the least time of one call.
struct Timing {
    filters: Vec<Session>,
    call: fn(&mut Session) -> f64,
    least: Vec<f64>,
}

impl Timing {
    fn new(filters: &[Session], call: fn(&mut Session) -> f64) -> Timing {
        Timing {
            filters: filters.to_vec(),
            call,
            least: vec![f64::INFINITY; filters.len()],
        }
    }

    /// The call on a copy of each, one after the other.
    fn round(&mut self) {
        let mut copies = self.filters.clone();
        for (copy, least) in copies.iter_mut().zip(&mut self.least) {
            *least = least.min((self.call)(copy));
        }
    }

    /// The mean for one filter, in seconds.
    fn seconds(&self) -> f64 {
        self.least.iter().sum::<f64>() / self.least.len() as f64
    }
}

/// What is timed of one size: one pass, Audit, Audit with a full queue, Settle, and Double but for
/// the last size.
struct Row {
    k: u32,
    tables: usize,
    queued: usize,
    timings: Vec<Timing>,
}

impl Row {
    fn new(k: u32, doublings: u32) -> Row {
        let seeds = 0..1u64 << (LAST - k);
        let filled: Vec<_> = seeds.map(|s| Session::grown(k, doublings, s)).collect();
        let mut queued = filled.clone();
        queued.iter_mut().for_each(Session::fill_queue);
        let mut settled = queued.clone();
        settled.iter_mut().for_each(Session::settle_and_fill);
        let mut timings = vec![
            Timing::new(&queued, Session::pass),
            Timing::new(&filled, Session::audit),
            Timing::new(&queued, Session::audit),
            Timing::new(&queued, Session::settle),
        ];
        if k < LAST {
            timings.push(Timing::new(&settled, Session::double));
        }
        Row {
            k,
            tables: queued[0].tables().count(),
            queued: queued.iter().map(Session::queued).sum::<usize>() / queued.len(),
            timings,
        }
    }

    fn print(&self, before: Option<&Row>) {
        let mut cells: Vec<_> = (0..5).map(|i| self.cell(i, before)).collect();
        cells.insert(2, self.queued.to_string());
        cells.insert(0, self.tables.to_string());
        println!("| 2^{} | {} |", self.k, cells.join(" | "));
    }

    /// Milliseconds, and how many times those of the row before.
    fn cell(&self, i: usize, before: Option<&Row>) -> String {
        let Some(timing) = self.timings.get(i) else {
            return String::from("-");
        };
        let now = timing.seconds();
        let ratio = before.and_then(|row| Some(now / row.timings.get(i)?.seconds()));
        let ratio = ratio.map_or(String::from("-"), |r| format!("{r:.2}"));
        format!("{:.3} ({ratio})", now * 1000.0)
    }
}

fn main() {
    let sizes = (FIRST..=LAST).map(|k| (k, DOUBLINGS.min(k - LEAST)));
    let sizes = sizes.chain([(LAST, LAST - LEAST)]);
    let mut rows: Vec<_> = sizes.map(|(k, doublings)| Row::new(k, doublings)).collect();
    for _ in 0..ROUNDS {
        for timing in rows.iter_mut().flat_map(|row| &mut row.timings) {
            timing.round();
        }
    }
    println!("| slots | annex tables | one pass, ms (ratio) | Audit, empty queue, ms (ratio) | queue words | Audit with them, ms (ratio) | Settle, ms (ratio) | Double, ms (ratio) |");
    println!("|---|---|---|---|---|---|---|---|");
    for (i, row) in rows.iter().enumerate() {
        row.print(i.checked_sub(1).map(|before| &rows[before]));
    }
}
