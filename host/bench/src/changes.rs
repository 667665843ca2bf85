//! Times of changes.

use crate::bloom::Bloom;
use crate::clock::nanoseconds;
use crate::filled::{address, fresh_payload, Filled, BATCH, CALLS};
use crate::ordinary;
use crate::session::Session;
use crate::timing::{rounds, Row};

/// Nanoseconds a call, where it was made.
#[derive(Clone, Copy)]
struct Times {
    insert: f64,
    remove: Option<f64>,
}

/// Nanoseconds that a pass over the hashes takes. Every call has to be done.
fn timed(hashes: &[u64], mut change: impl FnMut(u64) -> bool) -> i64 {
    let mut done = 0;
    let began = nanoseconds();
    for &hash in hashes {
        done += usize::from(change(hash));
    }
    let spent = nanoseconds() - began;
    assert_eq!(done, hashes.len(), "a call was not done");
    spent
}

/// A batch of entries goes and comes back, so the load stays, and at the end the words are those
/// of the beginning.
fn batches<T: ?Sized>(
    on: &mut T,
    orders: &[u64],
    remove: impl Fn(&mut T, u64) -> bool,
    insert: impl Fn(&mut T, u64) -> bool,
) -> Times {
    let (mut removals, mut inserts) = (0, 0);
    for batch in orders.chunks_exact(BATCH).take(CALLS / BATCH) {
        removals += timed(batch, |hash| remove(on, hash));
        inserts += timed(batch, |hash| insert(on, hash));
    }
    Times {
        insert: inserts as f64 / CALLS as f64,
        remove: Some(removals as f64 / CALLS as f64),
    }
}

/// libbloom fills an empty filter with the hashes in each order.
fn fills(bloom: &mut Bloom, table: &Filled) -> Times {
    let mut spent = 0;
    for order in table.orders.chunks_exact(table.order()) {
        bloom.clear();
        spent += timed(order, |hash| {
            bloom.add(hash);
            true
        });
    }
    Times {
        insert: spent as f64 / table.orders.len() as f64,
        remove: None,
    }
}

/// Every hash once on entries that lost a bit, in each order.
fn rejuvenations(session: &mut Session, table: &Filled) -> f64 {
    let mut spent = 0;
    for order in table.orders.chunks_exact(table.order()) {
        session.refill(&table.older);
        spent += timed(order, |hash| session.rejuvenate(hash));
    }
    spent as f64 / table.orders.len() as f64
}

/// The rows of one table.
pub fn rows(table: &Filled, load: &'static str) -> Vec<Row> {
    let (k, held, orders) = (table.k, &table.held[..], &table.orders[..]);
    let of = |hash| (address(k, hash), fresh_payload(k, hash));
    let (mut theirs, mut ours) = (table.words.clone(), table.words.clone());
    let mut session = Session::new(k, held.len(), &table.words);
    let mut bloom = Bloom::new(held.len(), table.rate);
    let ordinary_remove = |on: &mut [u32], hash| ordinary::remove(on, of(hash).0, of(hash).1);
    let ordinary_insert = |on: &mut [u32], hash| {
        ordinary::insert(on, of(hash).0, of(hash).1);
        true
    };
    let proved_remove = |on: &mut [u32], hash| probe::remove(on, of(hash).0, of(hash).1);
    let proved_insert = |on: &mut [u32], hash| {
        probe::insert(on, of(hash).0, of(hash).1);
        true
    };
    let both = rounds([
        Some(&mut || batches(&mut theirs[..], orders, ordinary_remove, ordinary_insert)),
        Some(&mut || batches(&mut ours[..], orders, proved_remove, proved_insert)),
        None,
        Some(&mut || batches(&mut session, orders, Session::delete, Session::insert)),
        Some(&mut || fills(&mut bloom, table)),
        None,
    ]);
    let same = [&theirs[..], &ours, session.main()].map(|words| words == table.words);
    assert_eq!(same, [true; 3], "the words differ");
    vec![
        Row::new("insert", (k, load), &both, |times| Some(times.insert)),
        Row::new("delete", (k, load), &both, |times| times.remove),
        rejuvenate_row(table, load),
    ]
}

fn rejuvenate_row(table: &Filled, load: &'static str) -> Row {
    let mut session = Session::new(table.k, table.held.len(), &table.older);
    let mut call = || rejuvenations(&mut session, table);
    let rounds = rounds([None, None, None, Some(&mut call), None, None]);
    Row::new("rejuvenate", (table.k, load), &rounds, Some)
}
