//! Times of queries.

use crate::bloom::Bloom;
use crate::clock::nanoseconds;
use crate::filled::{address, Filled, W};
use crate::ordinary::{self, Words};
use crate::ordinary_call;
use crate::session::{query_bytes, Session};
use crate::timing::{rounds, Row};
use std::hint::black_box;

/// Nanoseconds a question over one pass. `yes` is how many are answered so, if that is known.
fn pass(hashes: &[u64], yes: Option<usize>, mut ask: impl FnMut(u64) -> bool) -> f64 {
    let mut count = 0;
    let began = nanoseconds();
    for &hash in hashes {
        count += usize::from(ask(hash));
    }
    let spent = nanoseconds() - began;
    assert!(
        yes.is_none_or(|yes| yes == count),
        "{count} are answered yes"
    );
    spent as f64 / hashes.len() as f64
}

/// The rows of one table.
pub fn rows(table: &Filled, load: &'static str) -> Vec<Row> {
    let session = &mut Session::new(table.k, table.held.len(), &table.words);
    let bloom = &mut Bloom::new(table.held.len(), table.rate);
    for &hash in &table.held {
        bloom.add(hash);
    }
    let hits = (&table.hits[..], Some(table.hits.len()));
    let misses = (&table.misses[..], Some(0));
    vec![
        words_row("hit, words", table, load, hits, session, bloom),
        bytes_row("hit, bytes", table, load, hits, bloom),
        words_row("miss, words", table, load, misses, session, bloom),
        bytes_row("miss, bytes", table, load, misses, bloom),
    ]
}

type Asked<'a> = (&'a [u64], Option<usize>);

fn words_row(
    call: &'static str,
    table: &Filled,
    load: &'static str,
    (hashes, yes): Asked,
    session: &mut Session,
    bloom: &mut Bloom,
) -> Row {
    let (words, k) = (&table.words[..], table.k);
    let agree = |&hash: &u64| ordinary::first(words, k, W, hash) == probe::first(words, k, W, hash);
    assert!(hashes.iter().all(agree), "the answers differ");
    let w = black_box(W);
    let theirs = session.clone();
    let (filter, lent) = theirs.parts();
    let rounds = rounds([
        Some(&mut || {
            pass(hashes, yes, |hash| {
                ordinary::first(words, k, w, hash).is_some()
            })
        }),
        Some(&mut || {
            pass(hashes, yes, |hash| {
                probe::first(words, k, w, hash).is_some()
            })
        }),
        Some(&mut || {
            pass(hashes, yes, |hash| {
                ordinary_call::query(filter, lent, hash) == 1
            })
        }),
        Some(&mut || pass(hashes, yes, |hash| session.query(hash))),
        Some(&mut || pass(hashes, found(yes), |hash| bloom.has(hash))),
        Some(&mut || pass(hashes, None, read(words, k))),
    ]);
    Row::new(call, (k, load), &rounds, Some)
}

fn bytes_row(
    call: &'static str,
    table: &Filled,
    load: &'static str,
    (hashes, yes): Asked,
    bloom: &mut Bloom,
) -> Row {
    let (bytes, k) = (&table.bytes[..], table.k);
    let w = black_box(W);
    let rounds = rounds([
        Some(&mut || {
            pass(hashes, yes, |hash| {
                ordinary::first_bytes(bytes, k, w, hash).is_some()
            })
        }),
        Some(&mut || {
            pass(hashes, yes, |hash| {
                probe::first_bytes(bytes, k, w, hash).is_some()
            })
        }),
        Some(&mut || {
            pass(hashes, yes, |hash| {
                ordinary_call::query_bytes(k, w, bytes, hash) == 1
            })
        }),
        Some(&mut || pass(hashes, yes, |hash| query_bytes(k, bytes, hash))),
        Some(&mut || pass(hashes, found(yes), |hash| bloom.has(hash))),
        Some(&mut || pass(hashes, None, read(bytes, k))),
    ]);
    Row::new(call, (k, load), &rounds, Some)
}

/// One read of the slot of a hash, which no query can do without. Reads wait for one another no
/// more than queries do.
fn read<T: Words + ?Sized>(words: &T, k: u32) -> impl Fn(u64) -> bool + '_ {
    move |hash| words.word(address(k, hash)) != 0
}

/// libbloom finds what it holds; of the others it may take some for held.
fn found(yes: Option<usize>) -> Option<usize> {
    yes.filter(|&yes| yes > 0)
}
