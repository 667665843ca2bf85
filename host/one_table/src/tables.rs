//! One table: histories of changes and walks, and damaged words.

mod damaged;
mod functions;
mod history;
mod model;
mod replay;

use crate::tally::Tally;
use functions::{Functions, PROVED};
use history::{History, Shape};
use model::Model;
use replay::replay;
use second::numbers::{LARGEST_WIDTH, SMALLEST_WIDTH};
use second::random::Random;
use std::fmt::Write;

/// Tables of 2^3 to 2^12 slots.
const POWERS: std::ops::RangeInclusive<u32> = 3..=12;

/// One round: small tables many times, the largest once.
pub fn round(seed: u64, tally: &mut Tally) {
    let mut random = Random::new(seed);
    for power in POWERS {
        let widths = u64::from(LARGEST_WIDTH - SMALLEST_WIDTH + 1);
        for index in 0..(1024u64 >> power).max(1) {
            let width = SMALLEST_WIDTH + (seed.wrapping_add(index) % widths) as u32;
            let history = History::random(&mut random, Shape { power, width });
            one_history(&PROVED, &history, seed, tally);
        }
        for _ in 0..(16384u64 >> power).max(16) {
            damaged::one_table(&PROVED, &mut random, power, seed, tally);
        }
    }
}

/// Large tables are looked at as a whole after every few steps, small ones after each.
fn stride(power: u32) -> usize {
    1 << power.saturating_sub(6)
}

fn one_history(functions: &Functions, history: &History, seed: u64, tally: &mut Tally) {
    tally.count("tables: histories", 1);
    tally.count("tables: steps", history.steps.len());
    match replay(functions, history, stride(history.shape.power)) {
        Ok(seen) => {
            tally.pass();
            tally.count(
                "tables: histories that reach the limit",
                usize::from(seen.full),
            );
            tally.count("tables: histories that wrap", usize::from(seen.wraps));
            tally.most("tables: most runs in one cluster", seen.most_runs);
        }
        Err(_) => tally.fail(|| tell(functions, history, seed)),
    }
}

/// The smallest history found that still differs, in words.
fn tell(functions: &Functions, history: &History, seed: u64) -> String {
    let differs = |shorter: &History| replay(functions, shorter, 1).is_err();
    let least = history.shrunk(differs);
    let Shape { power, width } = least.shape;
    let mut text = format!("tables: a difference at seed {seed}: 2^{power} slots, width {width}\n");
    for step in &least.steps {
        let _ = writeln!(text, "  {step:?}");
    }
    if let Err(difference) = replay(functions, &least, 1) {
        let before = &least.steps[..least.steps.len() - 1];
        let before = Model::after(least.shape, before).table.layout();
        let _ = writeln!(text, "  {}", difference.what);
        let _ = writeln!(text, "  before: {}", words_shown(&before));
        let _ = writeln!(text, "  proved: {}", words_shown(&difference.proved));
        let _ = writeln!(text, "  second: {}", words_shown(&difference.second));
    }
    text
}

/// All words of a small table, the used slots of a large one.
fn words_shown(words: &[u32]) -> String {
    if words.len() <= 32 {
        return words.iter().map(|word| format!("{word} ")).collect();
    }
    let numbered = words.iter().enumerate();
    let used = numbered.filter(|(_, &word)| word != 0);
    used.map(|(slot, word)| format!("{slot}:{word} ")).collect()
}

#[cfg(test)]
mod tests {
    use super::*;
    use functions::Functions;
    use history::Step;

    /// The least history on which faulty functions differ.
    fn least_difference(functions: &Functions) -> History {
        let mut random = Random::new(1);
        let width = 4;
        let differs = |history: &History| replay(functions, history, 1).is_err();
        let found = (0..500)
            .map(|round| 3 + round % 3)
            .map(|power| History::random(&mut random, Shape { power, width }))
            .find(differs)
            .expect("the fault is found");
        found.shrunk(differs)
    }

    #[test]
    fn a_lost_wrap_is_found_and_shrunk() {
        let insert = |words: &mut [u32], c: usize, x: u32| {
            probe::insert(words, c, x);
            if words[0] & 4 != 0 {
                words[0] = 0;
            }
        };
        let least = least_difference(&Functions { insert, ..PROVED });
        assert!(least.steps.len() <= 6, "few entries near the end wrap");
    }

    #[test]
    fn a_matching_tombstone_is_found_and_shrunk() {
        let first = |words: &[u32], k: u32, w: u32, hash: u64| {
            let c = second::payload::canonical_slot(hash, k);
            let first = probe::first(words, k, w, hash);
            first.or((words[c] == ((1 << w) - 1) * 8 + 1).then_some((1 << w) - 1))
        };
        let least = least_difference(&Functions { first, ..PROVED });
        assert_eq!(least.steps.len(), 2, "a tombstone and a walk");
        assert!(matches!(least.steps[1], Step::First { .. }));
    }

    #[test]
    fn a_removal_without_an_answer_is_found_and_shrunk() {
        let remove = |words: &mut [u32], c: usize, x: u32| {
            probe::remove(words, c, x);
            false
        };
        let faulty = Functions { remove, ..PROVED };
        let least = least_difference(&faulty);
        assert_eq!(least.steps.len(), 2, "an insert and a removal");
        assert!(tell(&faulty, &least, 1).contains("the answers differ"));
    }
}
