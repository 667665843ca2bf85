//! Words that are no layout: a call ends, stays inside, and changes nothing where it answers no.

use super::functions::Functions;
use super::history::{some_hash, Answer, Shape, Step};
use super::words_shown;
use crate::lent::Lent;
use crate::tally::Tally;
use second::numbers::{load_limit, LARGEST_WIDTH, SMALLEST_WIDTH};
use second::random::Random;
use second::Table;

/// Words of any number from 2 on, and one call on them.
struct Damaged {
    shape: Shape,
    words: Vec<u32>,
    step: Step,
}

impl Damaged {
    fn random(random: &mut Random, power: u32) -> Damaged {
        let mut words = if random.chance(1, 3) {
            random_words(random, 1 << power)
        } else {
            nearly_a_table(random, power)
        };
        if random.chance(1, 3) {
            words.truncate(random.between(2, 1 << power) as usize);
        }
        let any_width = random.between(SMALLEST_WIDTH, LARGEST_WIDTH);
        let width = random.one_of(&[SMALLEST_WIDTH, any_width]);
        let shape = Shape { power, width };
        let step = some_step(random, shape, &words);
        Damaged { shape, words, step }
    }

    fn passes(&self, functions: &Functions) -> bool {
        let mut lent = Lent::new(&self.words);
        let answer = functions.make(self.shape, lent.part_mut(), self.step);
        let kept = lent.part() == self.words;
        lent.is_guarded()
            && match answer {
                Answer::Done(done) => done || kept,
                Answer::First(in_words, in_bytes) => kept && in_words == in_bytes,
                Answer::Wrote => false,
            }
    }

    /// Empties slots as long as the call still fails.
    fn shrunk(mut self, functions: &Functions) -> Damaged {
        for slot in 0..self.words.len() {
            let word = std::mem::take(&mut self.words[slot]);
            if self.passes(functions) {
                self.words[slot] = word;
            }
        }
        self
    }
}

/// Few or many empty words, small ones, shifted ones, and any.
fn random_words(random: &mut Random, slots: usize) -> Vec<u32> {
    let empty = random.one_of(&[0, 1, 4, 8]);
    let word = |_| match random.below(12) {
        kind if kind < empty => 0,
        0..=4 => random.below(64),
        5..=8 => 4 + random.below(4),
        _ => random.bits() as u32,
    };
    (0..slots).map(word).collect()
}

/// A layout in which one to four words are changed.
fn nearly_a_table(random: &mut Random, power: u32) -> Vec<u32> {
    let slots = 1 << power;
    let (base, spread) = (random.below(slots), random.between(1, slots));
    let mut table = Table::empty(power);
    for _ in 0..random.between(0, load_limit(power)) {
        let slot = (base + random.below(spread)) % slots;
        table.add(slot as usize, random.below(16));
    }
    let mut words = table.layout();
    for _ in 0..random.between(1, 4) {
        let any = random.bits() as u32;
        let slot = random.below(slots) as usize;
        words[slot] ^= random.one_of(&[1, 2, 4, 5, 6, 7, 8, any]);
    }
    words
}

fn some_step(random: &mut Random, shape: Shape, words: &[u32]) -> Step {
    let slots = words.len() as u32;
    let c = random.below(slots) as usize;
    let near = (c + random.below(4) as usize) % words.len();
    let (x, y) = (words[near] / 8, random.below(1 << shape.width));
    match random.below(5) {
        0 => Step::Insert { c, x },
        1 => Step::Remove { c, x },
        2 => Step::Raise { c },
        3 => Step::Exchange { c, x, y },
        _ => Step::First {
            hash: some_hash(random, shape, c, x & ((1 << shape.width) - 1)),
        },
    }
}

pub fn one_table(
    functions: &Functions,
    random: &mut Random,
    power: u32,
    seed: u64,
    tally: &mut Tally,
) {
    let damaged = Damaged::random(random, power);
    tally.count("tables: calls on damaged words", 1);
    if damaged.passes(functions) {
        tally.pass();
        return;
    }
    tally.fail(|| {
        let Damaged { shape, words, step } = damaged.shrunk(functions);
        let shown = words_shown(&words);
        format!("tables: damaged words at seed {seed}: {shape:?} {step:?}\n  {shown}")
    });
}

#[cfg(test)]
mod tests {
    use super::super::functions::PROVED;
    use super::*;

    #[test]
    fn a_change_behind_a_no_is_found_and_shrunk() {
        let remove = |words: &mut [u32], c: usize, x: u32| {
            words[c] &= !1;
            probe::remove(words, c, x)
        };
        let faulty = Functions { remove, ..PROVED };
        let mut random = Random::new(1);
        let found = (0..1000)
            .map(|_| Damaged::random(&mut random, 4))
            .find(|damaged| !damaged.passes(&faulty))
            .expect("the fault is found");
        let least = found.shrunk(&faulty);
        let used = least.words.iter().filter(|&&word| word != 0);
        assert_eq!(used.count(), 1);
    }
}
