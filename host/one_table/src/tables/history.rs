//! Histories of one table, and random ones.

use super::model::Model;
use second::numbers::load_limit;
use second::payload::{bits_of, length_of, tombstone, void};
use second::random::Random;
use second::shrink::shrink;

#[derive(Clone, Copy, Debug)]
pub enum Step {
    Insert {
        c: usize,
        x: u32,
    },
    Remove {
        c: usize,
        x: u32,
    },
    /// The last void entry of the run becomes a tombstone.
    Raise {
        c: usize,
    },
    Exchange {
        c: usize,
        x: u32,
        y: u32,
    },
    First {
        hash: u64,
    },
}

/// What a step answers. The walk is made on words and on bytes.
#[derive(Clone, Copy, PartialEq)]
pub enum Answer {
    Done(bool),
    First(Option<u32>, Option<u32>),
    /// A walk wrote, which none may.
    Wrote,
}

/// The table has 2^power slots, and its payloads have this width.
#[derive(Clone, Copy, Debug)]
pub struct Shape {
    pub power: u32,
    pub width: u32,
}

/// Steps on an empty table.
#[derive(Clone)]
pub struct History {
    pub shape: Shape,
    pub steps: Vec<Step>,
}

impl History {
    /// The shortest history found that still fails.
    pub fn shrunk(&self, fails: impl Fn(&History) -> bool) -> History {
        let of = |steps: &[Step]| History {
            shape: self.shape,
            steps: steps.to_vec(),
        };
        of(&shrink(&self.steps, |steps| fails(&of(steps))))
    }

    /// A table is filled to some load, changed there, and half the time emptied.
    pub fn random(random: &mut Random, shape: Shape) -> History {
        let limit = load_limit(shape.power);
        let most = if random.chance(1, 2) {
            limit
        } else {
            random.between(1, limit)
        };
        let mut writer = Writer::new(random, shape);
        writer.fill(most as usize);
        writer.change();
        if writer.random.chance(1, 2) {
            writer.empty();
        }
        writer.history
    }
}

/// Writes a history, and keeps the table that it leads to.
struct Writer<'a> {
    random: &'a mut Random,
    history: History,
    model: Model,
    base: u32,
    spread: u32,
}

impl Writer<'_> {
    /// The addresses are those of a stretch, which half the time goes over the end of the table.
    fn new(random: &mut Random, shape: Shape) -> Writer<'_> {
        let slots = 1 << shape.power;
        let most_spread = random.one_of(&[4, slots / 4, slots, slots]);
        let spread = random.between(1, most_spread);
        let base = if random.chance(1, 2) {
            slots - random.between(1, spread)
        } else {
            random.below(slots)
        };
        Writer {
            random,
            history: History {
                shape,
                steps: Vec::new(),
            },
            model: Model::empty(shape),
            base,
            spread,
        }
    }

    fn write(&mut self, step: Step) {
        self.model.make(step);
        self.history.steps.push(step);
    }

    fn fill(&mut self, most: usize) {
        while self.model.used < most {
            if self.random.chance(5, 6) {
                self.insert();
            } else {
                self.other();
            }
        }
    }

    fn change(&mut self) {
        for _ in 0..self.model.table.slots() {
            if self.random.chance(1, 3) {
                self.insert();
            } else {
                self.other();
            }
        }
    }

    fn empty(&mut self) {
        while self.model.used > 0 {
            let (c, x) = self.held();
            self.write(Step::Remove { c, x });
        }
    }

    fn insert(&mut self) {
        let (c, x) = (self.address(), self.payload());
        self.write(Step::Insert { c, x });
    }

    /// Any step but an insert, mostly on an entry that is there.
    fn other(&mut self) {
        let (c, x) = if self.model.used > 0 && self.random.chance(5, 6) {
            self.held()
        } else {
            (self.address(), self.payload())
        };
        let step = match self.random.below(6) {
            0 | 1 => Step::Remove { c, x },
            2 => Step::Raise { c },
            3 => Step::Exchange {
                c,
                x,
                y: self.payload(),
            },
            _ => Step::First {
                hash: self.hash(c, x),
            },
        };
        self.write(step);
    }

    fn address(&mut self) -> usize {
        let slot = self.base + self.random.below(self.spread);
        slot as usize % self.model.table.slots()
    }

    /// Often a void, a tombstone or a small number, so that payloads repeat.
    fn payload(&mut self) -> u32 {
        let width = self.history.shape.width;
        match self.random.below(6) {
            0 => tombstone(width),
            1 => void(width),
            2 => self.random.below(4),
            _ => self.random.below(1 << width),
        }
    }

    /// An entry of the first run from some address on.
    fn held(&mut self) -> (usize, u32) {
        let mut c = self.address();
        while self.model.table.run(c).is_empty() {
            c = (c + 1) % self.model.table.slots();
        }
        (c, self.random.one_of(self.model.table.run(c)))
    }

    fn hash(&mut self, c: usize, x: u32) -> u64 {
        some_hash(self.random, self.history.shape, c, x)
    }
}

/// A hash of this address, half the time one that the payload matches.
pub fn some_hash(random: &mut Random, shape: Shape, c: usize, x: u32) -> u64 {
    let mut bits = random.bits();
    if random.chance(1, 2) {
        let length = length_of(shape.width, x).unwrap_or(0);
        bits = bits >> length << length | bits_of(length, x);
    }
    bits << shape.power | c as u64
}
