//! A history on the proved functions and on the second program at once.

use super::functions::Functions;
use super::history::{Answer, History, Step};
use super::model::Model;
use crate::lent::Lent;
use second::payload::{CONTINUATION, SHIFTED};
use second::Table;

/// Where the two part: the words of each side.
pub struct Difference {
    pub what: &'static str,
    pub proved: Vec<u32>,
    pub second: Vec<u32>,
}

/// What kinds of tables a history came through.
#[derive(Default)]
pub struct Seen {
    pub full: bool,
    pub most_runs: usize,
    pub wraps: bool,
}

impl Seen {
    fn look(&mut self, model: &Model, words: &[u32]) {
        self.full |= model.is_full();
        self.most_runs = self.most_runs.max(most_runs(words));
        self.wraps |= words[0] & SHIFTED != 0;
    }
}

/// The most runs in one cluster, of those that do not go over the end.
fn most_runs(words: &[u32]) -> usize {
    let (mut most, mut runs) = (0, 0);
    for word in words {
        if word & SHIFTED == 0 {
            runs = 0;
        }
        runs += usize::from(*word != 0 && word & CONTINUATION == 0);
        most = most.max(runs);
    }
    most
}

/// What is compared after a step, each kind with those before it.
#[derive(Clone, Copy, PartialEq, PartialOrd)]
enum Depth {
    Answer,
    Words,
    Decoding,
}

/// Answers and guards are compared at each step, all words after every `stride` steps, and what
/// they decode to after every four times as many.
fn depth(history: &History, index: usize, stride: usize) -> Depth {
    let last = index + 1 == history.steps.len();
    if last || index % (4 * stride) == 0 {
        Depth::Decoding
    } else if index % stride == 0 {
        Depth::Words
    } else {
        Depth::Answer
    }
}

pub fn replay(functions: &Functions, history: &History, stride: usize) -> Result<Seen, Difference> {
    let mut model = Model::empty(history.shape);
    let mut lent = Lent::new(&model.table.layout());
    let mut seen = Seen::default();
    for (index, &step) in history.steps.iter().enumerate() {
        let expected = model.make(step);
        let mut answer = expected;
        if made(step, expected) {
            answer = functions.make(history.shape, lent.part_mut(), step);
        }
        let depth = depth(history, index, stride);
        if let Some(what) = fault(&model.table, &lent, answer == expected, depth) {
            return Err(Difference {
                what,
                proved: lent.part().to_vec(),
                second: model.table.layout(),
            });
        }
        if depth > Depth::Answer {
            seen.look(&model, lent.part());
        }
    }
    Ok(seen)
}

/// An insert that the second program does not make is made by neither.
fn made(step: Step, expected: Answer) -> bool {
    !matches!((step, expected), (Step::Insert { .. }, Answer::Done(false)))
}

fn fault(table: &Table, lent: &Lent<u32>, answered: bool, depth: Depth) -> Option<&'static str> {
    if !answered {
        Some("the answers differ")
    } else if !lent.is_guarded() {
        Some("a word outside is changed")
    } else if depth >= Depth::Words && lent.part() != table.layout() {
        Some("the words differ")
    } else if depth >= Depth::Decoding && Table::decode(lent.part()).as_ref() != Some(table) {
        Some("the words do not decode to the table")
    } else {
        None
    }
}
