//! The second program's side: its table under the steps of a history.

use super::history::{Answer, Shape, Step};
use second::numbers::load_limit;
use second::payload::{canonical_slot, match_length, tombstone, void};
use second::Table;

pub struct Model {
    pub shape: Shape,
    pub table: Table,
    /// The number of entries, so that it is not counted at each step.
    pub used: usize,
}

impl Model {
    pub fn empty(shape: Shape) -> Model {
        Model {
            shape,
            table: Table::empty(shape.power),
            used: 0,
        }
    }

    pub fn after(shape: Shape, steps: &[Step]) -> Model {
        let mut model = Model::empty(shape);
        for &step in steps {
            model.make(step);
        }
        model
    }

    pub fn is_full(&self) -> bool {
        self.used == load_limit(self.shape.power) as usize
    }

    /// An insert at the load limit is not made.
    pub fn make(&mut self, step: Step) -> Answer {
        let Shape { power, width } = self.shape;
        match step {
            Step::Insert { c, x } => Answer::Done(self.insert(c, x)),
            Step::Remove { c, x } => Answer::Done(self.remove(c, x)),
            Step::Raise { c } => Answer::Done(self.exchange(c, void(width), tombstone(width))),
            Step::Exchange { c, x, y } => Answer::Done(self.exchange(c, x, y)),
            Step::First { hash } => {
                let run = self.table.run(canonical_slot(hash, power));
                let matches = |x: &u32| match_length(width, *x, hash, power).is_some();
                let first = run.iter().copied().find(matches);
                Answer::First(first, first)
            }
        }
    }

    fn insert(&mut self, c: usize, x: u32) -> bool {
        let fits = !self.is_full();
        if fits {
            self.table.add(c, x);
            self.used += 1;
        }
        fits
    }

    fn remove(&mut self, c: usize, x: u32) -> bool {
        let there = self.table.take(c, x);
        self.used -= usize::from(there);
        there
    }

    fn exchange(&mut self, c: usize, x: u32, y: u32) -> bool {
        let there = self.table.take(c, x);
        if there {
            self.table.add(c, y);
        }
        there
    }
}
