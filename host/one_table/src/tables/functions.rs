//! The functions of one table under comparison.

use super::history::{Answer, Shape, Step};
use crate::lent::Lent;
use second::payload::void;

/// Tests put a faulty one in a proved one's place.
pub struct Functions {
    pub insert: fn(&mut [u32], usize, u32),
    pub remove: fn(&mut [u32], usize, u32) -> bool,
    pub raise_last: fn(&mut [u32], usize, u32) -> bool,
    pub exchange: fn(&mut [u32], usize, u32, u32) -> bool,
    pub first: fn(&[u32], u32, u32, u64) -> Option<u32>,
    pub first_bytes: fn(&[u8], u32, u32, u64) -> Option<u32>,
}

pub const PROVED: Functions = Functions {
    insert: probe::insert,
    remove: probe::remove,
    raise_last: probe::raise_last,
    exchange: probe::exchange,
    first: probe::first,
    first_bytes: probe::first_bytes,
};

impl Functions {
    pub fn make(&self, shape: Shape, words: &mut [u32], step: Step) -> Answer {
        match step {
            Step::Insert { c, x } => {
                (self.insert)(words, c, x);
                Answer::Done(true)
            }
            Step::Remove { c, x } => Answer::Done((self.remove)(words, c, x)),
            Step::Raise { c } => Answer::Done((self.raise_last)(words, c, void(shape.width))),
            Step::Exchange { c, x, y } => Answer::Done((self.exchange)(words, c, x, y)),
            Step::First { hash } => {
                let in_words = (self.first)(words, shape.power, shape.width, hash);
                self.first_of_bytes(shape, words, hash)
                    .map_or(Answer::Wrote, |in_bytes| Answer::First(in_words, in_bytes))
            }
        }
    }

    /// The walk on the words as bytes; nothing if it wrote.
    fn first_of_bytes(&self, shape: Shape, words: &[u32], hash: u64) -> Option<Option<u32>> {
        let bytes: Vec<u8> = words.iter().flat_map(|word| word.to_le_bytes()).collect();
        let lent = Lent::new(&bytes);
        let first = (self.first_bytes)(lent.part(), shape.power, shape.width, hash);
        (lent.is_guarded() && lent.part() == bytes).then_some(first)
    }
}
