//! A filter: its record and the words lent to it.

use crate::record::Record;

/// "Main, queue and annex are lent 32-bit words. Each call is lent all three".
#[derive(Clone, Debug, Default, PartialEq, Eq)]
pub struct State {
    pub record: Record,
    pub main: Vec<u32>,
    pub queue: Vec<u32>,
    pub annex: Vec<u32>,
}

impl State {
    /// A state of empty words with an all-zero record, ready for Start.
    pub fn lent(main: usize, queue: usize, annex: usize) -> State {
        State {
            record: Record::default(),
            main: vec![0; main],
            queue: vec![0; queue],
            annex: vec![0; annex],
        }
    }

    /// False exactly if number 3 holds for a record in range: "main is not 2^k
    /// words [...], queue or annex shorter than the record uses".
    pub fn lengths_fit(&self) -> bool {
        self.main.len() == 1 << self.record.k
            && self.queue.len() >= self.record.queue_length as usize
            && self.annex.len() >= self.record.annex_words()
    }

    /// The queue words in use; those past the queue length are not read.
    pub fn queue_words(&self) -> &[u32] {
        &self.queue[..self.record.queue_length as usize]
    }

    /// "the queue is full (its length is 2^20 or the number of words lent)".
    pub fn queue_is_full(&self) -> bool {
        let length = self.record.queue_length;
        length == crate::numbers::LONGEST_QUEUE || length as usize == self.queue.len()
    }

    /// "the queue gains" a word.
    pub fn push_queue_word(&mut self, word: u32) {
        self.queue[self.record.queue_length as usize] = word;
        self.record.queue_length += 1;
    }
}
