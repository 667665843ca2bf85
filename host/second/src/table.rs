//! A table as a multiset of canonical slots and payloads, laid out by the
//! carry formula of document 01.

use crate::payload::{CONTINUATION, OCCUPIED, SHIFTED};

/// For each address the payloads of its run, in rising order. "The words
/// follow from the multiset of canonical slots and payloads alone."
#[derive(Clone, Debug, PartialEq, Eq)]
pub struct Table {
    runs: Vec<Vec<u32>>,
}

impl Table {
    /// A table of 2^power slots without entries.
    pub fn empty(power: u32) -> Table {
        Table {
            runs: vec![Vec::new(); 1 << power],
        }
    }

    /// The number of slots.
    pub fn slots(&self) -> usize {
        self.runs.len()
    }

    /// "entries of one canonical slot form a run in rising payload order".
    pub fn run(&self, slot: usize) -> &[u32] {
        &self.runs[slot]
    }

    /// The number of entries, void entries and tombstones included.
    pub fn entries(&self) -> usize {
        self.runs.iter().map(Vec::len).sum()
    }

    /// Every entry as canonical slot and payload.
    pub fn all(&self) -> impl Iterator<Item = (usize, u32)> + '_ {
        let numbered = self.runs.iter().enumerate();
        numbered.flat_map(|(slot, run)| run.iter().map(move |&payload| (slot, payload)))
    }

    /// How often the run of a slot holds a payload.
    pub fn count_of(&self, slot: usize, payload: u32) -> usize {
        self.runs[slot].iter().filter(|&&p| p == payload).count()
    }

    /// Adds one entry.
    pub fn add(&mut self, slot: usize, payload: u32) {
        let place = self.runs[slot].partition_point(|&p| p < payload);
        self.runs[slot].insert(place, payload);
    }

    /// Removes one entry; false if there is none such.
    pub fn take(&mut self, slot: usize, payload: u32) -> bool {
        let found = self.runs[slot].binary_search(&payload);
        if let Ok(place) = found {
            self.runs[slot].remove(place);
        }
        found.is_ok()
    }

    /// Removes all entries with a payload, wherever they are.
    pub fn take_all(&mut self, payload: u32) {
        for run in &mut self.runs {
            run.retain(|&p| p != payload);
        }
    }

    /// "The carry into slot c is the largest value, over j from 0 to 2^k - 1,
    /// of (entries whose canonical slots are among the j slots before c,
    /// counted in a circle) less j." Computed word for word.
    pub fn literal_carry(&self, slot: usize) -> usize {
        let slots = self.slots();
        let mut entries = 0;
        let mut largest = 0;
        for j in 1..slots {
            entries += self.runs[(slot + slots - j) % slots].len();
            largest = largest.max(entries.saturating_sub(j));
        }
        largest
    }

    /// The carry into every slot, by prefix sums over the doubled circle.
    ///
    /// With g(i) the entries of the first i slots less i, the value for j is
    /// g(c) - g(c - j), so the largest is g(c) less the smallest g so far. The
    /// first round fills the minimum, the second reads the carries. For this
    /// the table must not hold more entries than slots.
    pub fn carries(&self) -> Vec<usize> {
        let slots = self.slots();
        assert!(self.entries() <= slots, "more entries than slots");
        let mut carries = vec![0; slots];
        let mut height = 0i64;
        let mut lowest = 0i64;
        for step in 0..2 * slots {
            lowest = lowest.min(height);
            carries[step % slots] = (height - lowest) as usize;
            height += self.runs[step % slots].len() as i64 - 1;
        }
        carries
    }

    /// "The run of c starts at (c + carry) modulo 2^k. All unused slots are
    /// zero." "A slot word is payload times 8, plus 4 if shifted, 2 if
    /// continuation, 1 if occupied."
    pub fn layout(&self) -> Vec<u32> {
        let slots = self.slots();
        let mut words = vec![0; slots];
        for (slot, carry) in self.carries().into_iter().enumerate() {
            for (index, &payload) in self.runs[slot].iter().enumerate() {
                let shifted = if carry + index > 0 { SHIFTED } else { 0 };
                let continuation = if index > 0 { CONTINUATION } else { 0 };
                words[(slot + carry + index) % slots] += payload * 8 + shifted + continuation;
            }
            if !self.runs[slot].is_empty() {
                words[slot] += OCCUPIED;
            }
        }
        words
    }

    /// The table whose layout the words are, if there is one: "Decoding the
    /// table and laying it out again gives the same words."
    ///
    /// Words without an empty slot are above every load limit and are not
    /// decoded.
    pub fn decode(words: &[u32]) -> Option<Table> {
        let table = Table::read_runs(words)?;
        (table.layout() == words).then_some(table)
    }

    /// Seen from an empty slot on, the runs lie in the order of their
    /// addresses: the first run belongs to the first occupied address, and so
    /// on. Whether the runs start where they should is not looked at here.
    fn read_runs(words: &[u32]) -> Option<Table> {
        let empty = words.iter().position(|&word| word == 0)?;
        let mut addresses = Vec::new();
        let mut runs: Vec<Vec<u32>> = Vec::new();
        for step in 1..words.len() {
            let slot = (empty + step) % words.len();
            let word = words[slot];
            if word & OCCUPIED != 0 {
                addresses.push(slot);
            }
            if word & CONTINUATION != 0 {
                runs.last_mut()?.push(word / 8);
            } else if word != 0 {
                runs.push(vec![word / 8]);
            }
        }
        if addresses.len() != runs.len() {
            return None;
        }
        let mut table = Table::empty(words.len().ilog2());
        for (slot, mut run) in addresses.into_iter().zip(runs) {
            run.sort_unstable();
            table.runs[slot] = run;
        }
        Some(table)
    }
}

#[cfg(test)]
mod tests {
    use super::*;
    use crate::random::Random;

    /// Entries spread over a random stretch of the circle.
    fn random_table(random: &mut Random, power: u32, entries: u32) -> Table {
        let slots = 1u32 << power;
        let base = random.below(slots);
        let spread = random.between(1, slots);
        let mut table = Table::empty(power);
        for _ in 0..entries {
            let slot = (base + random.below(spread)) % slots;
            table.add(slot as usize, random.below(16));
        }
        table
    }

    #[test]
    fn literal_carry_is_fast_carry() {
        let mut random = Random::new(1);
        for round in 0..600 {
            let power = 3 + round % 5;
            let entries = random.between(0, 1 << power);
            let table = random_table(&mut random, power, entries);
            let literal: Vec<usize> = (0..table.slots()).map(|c| table.literal_carry(c)).collect();
            assert_eq!(table.carries(), literal);
        }
    }

    #[test]
    fn decode_of_layout_is_the_table() {
        let mut random = Random::new(2);
        let mut wrapped = 0;
        for round in 0..3000 {
            let power = 3 + round % 6;
            let entries = random.between(0, crate::numbers::load_limit(power));
            let table = random_table(&mut random, power, entries);
            wrapped += usize::from(table.carries()[0] > 0);
            assert_eq!(Table::decode(&table.layout()), Some(table));
        }
        assert!(wrapped > 300, "too few tables wrap: {wrapped}");
    }

    #[test]
    fn full_load_limit_round_trip() {
        let mut random = Random::new(3);
        for power in 3..=10 {
            let table = random_table(&mut random, power, crate::numbers::load_limit(power));
            assert_eq!(Table::decode(&table.layout()), Some(table));
        }
    }

    #[test]
    fn low_bits_two_and_three_are_never_a_layout() {
        for low in [2, 3] {
            for slot in 0..8 {
                let mut words = vec![0; 8];
                words[slot] = 8 + low;
                assert_eq!(Table::decode(&words), None);
            }
        }
    }

    #[test]
    fn falling_runs_and_loose_words_are_no_layout() {
        assert!(Table::decode(&[0, 9, 22, 0, 0, 0, 0, 0]).is_some());
        assert_eq!(Table::decode(&[0, 17, 14, 0, 0, 0, 0, 0]), None);
        assert_eq!(Table::decode(&[0, 8, 0, 0, 0, 0, 0, 0]), None);
        assert_eq!(Table::decode(&[0, 12, 0, 0, 0, 0, 0, 0]), None);
        assert_eq!(Table::decode(&[0, 0, 13, 0, 0, 0, 0, 0]), None);
        assert_eq!(Table::decode(&[9; 8]), None);
    }

    /// Every set of words near a layout: whatever decodes lays out to the same
    /// words, and a changed word never decodes to the same table.
    #[test]
    fn damaged_words_never_decode_to_the_old_table() {
        let mut random = Random::new(4);
        for _ in 0..2000 {
            let table = random_table(&mut random, 3, 5);
            let mut words = table.layout();
            let slot = random.below(8) as usize;
            words[slot] ^= 1 << random.below(8);
            assert_ne!(Table::decode(&words), Some(table));
        }
    }
}
