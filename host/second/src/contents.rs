//! What a sound state decodes to.

use crate::numbers::{ANNEX_WIDTH, SHORTEST_MOTHER_HASH};
use crate::payload::{bits_of, length_of, payload, tombstone, void};
use crate::record::{Place, Record};
use crate::state::State;
use crate::table::Table;

/// The main table and the annex tables as multisets, with the queue words.
#[derive(Clone, Debug, PartialEq, Eq)]
pub struct Contents {
    pub main: Table,
    pub annex: Vec<Table>,
    pub queue: Vec<u32>,
}

impl Contents {
    /// Decodes a state whose numbers 2 and 3 are good; nothing comes back
    /// exactly if the state is not sound.
    pub fn read(state: &State) -> Option<Contents> {
        let record = &state.record;
        let main = Table::decode(&state.main)?;
        let mut annex = Vec::new();
        for (index, place) in record.in_use().iter().enumerate() {
            let offset = record.annex_offset(index);
            let words = &state.annex[offset..offset + (1 << place.size_power)];
            annex.push(Table::decode(words)?);
        }
        let queue = state.queue_words().to_vec();
        let contents = Contents { main, annex, queue };
        contents.is_sound(record).then_some(contents)
    }

    /// Lays every table out again into the state's words. The record must
    /// still name the same annex tables.
    pub fn write(&self, state: &mut State) {
        state.main = self.main.layout();
        self.write_annex(state);
    }

    /// Lays the annex tables out again.
    pub fn write_annex(&self, state: &mut State) {
        for (index, table) in self.annex.iter().enumerate() {
            let offset = state.record.annex_offset(index);
            state.annex[offset..offset + table.slots()].copy_from_slice(&table.layout());
        }
    }

    /// "A state is sound if [...]", once the tables are layouts.
    fn is_sound(&self, record: &Record) -> bool {
        let places = record.in_use().iter().zip(&self.annex);
        main_is_sound(record, &self.main)
            && places
                .into_iter()
                .all(|(p, table)| annex_is_sound(p, table))
            && self.queue_is_sound(record)
            && self.tombstones_are_sound(record)
            && self.voids_are_sound(record)
    }

    /// "queue addresses are below 2^k".
    fn queue_is_sound(&self, record: &Record) -> bool {
        self.queue.iter().all(|word| word / 2 < 1 << record.k)
    }

    /// "each address has as many tombstones as even queue words naming it".
    fn tombstones_are_sound(&self, record: &Record) -> bool {
        let mut even = vec![0; self.main.slots()];
        for word in self.queue.iter().filter(|&word| word % 2 == 0) {
            even[*word as usize / 2] += 1;
        }
        let mark = tombstone(record.width());
        (0..self.main.slots()).all(|c| self.main.count_of(c, mark) == even[c])
    }

    /// "its voids number the mother hashes matching it less the queue words
    /// naming it, or 0 if that is negative".
    fn voids_are_sound(&self, record: &Record) -> bool {
        let mut naming = vec![0; self.main.slots()];
        for word in &self.queue {
            naming[*word as usize / 2] += 1;
        }
        let matching = self.matching_mother_hashes(record);
        let voids = self.voids(record);
        (0..voids.len()).all(|c| voids[c] == matching[c].saturating_sub(naming[c]))
    }

    /// For each address of the main table the number of its void entries.
    pub fn voids(&self, record: &Record) -> Vec<usize> {
        let mark = void(record.width());
        (0..self.main.slots())
            .map(|c| self.main.count_of(c, mark))
            .collect()
    }

    /// For each address of the main table the number of mother hashes "whose b
    /// bits equal the low b bits" of it.
    pub fn matching_mother_hashes(&self, record: &Record) -> Vec<usize> {
        let mut matching = vec![0; self.main.slots()];
        for (place, table) in record.in_use().iter().zip(&self.annex) {
            for mother in mother_hashes(place, table) {
                for address in (mother..matching.len()).step_by(1 << place.length) {
                    matching[address] += 1;
                }
            }
        }
        matching
    }

    /// One queue word of Settle, naming address c: "find the longest stored
    /// mother hash whose b bits equal the low b bits of c. If none, go on.
    /// Otherwise remove it from the annex, and at each other address of the
    /// main table with those low b bits remove one void, if there is one."
    pub fn settle_address(&mut self, record: &Record, c: usize) {
        let lengths = record.in_use().iter().zip(&mut self.annex).rev();
        for (place, table) in lengths {
            let mother = c % (1 << place.length);
            let (slot, entry) = mother_entry(place, mother);
            if table.take(slot, entry) {
                for address in (mother..self.main.slots()).step_by(1 << place.length) {
                    if address != c {
                        self.main.take(address, void(record.width()));
                    }
                }
                return;
            }
        }
    }

    /// Double, for contents without tombstones: "an entry with L of at least 1
    /// gives its lowest bit to become the top bit of its address; a void goes
    /// to both addresses." "Each entry that becomes void stores its new
    /// address, k+1 bits, as a mother hash." The answer is the new main table
    /// and the new mother hashes.
    pub fn doubled(&self, record: &Record) -> (Table, Vec<usize>) {
        let grown = Record {
            k: record.k + 1,
            ..*record
        };
        let (old_width, new_width) = (record.width(), grown.width());
        let mut main = Table::empty(grown.k);
        let mut mothers = Vec::new();
        for (slot, entry) in self.main.all() {
            let length = length_of(old_width, entry).expect("no tombstones");
            if length == 0 {
                main.add(slot, void(new_width));
                main.add(slot + self.main.slots(), void(new_width));
                continue;
            }
            let bits = bits_of(length, entry);
            let address = slot + (bits % 2) as usize * self.main.slots();
            main.add(address, payload(new_width, length - 1, bits / 2));
            if length == 1 {
                mothers.push(address);
            }
        }
        (main, mothers)
    }
}

/// "main payloads below 2^W with k+L at least 6 for every entry with bits" and
/// "with correct counts".
fn main_is_sound(record: &Record, main: &Table) -> bool {
    let width = record.width();
    main.entries() == record.used as usize
        && main.all().all(|(_, entry)| {
            entry <= tombstone(width)
                && match length_of(width, entry) {
                    None | Some(0) => true,
                    Some(length) => record.k + length >= SHORTEST_MOTHER_HASH,
                }
        })
}

/// "annex payloads all of length b-s, with correct counts".
fn annex_is_sound(place: &Place, table: &Table) -> bool {
    let length = place.length - place.size_power;
    table.entries() == place.count as usize
        && table.all().all(|(_, entry)| {
            entry <= tombstone(ANNEX_WIDTH) && length_of(ANNEX_WIDTH, entry) == Some(length)
        })
}

/// Where and as which payload a mother hash of b bits is stored: "laid out as
/// above with payload width 18 and fingerprint length b-s".
pub fn mother_entry(place: &Place, mother: usize) -> (usize, u32) {
    let slot = mother % (1 << place.size_power);
    let bits = (mother >> place.size_power) as u64;
    let length = place.length - place.size_power;
    (slot, payload(ANNEX_WIDTH, length, bits))
}

/// The mother hashes stored in an annex table.
pub fn mother_hashes(place: &Place, table: &Table) -> Vec<usize> {
    let length = place.length - place.size_power;
    let entries = table.all();
    entries
        .map(|(slot, entry)| slot + ((bits_of(length, entry) as usize) << place.size_power))
        .collect()
}
