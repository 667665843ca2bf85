//! What a picture of a state shows, before it is drawn: the slots in rows, each with its bits, its entry and the run it belongs to.

use crate::play::Played;
use second::contents::mother_hashes;
use second::numbers::ANNEX_WIDTH;
use second::payload::{bits_of, canonical_slot, length_of, CONTINUATION, OCCUPIED, SHIFTED};
use second::{Place, State, Table};
use std::collections::VecDeque;

/// The slots of a row.
pub const ROW: usize = 8;
/// A table of up to so many slots is shown whole.
const SHOWN_WHOLE: usize = 32;
/// Of a longer one at most so many rows are shown.
const MOST_ROWS: usize = 24;
/// Of the queue at most so many words are shown.
const MOST_QUEUED: usize = 24;

/// What is stored in a slot.
#[derive(Clone, Debug, PartialEq, Eq)]
pub enum Entry {
    Bits(String),
    Void,
    Tombstone,
    /// A payload that is not below 2^W: no sound table has it.
    TooLarge,
}

/// One slot: its word, its entry, the address of the run that the entry belongs to (none where the
/// words tell none), and for an occupied address the slot where its run starts.
#[derive(Clone, Debug)]
pub struct Slot {
    pub address: usize,
    pub word: u32,
    pub entry: Option<Entry>,
    pub owner: Option<usize>,
    pub start: Option<usize>,
    /// The run goes on in the next slot.
    pub goes_on: bool,
    pub note: String,
}

impl Slot {
    pub fn is_occupied(&self) -> bool {
        self.word & OCCUPIED != 0
    }

    pub fn is_shifted(&self) -> bool {
        self.word & SHIFTED != 0
    }

    pub fn is_continuation(&self) -> bool {
        self.word & CONTINUATION != 0
    }
}

/// A row of slots, or slots that are left out.
pub enum Row {
    Slots(Vec<Slot>),
    Gap { from: usize, to: usize, used: usize },
}

/// One table.
pub struct Grid {
    pub title: String,
    pub slots: usize,
    pub rows: Vec<Row>,
}

/// Everything that is shown of one state.
pub struct Picture {
    pub heading: String,
    pub numbers: String,
    pub grids: Vec<Grid>,
    pub queue: Vec<String>,
}

/// The entry of a word in a table with payloads of width W.
pub fn entry_of(word: u32, width: u32) -> Option<Entry> {
    let payload = word / 8;
    if word == 0 {
        return None;
    }
    if payload >> width != 0 {
        return Some(Entry::TooLarge);
    }
    Some(match length_of(width, payload) {
        None => Entry::Tombstone,
        Some(0) => Entry::Void,
        Some(length) => {
            let digits = length as usize;
            Entry::Bits(format!("{:0digits$b}", bits_of(length, payload)))
        }
    })
}

/// For each slot the address of its entry's run. Seen from an empty slot on, runs come in the order
/// of their addresses. This reads words that are no layout too, as far as they can be read.
fn owners(words: &[u32]) -> Vec<Option<usize>> {
    let mut found = vec![None; words.len()];
    let empty = words.iter().position(|&word| word == 0);
    let first = empty.unwrap_or_default();
    let mut waiting = VecDeque::new();
    let mut current = None;
    for step in 0..words.len() {
        let slot = (first + step) % words.len();
        let word = words[slot];
        if word & OCCUPIED != 0 {
            waiting.push_back(slot);
        }
        if word == 0 {
            waiting.clear();
            current = None;
        } else if word & CONTINUATION == 0 {
            current = waiting.pop_front();
        }
        found[slot] = current;
    }
    found
}

/// Every slot of a table.
fn slots_of(words: &[u32], width: u32) -> Vec<Slot> {
    let owners = owners(words);
    let mut starts = vec![None; words.len()];
    for (slot, owner) in owners.iter().enumerate() {
        if let (Some(address), 0) = (owner, words[slot] & CONTINUATION) {
            starts[*address] = Some(slot);
        }
    }
    let slot = |address: usize| {
        let next = (address + 1) % words.len();
        Slot {
            address,
            word: words[address],
            entry: entry_of(words[address], width),
            owner: owners[address],
            start: starts[address],
            goes_on: words[next] & CONTINUATION != 0 && words[address] != 0,
            note: String::new(),
        }
    };
    (0..words.len()).map(slot).collect()
}

/// The rows that are shown: all of a short table; of a long one those that are not empty or are shown
/// beside it, and of very many the ones nearest to the slot that the call is about.
fn shown_rows(words: &[u32], beside: &[&[u32]], focus: usize) -> Vec<usize> {
    let count = words.len() / ROW;
    let in_use = |table: &[u32], row: usize| {
        let mut slots = table[row * ROW..(row + 1) * ROW].iter();
        slots.any(|&word| word != 0)
    };
    let used = |&row: &usize| in_use(words, row) || beside.iter().any(|table| in_use(table, row));
    let mut rows: Vec<usize> = (0..count).collect();
    if words.len() > SHOWN_WHOLE {
        rows.retain(used);
    }
    let away = |row: &usize| {
        let apart = row.abs_diff(focus / ROW);
        apart.min(count - apart)
    };
    if rows.len() > MOST_ROWS {
        rows.sort_by_key(away);
        rows.truncate(MOST_ROWS);
        rows.sort_unstable();
    }
    rows
}

/// The slots from one address up to another, which are not shown.
fn gap(words: &[u32], from: usize, to: usize) -> Option<Row> {
    if from >= to {
        return None;
    }
    let used = words[from..to].iter().filter(|&&word| word != 0).count();
    let to = to - 1;
    Some(Row::Gap { from, to, used })
}

/// One table with its rows and gaps.
fn grid(title: String, words: &[u32], width: u32, shown: &[usize]) -> Grid {
    let slots = slots_of(words, width);
    let mut rows = Vec::new();
    let mut next = 0;
    for &row in shown {
        rows.extend(gap(words, next, row * ROW));
        next = (row + 1) * ROW;
        rows.push(Row::Slots(slots[row * ROW..next].to_vec()));
    }
    rows.extend(gap(words, next, words.len()));
    let slots = words.len();
    Grid { title, slots, rows }
}

/// The annex table of one place, each entry with its mother hash.
fn annex_grid(state: &State, index: usize, hash: u64) -> Grid {
    let place = state.record.in_use()[index];
    let from = state.record.annex_offset(index);
    let words = &state.annex[from..from + (1 << place.size_power)];
    let (b, n, count) = (place.length, words.len(), place.count);
    let title = format!(
        "annex table {}: mother hashes of {b} bits, {n} slots, {count} stored",
        index + 1
    );
    let shown = shown_rows(words, &[], canonical_slot(hash, place.size_power));
    let mut grid = grid(title, words, ANNEX_WIDTH, &shown);
    for row in &mut grid.rows {
        if let Row::Slots(slots) = row {
            slots.iter_mut().for_each(|slot| note_hash(slot, &place));
        }
    }
    grid
}

/// The mother hash of an annex entry that can be read.
fn note_hash(slot: &mut Slot, place: &Place) {
    let (Some(owner), Some(Entry::Bits(_))) = (slot.owner, &slot.entry) else {
        return;
    };
    let mut alone = Table::empty(place.size_power);
    alone.add(owner, slot.word / 8);
    slot.note = format!("hash {}", mother_hashes(place, &alone)[0]);
}

/// A queue word and what it asks for.
fn queue_text(word: u32) -> String {
    let kind = if word % 2 == 0 {
        "delete"
    } else {
        "rejuvenate"
    };
    format!("{word} ({kind} at {})", word / 2)
}

/// The queue words in use.
fn queue_of(state: &State) -> Vec<String> {
    let count = (state.record.queue_length as usize).min(state.queue.len());
    let mut shown: Vec<String> = state.queue[..count]
        .iter()
        .take(MOST_QUEUED)
        .map(|&word| queue_text(word))
        .collect();
    if count > MOST_QUEUED {
        shown.push(format!("and {} more", count - MOST_QUEUED));
    }
    shown
}

/// The numbers of the record.
fn numbers_of(state: &State) -> String {
    let r = &state.record;
    format!(
        "k {}, W {}, used {}, queue length {}, annex tables {}",
        r.k,
        r.width(),
        r.used,
        r.queue_length,
        r.in_use().len()
    )
}

/// The picture of what a call left, which shows the rows of the states beside it too. A record out of range tells no table, and none is shown.
pub fn picture(played: &Played, beside: &[&State]) -> Picture {
    let state = &played.state;
    let heading = played.heading();
    if !state.record.in_range() || !state.lengths_fit() {
        let numbers = String::from("record and lent words do not fit each other: nothing to show");
        let (grids, queue) = (Vec::new(), Vec::new());
        return Picture {
            heading,
            numbers,
            grids,
            queue,
        };
    }
    let hash = played.hash().unwrap_or_default();
    let focus = canonical_slot(hash, state.record.k);
    let title = format!("main table: {} slots", state.main.len());
    let mains = beside.iter().map(|other| &other.main[..]);
    let alike: Vec<&[u32]> = mains
        .filter(|main| main.len() == state.main.len())
        .collect();
    let shown = shown_rows(&state.main, &alike, focus);
    let mut grids = vec![grid(title, &state.main, state.record.width(), &shown)];
    for index in 0..state.record.in_use().len() {
        grids.push(annex_grid(state, index, hash));
    }
    Picture {
        heading,
        numbers: numbers_of(state),
        grids,
        queue: queue_of(state),
    }
}

#[cfg(test)]
mod tests {
    use super::*;

    #[test]
    fn a_run_over_the_seam_has_its_owner() {
        let owners = owners(&[4, 0, 0, 0, 17, 47, 12, 63]);
        let run = |address| Some(address);
        assert_eq!(owners[4..], [run(4), run(4), run(5), run(5)]);
        assert_eq!(owners[..4], [run(7), None, None, None]);
    }

    #[test]
    fn entries_are_told_apart() {
        assert_eq!(entry_of(0, 4), None);
        assert_eq!(entry_of(1, 4), Some(Entry::Bits(String::from("000"))));
        assert_eq!(entry_of(73, 4), Some(Entry::Bits(String::from("01"))));
        assert_eq!(entry_of(113, 4), Some(Entry::Void));
        assert_eq!(entry_of(121, 4), Some(Entry::Tombstone));
        assert_eq!(entry_of(129, 4), Some(Entry::TooLarge));
    }

    #[test]
    fn a_long_table_shows_few_rows() {
        let mut words = vec![0; 1 << 12];
        assert!(shown_rows(&words, &[], 0).is_empty());
        words[4095] = 9;
        assert_eq!(shown_rows(&words, &[], 0), [511]);
        assert_eq!(shown_rows(&[0; 1 << 12], &[&words], 0), [511]);
        let words = vec![9; 1 << 12];
        let rows = shown_rows(&words, &[], 0);
        assert_eq!(rows.len(), MOST_ROWS);
        assert!(rows.contains(&0) && rows.contains(&511));
    }
}
