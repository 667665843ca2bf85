//! The calls of document 01, each with its refusals in their order.
//!
//! "A refused call returns its number and the record as given (Start: an
//! all-zero record), and all lent words keep their values."

use crate::contents::{mother_entry, Contents};
use crate::numbers::{
    load_limit, size_power_for, LARGEST_POWER, LARGEST_WIDTH, SMALLEST_POWER, SMALLEST_WIDTH,
};
use crate::payload::{canonical_slot, fingerprint, match_length, payload, tombstone};
use crate::record::{start_numbers_in_range, Place, Record};
use crate::state::State;
use crate::table::Table;

/// "Success is 0; Query answers 0 no, 1 yes."
pub const DONE: u32 = 0;
/// "Query answers 0 no, 1 yes."
pub const YES: u32 = 1;
/// "record out of range".
pub const RECORD_OUT_OF_RANGE: u32 = 2;
/// A slice has the wrong length.
pub const WRONG_LENGTH: u32 = 3;
/// "state not sound".
pub const NOT_SOUND: u32 = 4;
/// "used equals the load limit".
pub const FULL: u32 = 5;
/// "nothing matches".
pub const NO_MATCH: u32 = 6;
/// "the longest match is void and the queue is full".
pub const QUEUE_FULL: u32 = 7;
/// "queue not empty".
pub const QUEUE_NOT_EMPTY: u32 = 8;
/// "k is 20".
pub const LARGEST_ALREADY: u32 = 9;
/// "the new annex table doesn't fit after the tables in use".
pub const NO_ROOM_IN_ANNEX: u32 = 10;
/// "Start's numbers out of range".
pub const START_OUT_OF_RANGE: u32 = 11;

/// The answer of a quick call. Document 01 leaves open what the four quick
/// calls answer "on an unsound state", and the exported Query "on bytes that
/// are no layout of payloads below 2^W within the load limit".
#[derive(Clone, Copy, Debug, PartialEq, Eq)]
pub enum Answer {
    Number(u32),
    Open,
}

/// Numbers 2 and 3, the first tests of every call but Start and Double.
fn refusal(state: &State) -> Option<u32> {
    if !state.record.in_range() {
        Some(RECORD_OUT_OF_RANGE)
    } else if !state.lengths_fit() {
        Some(WRONG_LENGTH)
    } else {
        None
    }
}

/// Start: "11, 3". "Start empties the main table and returns a record with k
/// the start power, used and queue length 0 and no annex tables." Number 3
/// speaks of the main table only.
pub fn start(state: &mut State, start_power: u32, f: u32, regime: u32) -> u32 {
    state.record = Record::default();
    if !start_numbers_in_range(start_power, f, regime) {
        return START_OUT_OF_RANGE;
    }
    if state.main.len() != 1 << start_power {
        return WRONG_LENGTH;
    }
    state.record = Record {
        k: start_power,
        start_power,
        f,
        regime,
        ..Record::default()
    };
    state.main.fill(0);
    DONE
}

/// The longest match of a hash in its run, as L and payload.
pub fn longest_match(main: &Table, width: u32, k: u32, hash: u64) -> Option<(u32, u32)> {
    let run = main.run(canonical_slot(hash, k));
    let matches = run
        .iter()
        .filter_map(|&entry| match_length(width, entry, hash, k).map(|length| (length, entry)));
    matches.max_by_key(|&(length, _)| length)
}

/// Query: "2, 3"; "yes exactly if an entry of the run matches".
pub fn query(state: &State, hash: u64) -> Answer {
    if let Some(number) = refusal(state) {
        return Answer::Number(number);
    }
    let Some(contents) = Contents::read(state) else {
        return Answer::Open;
    };
    let record = &state.record;
    let found = longest_match(&contents.main, record.width(), record.k, hash);
    Answer::Number(u32::from(found.is_some()))
}

/// The payload of a fresh entry of a hash: "Fresh fingerprints have F plus
/// extra bits; W is the fresh length plus 1."
pub fn fresh_payload(record: &Record, hash: u64) -> u32 {
    let length = record.fresh_length();
    payload(record.width(), length, fingerprint(hash, record.k, length))
}

/// Insert: "2, 3, 5"; "adds a fresh entry". Number 5 is decided by the record
/// alone.
pub fn insert(state: &mut State, hash: u64) -> Answer {
    if let Some(number) = refusal(state) {
        return Answer::Number(number);
    }
    if state.record.used == load_limit(state.record.k) {
        return Answer::Number(FULL);
    }
    let Some(mut contents) = Contents::read(state) else {
        return Answer::Open;
    };
    let slot = canonical_slot(hash, state.record.k);
    contents.main.add(slot, fresh_payload(&state.record, hash));
    contents.write(state);
    state.record.used += 1;
    Answer::Number(DONE)
}

/// Delete: "2, 3, 6, 7"; "takes the longest match. One with bits is removed. A
/// void becomes a tombstone and the queue gains canonical slot times 2."
pub fn delete(state: &mut State, hash: u64) -> Answer {
    if let Some(number) = refusal(state) {
        return Answer::Number(number);
    }
    let Some(mut contents) = Contents::read(state) else {
        return Answer::Open;
    };
    let (k, width) = (state.record.k, state.record.width());
    let slot = canonical_slot(hash, k);
    let Some((length, entry)) = longest_match(&contents.main, width, k, hash) else {
        return Answer::Number(NO_MATCH);
    };
    if length == 0 && state.queue_is_full() {
        return Answer::Number(QUEUE_FULL);
    }
    contents.main.take(slot, entry);
    if length == 0 {
        contents.main.add(slot, tombstone(width));
        state.push_queue_word(slot as u32 * 2);
    } else {
        state.record.used -= 1;
    }
    contents.write(state);
    Answer::Number(DONE)
}

/// Rejuvenate: "2, 3, 6, 7"; "the longest match, if shorter than the fresh
/// length, becomes a fresh entry of this hash; otherwise nothing changes. If
/// it was void, the queue gains canonical slot times 2, plus 1."
pub fn rejuvenate(state: &mut State, hash: u64) -> Answer {
    if let Some(number) = refusal(state) {
        return Answer::Number(number);
    }
    let Some(mut contents) = Contents::read(state) else {
        return Answer::Open;
    };
    let (k, width) = (state.record.k, state.record.width());
    let slot = canonical_slot(hash, k);
    let Some((length, entry)) = longest_match(&contents.main, width, k, hash) else {
        return Answer::Number(NO_MATCH);
    };
    if length == 0 && state.queue_is_full() {
        return Answer::Number(QUEUE_FULL);
    }
    if length < state.record.fresh_length() {
        contents.main.take(slot, entry);
        contents.main.add(slot, fresh_payload(&state.record, hash));
    }
    if length == 0 {
        state.push_queue_word(slot as u32 * 2 + 1);
    }
    contents.write(state);
    Answer::Number(DONE)
}

/// Audit: "2, 3, 4"; "0 exactly if the state is sound".
pub fn audit(state: &State) -> u32 {
    match refusal(state) {
        Some(number) => number,
        None if Contents::read(state).is_none() => NOT_SOUND,
        None => DONE,
    }
}

/// Settle: "2, 3, 4"; "handles queue words first to last. [...] At the end all
/// tombstones go, the queue length is 0, and empty tables at the end of the
/// directory are dropped so that their room is used again." No queue word is
/// written, and a table emptied before the end keeps its place.
pub fn settle(state: &mut State) -> u32 {
    if let Some(number) = refusal(state) {
        return number;
    }
    let Some(mut contents) = Contents::read(state) else {
        return NOT_SOUND;
    };
    for word in contents.queue.clone() {
        contents.settle_address(&state.record, word as usize / 2);
    }
    end_settle(state, contents);
    DONE
}

/// "At the end all tombstones go, the queue length is 0, and empty tables at
/// the end of the directory are dropped".
pub fn end_settle(state: &mut State, mut contents: Contents) {
    contents.main.take_all(tombstone(state.record.width()));
    contents.write(state);
    state.record.used = contents.main.entries() as u32;
    state.record.queue_length = 0;
    for (place, table) in state.record.places.iter_mut().zip(&contents.annex) {
        place.count = table.entries() as u32;
    }
    drop_empty_tables(&mut state.record);
}

/// "empty tables at the end of the directory are dropped".
fn drop_empty_tables(record: &mut Record) {
    while let Some(last) = record.in_use().len().checked_sub(1) {
        if record.places[last].count > 0 {
            return;
        }
        record.places[last] = Place::default();
    }
}

/// Double: "2, 9, 3, 4, 8, 10". "The new main is written to a second lent
/// slice at the new width and the old one is left unchanged."
pub fn double(state: &mut State, second: &mut [u32]) -> u32 {
    if !state.record.in_range() {
        return RECORD_OUT_OF_RANGE;
    }
    if state.record.k == LARGEST_POWER {
        return LARGEST_ALREADY;
    }
    if !state.lengths_fit() || second.len() != 2 << state.record.k {
        return WRONG_LENGTH;
    }
    let Some(contents) = Contents::read(state) else {
        return NOT_SOUND;
    };
    if state.record.queue_length != 0 {
        return QUEUE_NOT_EMPTY;
    }
    let (main, mothers) = contents.doubled(&state.record);
    if !add_annex_table(state, &mothers) {
        return NO_ROOM_IN_ANNEX;
    }
    second.copy_from_slice(&main.layout());
    state.record.k += 1;
    state.record.used = main.entries() as u32;
    DONE
}

/// "If there are any, one annex table is added." False, with nothing changed,
/// if it "doesn't fit after the tables in use".
fn add_annex_table(state: &mut State, mothers: &[usize]) -> bool {
    if mothers.is_empty() {
        return true;
    }
    let count = mothers.len() as u32;
    let place = Place {
        length: state.record.k + 1,
        size_power: size_power_for(count),
        count,
    };
    let offset = state.record.annex_words();
    let end = offset + (1 << place.size_power);
    if end > state.annex.len() {
        return false;
    }
    let mut table = Table::empty(place.size_power);
    for &mother in mothers {
        let (slot, entry) = mother_entry(&place, mother);
        table.add(slot, entry);
    }
    state.annex[offset..end].copy_from_slice(&table.layout());
    let next = state.record.in_use().len();
    state.record.places[next] = place;
    true
}

/// The part lookup: "A caller may ask for the words of the annex table of one
/// length and receives that part of the annex itself, or an empty part if the
/// directory has none"; "where 2 holds, or the annex is shorter than the
/// tables in use, it returns an empty part".
pub fn part<'a>(record: &Record, annex: &'a [u32], length: u32) -> &'a [u32] {
    if !record.in_range() || annex.len() < record.annex_words() {
        return &[];
    }
    let places = record.in_use();
    match places.iter().position(|place| place.length == length) {
        None => &[],
        Some(index) => {
            let offset = record.annex_offset(index);
            &annex[offset..offset + (1 << places[index].size_power)]
        }
    }
}

/// The exported Query: "2, 3", then the same answer as Query from "bytes, four
/// a slot, lowest first".
pub fn query_bytes(k: u32, w: u32, hash: u64, bytes: &[u8]) -> Answer {
    let k_fits = (SMALLEST_POWER..=LARGEST_POWER).contains(&k);
    if !k_fits || !(SMALLEST_WIDTH..=LARGEST_WIDTH).contains(&w) {
        return Answer::Number(RECORD_OUT_OF_RANGE);
    }
    if bytes.len() != 4 << k {
        return Answer::Number(WRONG_LENGTH);
    }
    let words: Vec<u32> = bytes
        .chunks_exact(4)
        .map(|four| u32::from_le_bytes([four[0], four[1], four[2], four[3]]))
        .collect();
    let Some(main) = Table::decode(&words) else {
        return Answer::Open;
    };
    let within = main.entries() <= load_limit(k) as usize;
    if !within || main.all().any(|(_, entry)| entry > tombstone(w)) {
        return Answer::Open;
    }
    Answer::Number(u32::from(longest_match(&main, w, k, hash).is_some()))
}
