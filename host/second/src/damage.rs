//! Scripts on damaged filters: one word, count, queue word, directory number
//! or record number changed, slices of the wrong length, a full queue.

use crate::builder::{some_hash, some_length, unsettled_filter, Hashes, Plan};
use crate::calls::start;
use crate::contents::Contents;
use crate::numbers::{load_limit, ANNEX_WIDTH};
use crate::payload::payload;
use crate::random::Random;
use crate::record::Place;
use crate::script::{double_and_move, Call};
use crate::state::State;
use crate::table::Table;
use crate::writer::Writer;

/// Damaged filters, each with a few calls whose outcome is determined.
pub fn damage(writer: &mut Writer) {
    while !writer.done() {
        let most = writer.random.one_of(&[4, 8, 8, 8]);
        let plan = Plan::small(&mut writer.random, most);
        let filter = unsettled_filter(&mut writer.random, &plan);
        for _ in 0..8 {
            let mut state = filter.state.clone();
            for _ in 0..writer.random.one_of(&[0, 1, 1, 1, 1, 1, 2]) {
                harm(&mut state, &mut writer.random);
            }
            writer.load(state);
            calls_on_it(writer, &filter.held, &plan.hashes);
        }
    }
}

/// Changes one thing.
pub fn harm(state: &mut State, random: &mut Random) {
    match random.below(16) {
        0..=1 => change_word(&mut state.main, random),
        2 => change_annex_word(state, random),
        3 => change_queue_word(state, random),
        4..=6 => move_entry(state, random),
        7..=8 => change_place(state, random),
        9..=11 => change_record(state, random),
        12..=13 => change_lengths(state, random),
        14 => lend_little(state, random),
        _ => state.record.k = 20,
    }
}

/// A number near the given one, or far away.
fn other_number(number: u32, random: &mut Random) -> u32 {
    match random.below(8) {
        0..=2 => number.wrapping_add(1),
        3..=5 => number.wrapping_sub(1),
        6 => random.below(32),
        _ => random.one_of(&[0, u32::MAX, 1 << 20, (1 << 20) + 1, 1 << 31]),
    }
}

/// Changes one of the words, or swaps two.
fn change_word(words: &mut [u32], random: &mut Random) {
    if words.is_empty() {
        return;
    }
    let count = words.len() as u32;
    let index = random.below(count) as usize;
    match random.below(8) {
        0..=2 => words[index] ^= 1 << random.below(8),
        3 => words[index] ^= 1 << random.below(32),
        4 => words[index] = random.bits() as u32,
        5 => words[index] = 0,
        _ => words.swap(index, random.below(count) as usize),
    }
}

/// Changes an annex word in use, as long as the record says which those are.
fn change_annex_word(state: &mut State, random: &mut Random) {
    if state.record.in_range() {
        let used = state.record.annex_words().min(state.annex.len());
        change_word(&mut state.annex[..used], random);
    }
}

/// Changes a queue word in use, half the time to one naming the first address
/// past the table.
fn change_queue_word(state: &mut State, random: &mut Random) {
    let used = (state.record.queue_length as usize).min(state.queue.len());
    if used > 0 && random.chance(1, 2) {
        state.queue[used - 1] = (2 << state.record.k.min(20)) + random.below(2);
    } else {
        change_word(&mut state.queue[..used], random);
    }
}

/// Takes one entry of a table to another address or payload and lays the
/// table out again, so that only the meaning is damaged.
fn move_entry(state: &mut State, random: &mut Random) {
    if !state.record.in_range() || !state.lengths_fit() {
        return;
    }
    let Some(mut contents) = Contents::read(state) else {
        return;
    };
    let tables = contents.annex.len() as u32;
    if tables > 0 && random.chance(1, 3) {
        let table = &mut contents.annex[random.below(tables) as usize];
        move_in_table(table, ANNEX_WIDTH, random);
    } else {
        move_in_table(&mut contents.main, state.record.width(), random);
    }
    contents.write(state);
}

/// A payload of one or two fingerprint bits.
fn short_payload(width: u32, random: &mut Random) -> u32 {
    let length = random.between(1, 2);
    payload(width, length, u64::from(random.below(2)))
}

/// Moves one entry of one table.
fn move_in_table(table: &mut Table, width: u32, random: &mut Random) {
    let entries: Vec<(usize, u32)> = table.all().collect();
    if entries.is_empty() {
        return;
    }
    let (slot, entry) = random.one_of(&entries);
    let last = (1 << width) - 1;
    let other = match random.below(10) {
        0..=1 => entry,
        8..=9 => short_payload(width, random),
        2 => entry ^ 1,
        3 => last - 1,
        4 => last,
        5 => entry + last + 1,
        _ => random.below(last),
    };
    let near = slot ^ (1 << random.below(table.slots().ilog2()));
    let place = random.one_of(&[slot, near]);
    table.take(slot, entry);
    table.add(place, other);
}

/// Changes one number of the directory.
fn change_place(state: &mut State, random: &mut Random) {
    let in_use = state.record.in_use().len() as u32;
    let index = random.below((in_use + 2).min(15)) as usize;
    let k = state.record.k;
    let place: &mut Place = &mut state.record.places[index];
    match random.below(8) {
        0..=1 => place.length = other_number(place.length, random),
        2 => place.length = random.one_of(&[5, 6, k, k.wrapping_add(1)]),
        3 => place.size_power = other_number(place.size_power, random),
        4 => place.size_power = random.one_of(&[2, 3, place.length]),
        5 => place.count = other_number(place.count, random),
        6 => place.count = load_limit(place.size_power.clamp(3, 20)) + random.below(2),
        _ => *place = Place::default(),
    }
}

/// Changes one number of the record.
fn change_record(state: &mut State, random: &mut Random) {
    let record = &mut state.record;
    match random.below(10) {
        0 => record.k = other_number(record.k, random),
        1 => record.start_power = other_number(record.start_power, random),
        2 => record.f = other_number(record.f, random),
        3 => record.regime = other_number(record.regime, random),
        4..=5 => record.used = other_number(record.used, random),
        6..=7 => record.used = load_limit(record.k.clamp(3, 20)) + random.below(2),
        _ => record.queue_length = other_number(record.queue_length, random),
    }
}

/// Gives one slice a wrong length.
fn change_lengths(state: &mut State, random: &mut Random) {
    let slice = match random.below(4) {
        0..=1 => &mut state.main,
        2 => &mut state.queue,
        _ => &mut state.annex,
    };
    let length = slice.len();
    let one_less = length.saturating_sub(1);
    let length = random.one_of(&[0, one_less, length + 1, length / 2, 2 * length]);
    slice.resize(length, 0);
}

/// Lends the queue and the annex just what the record uses, or one less.
fn lend_little(state: &mut State, random: &mut Random) {
    if !state.record.in_range() {
        return;
    }
    let less = random.one_of(&[0, 0, 0, 1]);
    let queue = (state.record.queue_length as usize).saturating_sub(less);
    let less = random.one_of(&[0, 0, 0, 1]);
    let annex = state.record.annex_words().saturating_sub(less);
    state.queue.truncate(queue);
    state.annex.truncate(annex);
}

/// A few calls of every kind.
fn calls_on_it(writer: &mut Writer, held: &[u64], hashes: &Hashes) {
    writer.call(Call::Audit);
    for _ in 0..writer.random.between(3, 8) {
        let hash = some_hash(&mut writer.random, held, hashes);
        let call = match writer.random.below(10) {
            0 => Call::Query(hash),
            1 => Call::Insert(hash),
            2 => Call::Delete(hash),
            3 => Call::Rejuvenate(hash),
            4 => Call::Audit,
            5 => Call::Settle,
            6..=7 => Call::Double(second_length(writer)),
            8 => Call::Part(some_length(&mut writer.random, &writer.state.record)),
            _ => bytes_call(writer, hash),
        };
        writer.call(call);
    }
    if writer.random.chance(1, 40) {
        writer.call(Call::Start(3, 3, 0));
    }
}

/// Mostly the right length for the second main.
fn second_length(writer: &mut Writer) -> usize {
    let right = 2 << writer.state.record.k.min(10);
    let wrong = writer.state.main.len();
    writer.random.one_of(&[right, right, right, wrong])
}

/// The exported Query on the words of the main table, whatever they are.
fn bytes_call(writer: &mut Writer, hash: u64) -> Call {
    let random = &mut writer.random;
    let bytes = 4 * writer.state.main.len();
    let k = writer.state.record.k;
    let k = random.one_of(&[k, k, k, 2, 21, (bytes / 4 + 1).ilog2()]);
    let w = random.one_of(&[4, 5, 10, 26, 3, 27, 20]);
    let count = random.one_of(&[bytes, bytes, bytes, bytes + 1, 4 << k.min(10)]);
    Call::Bytes(k, w, hash, count)
}

/// A filter with 2^20 queue words in use, and one more lent: number 7 by the
/// longest queue. The words name an address without voids, so it is sound.
pub fn full_queue(writer: &mut Writer) {
    let mut state = State::lent(8, 0, 8);
    start(&mut state, 3, 3, 0);
    crate::calls::insert(&mut state, 20);
    for words in [16, 32, 64, 128] {
        double_and_move(&mut state, words);
    }
    state.queue = vec![1; (1 << 20) + 1];
    state.record.queue_length = 1 << 20;
    writer.load(state.clone());
    for call in [
        Call::Audit,
        Call::Delete(20),
        Call::Rejuvenate(84),
        Call::Delete(5),
        Call::Insert(5),
        Call::Rejuvenate(5),
        Call::Double(256),
        Call::Settle,
        Call::Delete(20),
    ] {
        writer.call(call);
    }
    state.record.queue_length += 1;
    writer.load(state);
    writer.call(Call::Audit);
}
