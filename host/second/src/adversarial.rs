//! Scripts of histories meant to hurt: equal hashes again and again, one cluster as long as the
//! load limit lets it be, clusters over the end of the table, and every lent part at its limit.

use crate::calls::DONE;
use crate::damage::harm;
use crate::numbers::load_limit;
use crate::script::Call;
use crate::state::State;
use crate::writer::Writer;

/// One history after the other, each from Start on, and what it leaves also damaged.
pub fn adversarial(writer: &mut Writer) {
    let histories: [fn(&mut Writer); 6] = [
        equal_hashes,
        one_cluster,
        over_the_end,
        full_table,
        full_queue,
        full_annex,
    ];
    for history in histories.into_iter().cycle() {
        history(writer);
        wrong_lengths(writer);
        damaged(writer);
        if writer.done() {
            return;
        }
    }
}

/// An empty filter on lent words that hold anything.
fn begin(writer: &mut Writer, queue: usize, annex: usize) {
    let random = &mut writer.random;
    let (power, f, regime) = (random.between(3, 5), random.between(3, 4), random.below(2));
    let state = State {
        main: random.words(1 << power),
        queue: random.words(queue),
        annex: random.words(annex),
        ..State::default()
    };
    writer.load(state);
    writer.call(Call::Start(power, f, regime));
}

/// Inserts hashes, and one more than the load limit allows. The answer is what is held.
fn fill(writer: &mut Writer, hash: impl Fn(u64) -> u64) -> Vec<u64> {
    let record = &writer.state.record;
    let room = load_limit(record.k.max(3)).saturating_sub(record.used);
    let hashes = (0..=u64::from(room)).map(hash);
    hashes
        .filter(|&hash| writer.call(Call::Insert(hash)) == Some(DONE))
        .collect()
}

/// Doubles until what was inserted first has no bits left, and up to twice more.
fn grow(writer: &mut Writer) {
    for _ in 0..writer.state.record.f + writer.random.below(3) {
        writer.call(Call::Settle);
        writer.call(Call::Double(2 << writer.state.record.k));
    }
}

/// Asks for each of the hashes and for a neighbour, on words and on bytes.
fn ask(writer: &mut Writer, hashes: &[u64]) {
    let bytes = 4 * writer.state.main.len();
    for &hash in hashes {
        let (k, w) = (writer.state.record.k, writer.state.record.width());
        writer.call(Call::Query(hash));
        writer.call(Call::Query(hash.wrapping_add(1)));
        writer.call(Call::Bytes(k, w, hash, bytes));
    }
}

/// Deletes or rejuvenates each of the hashes.
fn withdraw(writer: &mut Writer, hashes: &[u64]) {
    let calls: [fn(u64) -> Call; 3] = [Call::Delete, Call::Delete, Call::Rejuvenate];
    for &hash in hashes {
        let call = writer.random.one_of(&calls);
        writer.call(call(hash));
    }
}

/// The same hash until the table is full of it; all of them become void, and all go.
fn equal_hashes(writer: &mut Writer) {
    let hash = writer.random.bits();
    begin(writer, 64, 256);
    let hashes = fill(writer, |_| hash);
    ask(writer, &[hash]);
    grow(writer);
    withdraw(writer, &hashes);
    writer.call(Call::Settle);
    ask(writer, &[hash]);
}

/// Two entries at one address and one at each that follows, so that every run but the first is
/// moved by one; taken away from the front, each moves back.
fn cluster_from(writer: &mut Writer, slot: u64) {
    begin(writer, 16, 64);
    let high = writer.random.bits() << 32;
    let slots = writer.state.main.len() as u64;
    let hash = |index: u64| high + (slot + index.saturating_sub(1)) % slots;
    let hashes = fill(writer, hash);
    ask(writer, &hashes);
    writer.call(Call::Audit);
    let middle = hashes.len() / 2;
    withdraw(writer, &hashes[middle..]);
    fill(writer, hash);
    withdraw(writer, &hashes[..middle]);
    ask(writer, &hashes);
}

/// One cluster from the first slot on.
fn one_cluster(writer: &mut Writer) {
    cluster_from(writer, 0);
}

/// The same from one of the last slots on, over the end of the table.
fn over_the_end(writer: &mut Writer) {
    let before = u64::from(writer.random.between(1, 4));
    cluster_from(writer, (1 << 32) - before);
}

/// Filled to refusal 5 in each generation, with one entry taken and put back.
fn full_table(writer: &mut Writer) {
    begin(writer, 64, 512);
    for _ in 0..writer.random.between(2, 5) {
        let seed = writer.random.bits();
        let hashes = fill(writer, |index| seed.wrapping_mul(2 * index + 1));
        withdraw(writer, &hashes[..1.min(hashes.len())]);
        fill(writer, |_| seed);
        writer.call(Call::Settle);
        writer.call(Call::Double(2 << writer.state.record.k));
    }
}

/// A queue of few words, and more voids withdrawn than it has: refusal 7, then 8.
fn full_queue(writer: &mut Writer) {
    let queue = writer.random.below(4) as usize;
    begin(writer, queue, 256);
    let high = writer.random.bits() << 7;
    let hashes = fill(writer, |index| high + index);
    grow(writer);
    withdraw(writer, &hashes);
    writer.call(Call::Double(2 << writer.state.record.k));
    writer.call(Call::Settle);
    withdraw(writer, &hashes);
}

/// An annex that ends a word too early for the new table: refusal 10. A longer one is lent then.
fn full_annex(writer: &mut Writer) {
    let annex = writer.random.one_of(&[0, 7, 8, 15, 23, 31]);
    begin(writer, 8, annex);
    let high = writer.random.bits() << 7;
    let hashes = fill(writer, |index| high + index);
    grow(writer);
    let mut state = writer.state.clone();
    let longer = writer.random.words(256);
    state.annex.extend(longer);
    writer.load(state);
    grow(writer);
    withdraw(writer, &hashes);
    writer.call(Call::Settle);
}

/// One call of each kind.
fn all_calls(writer: &mut Writer) {
    let hash = writer.random.bits();
    for call in [
        Call::Query(hash),
        Call::Insert(hash),
        Call::Delete(hash),
        Call::Rejuvenate(hash),
        Call::Audit,
        Call::Settle,
        Call::Double(2 << writer.state.record.k.min(10)),
    ] {
        writer.call(call);
    }
}

/// What a history left, with each lent part a word too short, and main a word too long.
fn wrong_lengths(writer: &mut Writer) {
    let left = writer.state.clone();
    let used = left.record.annex_words();
    let changes: [&dyn Fn(&mut State); 4] = [
        &|state| state.main.truncate(left.main.len().saturating_sub(1)),
        &|state| state.main.push(0),
        &|state| state.annex.truncate(used.saturating_sub(1)),
        &|state| state.record.queue_length = left.queue.len() as u32 + 1,
    ];
    for change in changes {
        let mut state = left.clone();
        change(&mut state);
        writer.load(state);
        all_calls(writer);
    }
    writer.load(left.clone());
    writer.call(Call::Double(left.main.len()));
}

/// What a history left, with one thing changed: a word, a number of the record, a place, a length.
fn damaged(writer: &mut Writer) {
    let left = writer.state.clone();
    for _ in 0..8 {
        let mut state = left.clone();
        harm(&mut state, &mut writer.random);
        writer.load(state);
        all_calls(writer);
    }
}
