//! Random filters built by the model, to be loaded into scripts.

use crate::calls::{delete, fresh_payload, longest_match, rejuvenate, settle, start, DONE};
use crate::contents::Contents;
use crate::numbers::load_limit;
use crate::payload::canonical_slot;
use crate::random::Random;
use crate::record::Record;
use crate::script::double_and_move;
use crate::state::State;

/// How the mother hashes of one filter are drawn. Crowded low bits make long
/// runs and clusters, also around the end of the table; few high bits make
/// equal fingerprints.
#[derive(Clone, Copy, Debug)]
pub struct Hashes {
    low_count: u32,
    low_base: u32,
    crowd: u32,
    high_count: u32,
}

impl Hashes {
    /// A random way to draw hashes.
    pub fn new(random: &mut Random, start_power: u32) -> Hashes {
        let low_count = start_power + random.below(3);
        let slots = 1 << low_count;
        Hashes {
            low_count,
            low_base: random.one_of(&[slots - 1, slots - 2, slots / 2]),
            crowd: random.one_of(&[2, 4, slots, slots, slots, slots]),
            high_count: random.one_of(&[2, 5, 8, 12, 50, 50]),
        }
    }

    /// One mother hash.
    pub fn draw(&self, random: &mut Random) -> u64 {
        let low = (self.low_base + random.below(self.crowd)) % (1 << self.low_count);
        let high = random.bits() >> (64 - self.high_count);
        (high << self.low_count) + u64::from(low)
    }
}

/// The numbers a random filter lives by.
#[derive(Clone, Copy, Debug)]
pub struct Plan {
    pub start_power: u32,
    pub f: u32,
    pub regime: u32,
    /// The filter doubles up to this k.
    pub top: u32,
    pub hashes: Hashes,
}

impl Plan {
    /// Mostly small filters that live long enough to hold voids; now and then
    /// a start power up to 10 and a k up to 14.
    pub fn new(random: &mut Random) -> Plan {
        let start_power = match random.below(8) {
            0 => random.between(3, 10),
            1..=2 => random.between(4, 5),
            _ => 3,
        };
        let f = match random.below(8) {
            0 => random.between(3, 15),
            1 => 4,
            2 => 5,
            _ => 3,
        };
        let top = match random.below(16) {
            0 => (start_power + 8).clamp(10, 14),
            1..=3 => start_power + random.below(4),
            4..=9 => (start_power + 5).min(12),
            _ => (start_power + 6).min(13),
        };
        Plan {
            start_power,
            f,
            regime: random.below(2),
            top,
            hashes: Hashes::new(random, start_power),
        }
    }

    /// The same with k at most `most`, which is 3 or more, so that loading the
    /// filter stays a short line.
    pub fn small(random: &mut Random, most: u32) -> Plan {
        let mut plan = Plan::new(random);
        if plan.start_power > most.min(5) {
            plan.start_power = 3;
        }
        plan.hashes = Hashes::new(random, plan.start_power);
        plan.top = plan.top.clamp(plan.start_power, most);
        plan
    }
}

/// A filter with the hashes held in it.
#[derive(Clone, Debug)]
pub struct Filter {
    pub state: State,
    pub held: Vec<u64>,
}

/// Insert for many hashes at once, as far as the load limit allows.
pub fn insert_many(filter: &mut Filter, hashes: &[u64]) {
    let state = &mut filter.state;
    let room = (load_limit(state.record.k) - state.record.used) as usize;
    let accepted = &hashes[..room.min(hashes.len())];
    let mut contents = Contents::read(state).expect("a sound state");
    for &hash in accepted {
        let slot = canonical_slot(hash, state.record.k);
        contents.main.add(slot, fresh_payload(&state.record, hash));
    }
    contents.write(state);
    state.record.used += accepted.len() as u32;
    filter.held.extend(accepted);
}

/// A held hash, half the time one of the oldest: they are the ones that lost
/// their bits. There must be one.
pub fn old_hash(random: &mut Random, held: &[u64]) -> u64 {
    let oldest = &held[..held.len().min(12)];
    if random.chance(1, 2) {
        random.one_of(oldest)
    } else {
        random.one_of(held)
    }
}

/// A hash to delete, rejuvenate or ask for: mostly held, else a near miss or
/// any hash.
pub fn some_hash(random: &mut Random, held: &[u64], hashes: &Hashes) -> u64 {
    if held.is_empty() {
        return hashes.draw(random);
    }
    match random.below(8) {
        0 => hashes.draw(random),
        1 => old_hash(random, held) ^ (1 << random.below(24)),
        2 => random.one_of(held),
        _ => old_hash(random, held),
    }
}

/// A length for the part lookup, half the time one of the directory.
pub fn some_length(random: &mut Random, record: &Record) -> u32 {
    let places = record.in_use();
    if places.is_empty() || random.chance(1, 2) {
        random.one_of(&[0, 5, 6, 7, 8, 9, 20, 21, u32::MAX])
    } else {
        random.one_of(places).length
    }
}

/// The held hashes whose longest match is void, in a sound state.
pub fn void_hashes(state: &State, held: &[u64]) -> Vec<u64> {
    let contents = Contents::read(state).expect("a sound state");
    let (k, width) = (state.record.k, state.record.width());
    let mut found = held.to_vec();
    found.retain(|&hash| {
        let longest = longest_match(&contents.main, width, k, hash);
        matches!(longest, Some((0, _)))
    });
    found
}

/// Takes a hash that was deleted out of the held ones, if it was held.
pub fn forget(held: &mut Vec<u64>, hash: u64) {
    if let Some(index) = held.iter().position(|&h| h == hash) {
        held.remove(index);
    }
}

/// A few deletes and rejuvenations.
fn stir(filter: &mut Filter, random: &mut Random, plan: &Plan, times: u32) {
    for _ in 0..times {
        let voids = void_hashes(&filter.state, &filter.held);
        let hash = if !voids.is_empty() && random.chance(1, 3) {
            random.one_of(&voids)
        } else {
            some_hash(random, &filter.held, &plan.hashes)
        };
        if random.chance(1, 2) {
            delete(&mut filter.state, hash);
            forget(&mut filter.held, hash);
        } else {
            rejuvenate(&mut filter.state, hash);
        }
    }
}

/// Inserts up to a random part of the free slots, in the first generations
/// more than later.
fn fill(filter: &mut Filter, random: &mut Random, plan: &Plan) {
    let record = &filter.state.record;
    let free = load_limit(record.k) - record.used;
    let most = if record.generation() <= 1 {
        free
    } else {
        random.one_of(&[0, 2, 7, 7, free / 4, free]).min(free)
    };
    let count = random.between(most / 2, most);
    let hashes: Vec<u64> = (0..count).map(|_| plan.hashes.draw(random)).collect();
    insert_many(filter, &hashes);
}

/// A filter that went through its whole life up to the top of its plan, was
/// doubled and settled on the way, and is settled at the end. Words it does
/// not use hold random values.
pub fn grown_filter(random: &mut Random, plan: &Plan) -> Filter {
    let mut state = State::lent(1 << plan.start_power, 16, 0);
    state.queue = random.words(16);
    state.annex = random.words(4 << plan.top);
    start(&mut state, plan.start_power, plan.f, plan.regime);
    let held = Vec::new();
    let mut filter = Filter { state, held };
    while filter.state.record.k < plan.top {
        fill(&mut filter, random, plan);
        let times = random.one_of(&[0, 0, 1, 5]);
        stir(&mut filter, random, plan, times);
        assert_eq!(settle(&mut filter.state), DONE);
        let words = 2 << filter.state.record.k;
        assert_eq!(double_and_move(&mut filter.state, words), DONE);
    }
    fill(&mut filter, random, plan);
    stir(&mut filter, random, plan, 2);
    assert_eq!(settle(&mut filter.state), DONE);
    trim(&mut filter.state, random);
    filter
}

/// Cuts queue and annex to what is used and a little more.
fn trim(state: &mut State, random: &mut Random) {
    let spare = random.one_of(&[0, 1, 3, 8, 16, 40]);
    state.annex.truncate(state.record.annex_words() + spare);
    let queue = random.one_of(&[0, 2, 4, 12, 16, 16]);
    state.queue.truncate(queue);
}

/// A grown filter with some unsettled deletes and rejuvenations on top.
pub fn unsettled_filter(random: &mut Random, plan: &Plan) -> Filter {
    let mut filter = grown_filter(random, plan);
    let times = random.one_of(&[0, 4, 12, 30]);
    stir(&mut filter, random, plan, times);
    filter
}
