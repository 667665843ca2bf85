//! Random histories: the state stays sound after every accepted call, and
//! demand 3 holds.

use second::builder::{forget, old_hash, some_hash, void_hashes, Plan};
use second::payload::length_of;
use second::random::Random;
use second::script::{Call, Outcome};
use second::{audit, query, Answer, Contents, State};

/// A history in the making.
struct History {
    state: State,
    random: Random,
    plan: Plan,
    held: Vec<u64>,
    /// Whether delete and rejuvenate name held hashes only.
    valid: bool,
}

impl History {
    /// A started filter on words lent with random values.
    fn new(seed: u64, start_power: u32, f: u32, regime: u32, valid: bool) -> History {
        let mut random = Random::new(seed);
        let mut plan = Plan::new(&mut random);
        plan.start_power = start_power;
        plan.hashes = second::builder::Hashes::new(&mut random, start_power);
        let mut state = State {
            main: random.words(1 << start_power),
            queue: random.words(40),
            annex: random.words(600),
            ..State::default()
        };
        let begin = Call::Start(start_power, f, regime);
        assert_eq!(begin.perform(&mut state), Outcome::Number(0));
        History {
            state,
            random,
            plan,
            held: Vec::new(),
            valid,
        }
    }

    /// A call that accepts or refuses, and leaves a sound state either way.
    fn call(&mut self, call: Call) -> u32 {
        let before = self.state.clone();
        let Outcome::Number(number) = call.perform(&mut self.state) else {
            panic!("{call:?} is open");
        };
        if number == 0 {
            assert_eq!(audit(&self.state), 0, "after {call:?}");
            untouched(&before, &self.state, &call);
        } else {
            assert_eq!(before, self.state, "refused {call:?}");
        }
        number
    }

    /// A hash to delete or rejuvenate.
    fn name(&mut self) -> Option<u64> {
        let voids = void_hashes(&self.state, &self.held);
        if !voids.is_empty() && self.random.chance(1, 2) {
            Some(self.random.one_of(&voids))
        } else if !self.valid {
            Some(some_hash(&mut self.random, &self.held, &self.plan.hashes))
        } else if self.held.is_empty() {
            None
        } else {
            Some(old_hash(&mut self.random, &self.held))
        }
    }

    /// Insert of a new hash.
    fn insert(&mut self) {
        let hash = self.plan.hashes.draw(&mut self.random);
        if self.call(Call::Insert(hash)) == 0 {
            self.held.push(hash);
        }
    }

    /// Delete, after which the hash is held once less.
    fn remove(&mut self) {
        if let Some(hash) = self.name() {
            if self.call(Call::Delete(hash)) == 0 {
                forget(&mut self.held, hash);
            }
        }
    }

    /// "Directly after a settle, valid calls or not, each address holds as many
    /// void entries as stored mother hashes match it."
    fn settle(&mut self) {
        assert_eq!(self.call(Call::Settle), 0);
        let contents = Contents::read(&self.state).expect("sound");
        let record = &self.state.record;
        assert_eq!(
            contents.voids(record),
            contents.matching_mother_hashes(record)
        );
        assert_eq!(record.queue_length, 0);
    }

    /// One random step.
    fn step(&mut self, top: u32) {
        match self.random.below(20) {
            0..=7 => self.insert(),
            8..=12 => self.remove(),
            13..=15 => {
                if let Some(hash) = self.name() {
                    self.call(Call::Rejuvenate(hash));
                }
            }
            16 => self.settle(),
            _ if self.state.record.k < top => {
                if self.random.chance(3, 4) {
                    self.settle();
                }
                self.call(Call::Double(2 << self.state.record.k));
            }
            _ => self.insert(),
        }
    }

    /// "Then every held hash is answered yes, and the entries with
    /// fingerprints plus the stored mother hashes, less the queued removals,
    /// number exactly the held hashes."
    fn demand_three(&self) {
        for &hash in &self.held {
            assert_eq!(query(&self.state, hash), Answer::Number(1));
        }
        let record = &self.state.record;
        let contents = Contents::read(&self.state).expect("sound");
        let width = record.width();
        let with_bits = contents
            .main
            .all()
            .filter(|&(_, entry)| length_of(width, entry).is_some_and(|length| length > 0))
            .count();
        let mothers: u32 = record.in_use().iter().map(|place| place.count).sum();
        let counted = with_bits as i64 + i64::from(mothers) - i64::from(record.queue_length);
        assert_eq!(counted, self.held.len() as i64);
    }
}

/// "queue words past the new length and annex words past the tables keep their
/// values", and a settled queue keeps all of them.
fn untouched(before: &State, after: &State, call: &Call) {
    let written = match call {
        Call::Delete(_) | Call::Rejuvenate(_) => after.record.queue_length as usize,
        _ => 0,
    };
    assert_eq!(before.queue[written..], after.queue[written..]);
    let used = before.record.annex_words().max(after.record.annex_words());
    assert_eq!(before.annex[used..], after.annex[used..]);
    if !matches!(call, Call::Settle | Call::Double(_)) {
        assert_eq!(before.annex, after.annex);
        assert_eq!(before.record.places, after.record.places);
    }
}

/// Histories of both regimes and several start powers; the answer is how
/// often more than one queue word waited.
fn run(valid: bool, rounds: u64) -> u32 {
    let mut queued = 0;
    for seed in 0..rounds {
        let start_power = 3 + (seed % 3) as u32;
        let f = 3 + (seed / 3 % 2) as u32;
        let regime = (seed / 6 % 2) as u32;
        let mut history = History::new(seed, start_power, f, regime, valid);
        for _ in 0..90 {
            history.step(start_power + f + 2);
            queued += u32::from(history.state.record.queue_length > 1);
            if valid {
                history.demand_three();
            }
        }
    }
    queued
}

#[test]
fn valid_histories_keep_demand_three() {
    let queued = run(true, 60);
    assert!(queued > 200, "too few queued removals: {queued}");
}

#[test]
fn any_history_stays_sound() {
    let queued = run(false, 60);
    assert!(queued > 200, "too few queued removals: {queued}");
}

/// Every start power, one doubling after the other until voids appear.
#[test]
fn all_start_powers_live() {
    for start_power in 3..=10 {
        for regime in 0..=1 {
            let seed = u64::from(start_power * 2 + regime);
            let mut history = History::new(seed, start_power, 3, regime, true);
            for generation in 0..4 {
                for _ in 0..4 {
                    history.insert();
                }
                history.demand_three();
                history.settle();
                let words = 2 << (start_power + generation);
                assert_eq!(history.call(Call::Double(words)), 0);
            }
            history.remove();
            history.demand_three();
            history.settle();
            history.demand_three();
        }
    }
}

/// A filter lives up to k = 20, where Double is refused.
#[test]
fn a_life_up_to_the_largest_table() {
    let mut history = History::new(5, 10, 3, 1, true);
    for k in 10..20 {
        history.insert();
        history.insert();
        assert_eq!(history.call(Call::Double(2 << k)), 0);
    }
    assert_eq!(history.state.record.width(), 3 + 8 + 1);
    assert_eq!(history.call(Call::Double(16)), 9);
    history.demand_three();
    for _ in 0..3 {
        history.remove();
    }
    history.demand_three();
    history.settle();
    history.demand_three();
}

/// Settle handles every queue word, first to last: two mother hashes go.
#[test]
fn settle_handles_every_queue_word() {
    let mut state = State::lent(8, 4, 8);
    Call::Start(3, 3, 0).perform(&mut state);
    Call::Insert(20).perform(&mut state);
    Call::Insert(3).perform(&mut state);
    for words in [16, 32, 64, 128] {
        assert_eq!(Call::Double(words).perform(&mut state), Outcome::Number(0));
    }
    assert_eq!(state.record.places[0].count, 2);
    for hash in [20, 3] {
        assert_eq!(Call::Delete(hash).perform(&mut state), Outcome::Number(0));
    }
    assert_eq!(state.queue, [40, 6, 0, 0]);
    assert_eq!(Call::Settle.perform(&mut state), Outcome::Number(0));
    assert_eq!(state.main, vec![0; 128]);
    assert_eq!(state.annex, vec![0; 8]);
    assert_eq!(state.record.in_use().len(), 0);
    assert_eq!(state.queue, [40, 6, 0, 0]);
}

/// A table emptied before the end keeps its place and its size.
#[test]
fn an_emptied_table_before_the_end_keeps_its_place() {
    let mut state = State::lent(8, 4, 16);
    Call::Start(3, 3, 0).perform(&mut state);
    Call::Insert(20).perform(&mut state);
    Call::Double(16).perform(&mut state);
    Call::Insert(3).perform(&mut state);
    for words in [32, 64, 128] {
        Call::Double(words).perform(&mut state);
    }
    Call::Delete(20).perform(&mut state);
    assert_eq!(Call::Settle.perform(&mut state), Outcome::Number(0));
    let places = state.record.in_use();
    assert_eq!(places.len(), 2);
    assert_eq!(
        (places[0].length, places[0].size_power, places[0].count),
        (6, 3, 0)
    );
    assert_eq!((places[1].length, places[1].count), (7, 1));
    assert_eq!(state.annex[..8], [0; 8]);
    assert_eq!(audit(&state), 0);
}
