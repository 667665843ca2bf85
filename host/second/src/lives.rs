//! Scripts of whole lives, and of quick calls on grown filters.

use crate::builder::{forget, grown_filter, old_hash, some_hash, some_length, void_hashes, Plan};
use crate::calls::DONE;
use crate::numbers::LARGEST_POWER;
use crate::script::Call;
use crate::state::State;
use crate::writer::Writer;

/// One life in the making: its plan and the hashes held at the moment.
struct Life {
    plan: Plan,
    held: Vec<u64>,
    /// Whether delete and rejuvenate may also name hashes that are not held.
    wild: bool,
    /// Below this k inserts and doublings prevail.
    old_from: u32,
}

/// Whole lives from Start on, one after the other.
pub fn lives(writer: &mut Writer) {
    while !writer.done() {
        let plan = Plan::new(&mut writer.random);
        let old_from = plan.start_power + plan.f + 1;
        one_life(writer, plan, old_from);
    }
}

/// Lives that double up to k = 20.
pub fn large(writer: &mut Writer) {
    while !writer.done() {
        let mut plan = Plan::new(&mut writer.random);
        plan.top = LARGEST_POWER;
        one_life(writer, plan, LARGEST_POWER);
    }
}

/// One life from Start on.
fn one_life(writer: &mut Writer, plan: Plan, old_from: u32) {
    let mut life = Life {
        plan,
        held: Vec::new(),
        wild: writer.random.chance(1, 3),
        old_from: old_from.min(plan.top),
    };
    let steps = writer.random.between(60, 220);
    begin(writer, &plan);
    insert_some(writer, &mut life);
    for _ in 0..steps {
        if !writer.done() {
            step(writer, &mut life);
        }
    }
    if writer.state.main.len() <= 64 {
        writer.show();
    }
}

/// Lends random words, and starts; now and then a Start that is refused goes
/// before.
fn begin(writer: &mut Writer, plan: &Plan) {
    let random = &mut writer.random;
    let queue = random.one_of(&[0, 3, 16, 64, 64, 64]);
    let annex = random.one_of(&[8, 100, 1000, 1000, 2000, 2000, 4000, 4000]);
    let state = State {
        main: random.words(1 << plan.start_power),
        queue: random.words(queue),
        annex: random.words(annex),
        ..State::default()
    };
    let refused = match random.below(24) {
        0 => Some(Call::Start(random.one_of(&[0, 2, 11]), plan.f, plan.regime)),
        1 => Some(Call::Start(
            plan.start_power,
            random.one_of(&[2, 16]),
            plan.regime,
        )),
        2 => Some(Call::Start(plan.start_power, plan.f, 2)),
        3 => Some(Call::Start(plan.start_power ^ 1, plan.f, plan.regime)),
        _ => None,
    };
    writer.load(state);
    if let Some(call) = refused {
        writer.call(call);
    }
    writer.call(Call::Start(plan.start_power, plan.f, plan.regime));
}

/// One step of a life: mostly inserts and doublings at first, until the oldest
/// entries have lost their bits, and then mostly deletes and rejuvenations.
fn step(writer: &mut Writer, life: &mut Life) {
    let young = writer.state.record.k < life.old_from;
    match writer.random.below(100) {
        0..=11 => insert(writer, life),
        12..=13 => insert_some(writer, life),
        14..=24 => ask(writer, life),
        25..=29 => look_up(writer),
        30..=34 => ask_bytes(writer, life),
        35..=36 => {
            writer.call(Call::Audit);
        }
        37..=39 => {
            writer.call(Call::Settle);
        }
        40..=46 => remove(writer, life),
        47..=49 => renew(writer, life),
        50..=53 => grow(writer, life),
        54..=85 if young => insert(writer, life),
        86..=99 if young => grow(writer, life),
        54..=81 => remove(writer, life),
        _ => renew(writer, life),
    }
}

/// Some inserts in a row.
fn insert_some(writer: &mut Writer, life: &mut Life) {
    for _ in 0..writer.random.below(16) {
        insert(writer, life);
    }
}

/// Query of a hash that may be held.
fn ask(writer: &mut Writer, life: &Life) {
    let hash = some_hash(&mut writer.random, &life.held, &life.plan.hashes);
    writer.call(Call::Query(hash));
}

/// Rejuvenate.
fn renew(writer: &mut Writer, life: &Life) {
    if let Some(hash) = named_hash(writer, life) {
        writer.call(Call::Rejuvenate(hash));
    }
}

/// Insert of a new hash or of one held already.
fn insert(writer: &mut Writer, life: &mut Life) {
    let random = &mut writer.random;
    let hash = if life.held.is_empty() || random.chance(4, 5) {
        life.plan.hashes.draw(random)
    } else {
        random.one_of(&life.held)
    };
    if writer.call(Call::Insert(hash)) == Some(DONE) {
        life.held.push(hash);
    }
}

/// A hash for delete or rejuvenate: often one whose longest match is void, and
/// in a life that is not wild always a held one.
fn named_hash(writer: &mut Writer, life: &Life) -> Option<u64> {
    let voids = void_hashes(&writer.state, &life.held);
    let random = &mut writer.random;
    if !voids.is_empty() && random.chance(3, 4) {
        Some(random.one_of(&voids))
    } else if life.wild {
        Some(some_hash(random, &life.held, &life.plan.hashes))
    } else if life.held.is_empty() {
        None
    } else {
        Some(old_hash(random, &life.held))
    }
}

/// Delete of a hash, which is then held once less.
fn remove(writer: &mut Writer, life: &mut Life) {
    if let Some(hash) = named_hash(writer, life) {
        if writer.call(Call::Delete(hash)) == Some(DONE) {
            forget(&mut life.held, hash);
        }
    }
}

/// Double, mostly after a Settle, up to the top of the plan. One second main in
/// sixteen has the wrong length. At k = 20 it is refused, whatever is lent.
fn grow(writer: &mut Writer, life: &mut Life) {
    let k = writer.state.record.k;
    if k >= life.plan.top {
        if k == LARGEST_POWER {
            writer.call(Call::Double(16));
        }
        return;
    }
    if writer.state.record.queue_length > 0 && writer.random.chance(3, 4) {
        writer.call(Call::Settle);
    }
    let mut words = 2 << k;
    if writer.random.chance(1, 16) {
        words = writer.random.one_of(&[0, 1 << k, words - 1, words + 1]);
    }
    writer.call(Call::Double(words));
}

/// The part lookup.
fn look_up(writer: &mut Writer) {
    let length = some_length(&mut writer.random, &writer.state.record);
    writer.call(Call::Part(length));
}

/// The exported Query, mostly with the filter's own k and W.
fn ask_bytes(writer: &mut Writer, life: &Life) {
    let random = &mut writer.random;
    let record = &writer.state.record;
    let hash = some_hash(random, &life.held, &life.plan.hashes);
    let wider = random.between(record.width(), 26);
    let w = random.one_of(&[record.width(), record.width(), wider, 3, 27]);
    let bytes = 4 * writer.state.main.len();
    let count = random.one_of(&[bytes, bytes, bytes, bytes, bytes - 1, bytes + 4]);
    writer.call(Call::Bytes(record.k, w, hash, count));
}

/// Quick calls on filters that were doubled and settled before.
pub fn quick(writer: &mut Writer) {
    while !writer.done() {
        let most = if writer.random.chance(1, 20) { 12 } else { 8 };
        let plan = Plan::small(&mut writer.random, most);
        let filter = grown_filter(&mut writer.random, &plan);
        let mut life = Life {
            plan,
            held: filter.held,
            wild: true,
            old_from: 0,
        };
        writer.load(filter.state);
        for _ in 0..writer.random.between(20, 80) {
            quick_step(writer, &mut life);
        }
    }
}

/// One quick call.
fn quick_step(writer: &mut Writer, life: &mut Life) {
    match writer.random.below(10) {
        0..=1 => insert(writer, life),
        2..=4 => remove(writer, life),
        5..=6 => renew(writer, life),
        7..=8 => ask(writer, life),
        _ => ask_bytes(writer, life),
    }
}
