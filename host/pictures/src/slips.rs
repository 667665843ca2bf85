//! The slips of the training: each is the filter with one edit of crates/*/must-fail in it, which the
//! prover refuses. A call that the edit does not touch is made on the proved library; one that it
//! touches is made here, on the second program's multisets, or for a wrong walk on the words.

use crate::play::{proved, Answered, Player};
use crate::walk;
use second::calls::{end_settle, longest_match, DONE, NO_MATCH, YES};
use second::contents::mother_entry;
use second::payload::{canonical_slot, tombstone, void, CONTINUATION, SHIFTED};
use second::script::Call;
use second::{Contents, Record, State, Table};

/// The slips, by crate and name of the edit.
pub const SLIPS: [(&str, Player); 7] = [
    ("annex/first_stored", first_stored),
    ("settling/first_hash_taken", first_hash_taken),
    ("settling/void_at_c_too", void_at_c_too),
    ("settling/first_word_only", first_word_only),
    ("slots/tombstone_matches", tombstone_matches),
    ("filter/void_before_bits", void_before_bits),
    ("walks/walk_at_slot_0", walk_at_slot_0),
];

/// The slip of one name.
pub fn named(name: &str) -> Result<Player, String> {
    let found = SLIPS.iter().find(|(slip, _)| *slip == name);
    found.map(|(_, player)| *player).ok_or_else(|| {
        let names = SLIPS.map(|(slip, _)| slip).join(", ");
        format!("no slip is called '{name}'; there are {names}")
    })
}

/// What a slip does with one queue word that names c.
type Rule = fn(&mut Contents, &Record, usize) -> Result<(), String>;

/// Settle with another rule for a queue word, for at most `most` words.
fn settle(state: &mut State, rule: Rule, most: usize) -> Answered {
    let number = second::audit(state);
    let Some(mut contents) = (number == DONE).then(|| Contents::read(state)).flatten() else {
        return Ok(Some(number));
    };
    for word in contents.queue.clone().into_iter().take(most) {
        rule(&mut contents, &state.record, word as usize / 2)?;
    }
    end_settle(state, contents);
    Ok(Some(DONE))
}

/// The place of the longest stored mother hash that matches c.
fn longest_place(contents: &Contents, record: &Record, c: usize) -> Option<usize> {
    record
        .in_use()
        .iter()
        .zip(&contents.annex)
        .rposition(|(place, table)| {
            let (slot, entry) = mother_entry(place, c % (1 << place.length));
            table.count_of(slot, entry) > 0
        })
}

/// At each address with the low b bits of c one void goes, but not at `kept`.
fn take_voids(contents: &mut Contents, record: &Record, c: usize, b: u32, kept: Option<usize>) {
    for address in (c % (1 << b)..contents.main.slots()).step_by(1 << b) {
        if Some(address) != kept {
            contents.main.take(address, void(record.width()));
        }
    }
}

/// The mother hash of c goes from one place. Where it is not stored the edited code spoils the count; that is not followed here.
fn take_hash(
    contents: &mut Contents,
    record: &Record,
    index: usize,
    c: usize,
) -> Result<(), String> {
    let place = &record.in_use()[index];
    let (slot, entry) = mother_entry(place, c % (1 << place.length));
    match contents.annex[index].take(slot, entry) {
        true => Ok(()),
        false => Err(format!(
            "this slip takes a mother hash of {c} from a table that has none; that is not played"
        )),
    }
}

/// Settle by a rule for one queue word, on all of them; any other call is the library's.
fn all_words(state: &mut State, call: &Call, rule: Rule) -> Answered {
    match call {
        Call::Settle => settle(state, rule, usize::MAX),
        _ => proved(state, call),
    }
}

/// The first stored mother hash instead of the longest.
fn first_stored(state: &mut State, call: &Call) -> Answered {
    let rule: Rule = |contents, record, c| {
        if longest_place(contents, record, c).is_none() {
            return Ok(());
        }
        take_voids(contents, record, c, record.places[0].length, Some(c));
        take_hash(contents, record, 0, c)
    };
    all_words(state, call, rule)
}

/// The voids of the longest mother hash, but the first stored one goes from the annex.
fn first_hash_taken(state: &mut State, call: &Call) -> Answered {
    let rule: Rule = |contents, record, c| {
        let Some(index) = longest_place(contents, record, c) else {
            return Ok(());
        };
        take_voids(contents, record, c, record.places[index].length, Some(c));
        take_hash(contents, record, 0, c)
    };
    all_words(state, call, rule)
}

/// A void at c itself goes too.
fn void_at_c_too(state: &mut State, call: &Call) -> Answered {
    let rule: Rule = |contents, record, c| {
        let Some(index) = longest_place(contents, record, c) else {
            return Ok(());
        };
        take_voids(contents, record, c, record.places[index].length, None);
        take_hash(contents, record, index, c)
    };
    all_words(state, call, rule)
}

/// Only the first queue word is handled.
fn first_word_only(state: &mut State, call: &Call) -> Answered {
    let rule: Rule = |contents, record, c| {
        contents.settle_address(record, c);
        Ok(())
    };
    match call {
        Call::Settle => settle(state, rule, 1),
        _ => proved(state, call),
    }
}

/// The main table, the address of a hash in it, and the length of the hash's longest match.
fn run_of(state: &State, hash: u64) -> Result<(Table, usize, Option<u32>), String> {
    let table = Table::decode(&state.main).ok_or("the main table is no layout")?;
    let (k, width) = (state.record.k, state.record.width());
    let longest = longest_match(&table, width, k, hash).map(|(length, _)| length);
    Ok((table, canonical_slot(hash, k), longest))
}

/// One entry goes from the run of a slot, and nothing else is done: 6 where it is not there.
fn remove(state: &mut State, mut table: Table, slot: usize, payload: u32) -> Answered {
    if !table.take(slot, payload) {
        return Ok(Some(NO_MATCH));
    }
    state.main = table.layout();
    state.record.used -= 1;
    Ok(Some(DONE))
}

/// A tombstone matches every hash of its run, after all other entries.
fn tombstone_matches(state: &mut State, call: &Call) -> Answered {
    let (Call::Query(hash) | Call::Delete(hash) | Call::Rejuvenate(hash)) = call else {
        return proved(state, call);
    };
    if !state.record.in_range() || !state.lengths_fit() {
        return proved(state, call);
    }
    let mark = tombstone(state.record.width());
    let (table, slot, longest) = run_of(state, *hash)?;
    if longest.is_some() || table.count_of(slot, mark) == 0 {
        return proved(state, call);
    }
    match call {
        Call::Query(_) => Ok(Some(YES)),
        Call::Delete(_) => remove(state, table, slot, mark),
        _ => Err(String::from(
            "with this slip Rejuvenate of a tombstone is not played",
        )),
    }
}

/// Delete takes a void where the longest match has bits.
fn void_before_bits(state: &mut State, call: &Call) -> Answered {
    let Call::Delete(hash) = call else {
        return proved(state, call);
    };
    if !state.record.in_range() || !state.lengths_fit() {
        return proved(state, call);
    }
    match run_of(state, *hash)? {
        (table, slot, Some(1..)) => {
            let mark = void(state.record.width());
            remove(state, table, slot, mark)
        }
        _ => proved(state, call),
    }
}

/// Every cluster is taken to begin at slot 0. A Delete is played only where the walk does not matter.
fn walk_at_slot_0(state: &mut State, call: &Call) -> Answered {
    let at_home = |state: &State, hash: u64| {
        let slot = canonical_slot(hash, state.record.k);
        let word = state.main.get(slot).copied().unwrap_or_default();
        word & (SHIFTED | CONTINUATION) == 0
    };
    match call {
        Call::Start(..) | Call::Load(_) | Call::Audit => proved(state, call),
        Call::Query(hash) => Ok(Some(walk::query(state, *hash))),
        Call::Insert(hash) => Ok(Some(walk::insert(state, *hash))),
        Call::Delete(hash) if at_home(state, *hash) => proved(state, call),
        _ => Err(String::from(
            "with this slip only start, query, insert and audit are played, and delete of a run at home",
        )),
    }
}
