//! Query and Insert by walking over the words, as crates/walks, lookup and table do it, but with every cluster begun at slot 0.

use second::calls::{fresh_payload, FULL, RECORD_OUT_OF_RANGE, WRONG_LENGTH};
use second::numbers::load_limit;
use second::payload::{canonical_slot, match_length, CONTINUATION, OCCUPIED, SHIFTED};
use second::State;

/// Where the walk says that the run of c is: `from` slots on from `home`, and `carry` slots on from c.
struct Run {
    home: usize,
    from: usize,
    carry: usize,
}

/// The slots to the left of c up to one that is not shifted, and the occupied addresses among these, c left out.
fn walk_left(words: &[u32], c: usize) -> (usize, usize) {
    let (mut steps, mut marks) = (0, 0);
    while steps < words.len() {
        let word = words[(c + words.len() - steps) % words.len()];
        marks += (word & OCCUPIED) as usize;
        if word & SHIFTED == 0 {
            break;
        }
        steps += 1;
    }
    (steps, marks - (words[c] & OCCUPIED) as usize)
}

/// The slot of run m of those that begin at slot 0 or later.
fn seek(words: &[u32], m: usize) -> usize {
    let mut starts = (0..words.len()).filter(|&slot| words[slot] & CONTINUATION == 0);
    starts.nth(m).unwrap_or(words.len())
}

/// The run of c by the slipped walk: right where the entry at c is at home, else counted from slot 0.
fn locate(words: &[u32], c: usize) -> Run {
    if words[c] & (SHIFTED | CONTINUATION) == 0 {
        return Run {
            home: c,
            from: 0,
            carry: 0,
        };
    }
    let (steps, runs) = walk_left(words, c);
    let from = seek(words, runs);
    let carry = from.saturating_sub(steps);
    Run {
        home: 0,
        from,
        carry,
    }
}

/// The payloads of a run, of which no more are read than once round from its home.
fn payloads(words: &[u32], run: &Run) -> Vec<u32> {
    let slots = (run.from..words.len()).map(|step| (run.home + step) % words.len());
    let first = (run.home + run.from) % words.len();
    slots
        .take_while(|&slot| slot == first || words[slot] & CONTINUATION != 0)
        .map(|slot| words[slot] / 8)
        .collect()
}

/// Numbers 2 and 3.
fn refusal(state: &State) -> Option<u32> {
    match (
        state.record.in_range(),
        state.record.in_range() && state.lengths_fit(),
    ) {
        (false, _) => Some(RECORD_OUT_OF_RANGE),
        (true, false) => Some(WRONG_LENGTH),
        _ => None,
    }
}

/// Query by the slipped walk.
pub fn query(state: &State, hash: u64) -> u32 {
    if let Some(number) = refusal(state) {
        return number;
    }
    let (k, width) = (state.record.k, state.record.width());
    let c = canonical_slot(hash, k);
    let matching = |&payload: &u32| match_length(width, payload, hash, k).is_some();
    let found = state.main[c] & OCCUPIED != 0
        && payloads(&state.main, &locate(&state.main, c))
            .iter()
            .any(matching);
    u32::from(found)
}

/// The entry in hand goes to a slot, and each entry from there moves one slot on, up to the first empty one.
fn shove(words: &mut [u32], from: usize, entry: u32) {
    let mut hand = entry;
    for step in 0..words.len() {
        let at = (from + step) % words.len();
        let word = words[at];
        words[at] = hand + SHIFTED + (word & OCCUPIED);
        if word == 0 {
            return;
        }
        hand = word & !(SHIFTED | OCCUPIED);
    }
}

/// The payload goes into the run of c, `on` slots on from c, behind `rank` entries of its run.
fn put(words: &mut [u32], c: usize, on: usize, rank: usize, payload: u32) {
    let (word, at) = (words[c], (c + on) % words.len());
    let later = |word: u32| (word & !7) + CONTINUATION;
    if on == 0 {
        words[c] = payload * 8 + OCCUPIED;
        if word != 0 {
            shove(words, c + 1, later(word));
        }
        return;
    }
    words[c] = word | OCCUPIED;
    match rank {
        0 if word & OCCUPIED == 0 => shove(words, at, payload * 8),
        0 => {
            let first = words[at];
            words[at] = payload * 8 + SHIFTED + (first & OCCUPIED);
            shove(words, at + 1, later(first));
        }
        _ => shove(words, at, payload * 8 + CONTINUATION),
    }
}

/// Insert by the slipped walk.
pub fn insert(state: &mut State, hash: u64) -> u32 {
    if let Some(number) = refusal(state) {
        return number;
    }
    if state.record.used == load_limit(state.record.k) {
        return FULL;
    }
    let c = canonical_slot(hash, state.record.k);
    let payload = fresh_payload(&state.record, hash);
    let run = locate(&state.main, c);
    let smaller = |stored: &&u32| **stored < payload;
    let rank = match state.main[c] & OCCUPIED {
        0 => 0,
        _ => payloads(&state.main, &run)
            .iter()
            .take_while(smaller)
            .count(),
    };
    if run.carry + rank < state.main.len() {
        put(&mut state.main, c, run.carry + rank, rank, payload);
    }
    state.record.used += 1;
    0
}

#[cfg(test)]
mod tests {
    use super::*;

    #[test]
    fn the_third_insert_goes_to_the_wrong_slot() {
        let mut state = State::lent(8, 0, 0);
        second::start(&mut state, 3, 3, 0);
        for hash in [20, 44, 13] {
            assert_eq!(insert(&mut state, hash), 0);
        }
        assert_eq!(state.main, [0, 0, 0, 0, 17, 9, 46, 0]);
        assert_eq!([20, 44, 13].map(|hash| query(&state, hash)), [1, 0, 1]);
    }
}
