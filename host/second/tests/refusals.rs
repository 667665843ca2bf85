//! "Refusal numbers and their order" of document 01.

use second::payload::payload;
use second::script::{Call, Outcome, LENT_WORD};
use second::{
    audit, delete, double, insert, part, query, query_bytes, rejuvenate, settle, start, Answer,
    Place, Record, State,
};

/// Case 8 of document 01: voids at 20 and 84 of 128, one annex table.
fn case_eight() -> State {
    let mut state = State::lent(8, 2, 16);
    assert_eq!(start(&mut state, 3, 3, 0), 0);
    assert_eq!(insert(&mut state, 20), Answer::Number(0));
    for words in [16, 32, 64, 128] {
        assert_eq!(Call::Double(words).perform(&mut state), Outcome::Number(0));
    }
    state
}

/// Carries out a call that has to answer a number and change nothing.
fn refused(state: &State, call: Call, number: u32) {
    let mut after = state.clone();
    let outcome = call.perform(&mut after);
    assert_eq!(outcome, Outcome::Number(number), "{call:?}");
    assert_eq!(after, *state, "{call:?} changed something");
}

/// Every call but Start, with the right second main.
fn all_calls(state: &State) -> Vec<Call> {
    let mut calls = quick_calls();
    calls.extend(slow_calls(state));
    calls
}

/// The four quick calls.
fn quick_calls() -> Vec<Call> {
    vec![
        Call::Query(20),
        Call::Insert(20),
        Call::Delete(20),
        Call::Rejuvenate(20),
    ]
}

/// The three slow calls.
fn slow_calls(state: &State) -> Vec<Call> {
    let words = 2 << state.record.k.min(20);
    vec![Call::Audit, Call::Settle, Call::Double(words)]
}

#[test]
fn two_before_everything() {
    let mut state = case_eight();
    state.record.f = 16;
    state.main.pop();
    for call in all_calls(&state) {
        refused(&state, call, 2);
    }
    let mut state = case_eight();
    state.record.k = 20;
    state.record.places[3].count = 1;
    refused(&state, Call::Double(16), 2);
    let zero = State::default();
    for call in all_calls(&zero) {
        refused(&zero, call, 2);
    }
}

#[test]
fn three_for_each_slice() {
    let mut state = case_eight();
    state.main.pop();
    for call in all_calls(&state) {
        refused(&state, call, 3);
    }
    let mut state = case_eight();
    state.main.push(0);
    for call in all_calls(&state) {
        refused(&state, call, 3);
    }
    let mut state = case_eight();
    state.annex.truncate(7);
    for call in all_calls(&state) {
        refused(&state, call, 3);
    }
    let mut state = case_eight();
    state.record.queue_length = 3;
    for call in all_calls(&state) {
        refused(&state, call, 3);
    }
    let state = case_eight();
    for words in [0, 128, 255, 257] {
        refused(&state, Call::Double(words), 3);
    }
}

#[test]
fn four_for_the_slow_and_open_for_the_quick() {
    let mut state = case_eight();
    state.main[20] = 121;
    for call in slow_calls(&state) {
        refused(&state, call, 4);
    }
    for call in quick_calls() {
        let mut after = state.clone();
        assert_eq!(call.perform(&mut after), Outcome::Open);
        assert_eq!(after, state);
    }
}

/// "k+L at least 6 for every entry with bits".
#[test]
fn four_for_entries_that_are_too_short() {
    for (start_power, length, number) in [(3, 3, 0), (3, 2, 4), (3, 1, 4), (4, 2, 0), (4, 1, 4)] {
        let mut state = State::lent(1 << start_power, 0, 0);
        start(&mut state, start_power, 3, 0);
        state.main[5] = payload(4, length, 0) * 8 + 1;
        state.record.used = 1;
        assert_eq!(audit(&state), number);
    }
}

/// Each part of "A state is sound if" broken by itself.
#[test]
fn four_for_each_part_of_soundness() {
    let harms: [fn(&mut State); 9] = [
        |state| state.record.used = 1,
        |state| state.main[7] = 16 * 8 + 1,
        |state| state.record.places[0].count = 0,
        |state| state.annex[4] = payload(18, 4, 2) * 8 + 1,
        |state| state.annex[4] += 1 << 21,
        |state| state.annex.swap(4, 5),
        |state| state.queue[0] = 40,
        |state| state.queue[0] = 41,
        |state| state.queue[0] = 257,
    ];
    for (index, harm) in harms.iter().enumerate() {
        let mut state = case_eight();
        if index == 1 {
            state.record.used = 3;
        }
        if index >= 6 {
            state.record.queue_length = 1;
        }
        harm(&mut state);
        assert_eq!(audit(&state), 4, "harm {index}");
    }
}

#[test]
fn five_is_decided_by_the_record_alone() {
    let mut state = State::lent(8, 0, 0);
    start(&mut state, 3, 3, 0);
    for hash in 0..7 {
        assert_eq!(insert(&mut state, hash * 9), Answer::Number(0));
    }
    assert_eq!(audit(&state), 0);
    refused(&state, Call::Insert(1), 5);
    state.main[0] ^= 2;
    assert_eq!(audit(&state), 4);
    refused(&state, Call::Insert(1), 5);
    state.main.pop();
    refused(&state, Call::Insert(1), 3);
}

#[test]
fn six_before_seven() {
    let mut state = case_eight();
    state.queue.clear();
    refused(&state, Call::Delete(21), 6);
    refused(&state, Call::Rejuvenate(21), 6);
    refused(&state, Call::Delete(20), 7);
    refused(&state, Call::Rejuvenate(84), 7);
    assert_eq!(insert(&mut state, 84), Answer::Number(0));
    refused(&state, Call::Rejuvenate(84), 0);
    assert_eq!(delete(&mut state, 84), Answer::Number(0));
    refused(&state, Call::Delete(84), 7);
}

#[test]
fn seven_at_the_longest_queue() {
    let mut state = case_eight();
    state.queue = vec![1; (1 << 20) + 1];
    state.record.queue_length = 1 << 20;
    assert_eq!(audit(&state), 0);
    refused(&state, Call::Delete(20), 7);
    refused(&state, Call::Rejuvenate(84), 7);
    refused(&state, Call::Delete(21), 6);
    state.record.queue_length -= 1;
    assert_eq!(rejuvenate(&mut state, 84), Answer::Number(0));
    assert_eq!(state.queue[(1 << 20) - 1], 169);
    refused(&state, Call::Delete(20), 7);
    state.record.queue_length += 1;
    refused(&state, Call::Audit, 2);
}

#[test]
fn eight_before_ten() {
    let mut state = State::lent(8, 4, 8);
    start(&mut state, 3, 3, 0);
    insert(&mut state, 20);
    for words in [16, 32] {
        Call::Double(words).perform(&mut state);
    }
    insert(&mut state, 3);
    for words in [64, 128] {
        Call::Double(words).perform(&mut state);
    }
    refused(&state, Call::Double(256), 10);
    assert_eq!(delete(&mut state, 20), Answer::Number(0));
    refused(&state, Call::Double(256), 8);
    refused(&state, Call::Double(255), 3);
    state.main[20] ^= 8;
    refused(&state, Call::Double(256), 4);
    let mut second = vec![LENT_WORD; 256];
    assert_eq!(double(&mut state, &mut second), 4);
    assert!(second.iter().all(|&word| word == LENT_WORD));
}

#[test]
fn room_of_dropped_tables_is_used_again() {
    let mut state = State::lent(8, 4, 8);
    start(&mut state, 3, 3, 0);
    insert(&mut state, 20);
    for words in [16, 32] {
        Call::Double(words).perform(&mut state);
    }
    insert(&mut state, 3);
    for words in [64, 128] {
        Call::Double(words).perform(&mut state);
    }
    delete(&mut state, 20);
    assert_eq!(settle(&mut state), 0);
    assert_eq!(state.record.places[0], Place::default());
    assert_eq!(Call::Double(256).perform(&mut state), Outcome::Number(0));
    assert_eq!(state.record.places[0].length, 8);
    assert_eq!(audit(&state), 0);
}

#[test]
fn nine_before_three() {
    let mut state = case_eight();
    state.record.k = 20;
    refused(&state, Call::Double(0), 9);
    refused(&state, Call::Audit, 3);
    state.record.regime = 2;
    refused(&state, Call::Double(0), 2);
}

#[test]
fn start_eleven_before_three() {
    let lent = State {
        main: vec![7; 8],
        queue: vec![8; 3],
        annex: vec![9; 5],
        record: case_eight().record,
    };
    let numbers = [
        (2, 3, 0, 11),
        (11, 3, 0, 11),
        (3, 2, 0, 11),
        (3, 16, 0, 11),
        (3, 3, 2, 11),
        (4, 3, 0, 3),
        (4, 16, 0, 11),
    ];
    for (start_power, f, regime, number) in numbers {
        let mut state = lent.clone();
        assert_eq!(start(&mut state, start_power, f, regime), number);
        assert_eq!(state.record, Record::default());
        assert_eq!((&state.main, &state.queue), (&lent.main, &lent.queue));
    }
    let mut state = lent.clone();
    assert_eq!(start(&mut state, 3, 15, 1), 0);
    assert_eq!(state.main, vec![0; 8]);
    assert_eq!((&state.queue, &state.annex), (&lent.queue, &lent.annex));
    assert_eq!((state.record.k, state.record.f), (3, 15));
    assert_eq!(audit(&state), 0);
}

#[test]
fn part_lookup() {
    let state = case_eight();
    let (record, annex) = (&state.record, &state.annex);
    assert_eq!(part(record, annex, 6), &annex[..8]);
    assert_eq!(part(record, annex, 6)[4], 2_097_041);
    for length in [0, 5, 7, u32::MAX] {
        assert!(part(record, annex, length).is_empty());
    }
    assert!(part(record, &annex[..7], 6).is_empty());
    let mut bad = state.record;
    bad.regime = 2;
    assert!(part(&bad, annex, 6).is_empty());
}

#[test]
fn exported_query() {
    let state = case_eight();
    let bytes: Vec<u8> = state.main.iter().flat_map(|w| w.to_le_bytes()).collect();
    for hash in 0..300 {
        assert_eq!(query_bytes(7, 4, hash, &bytes), query(&state, hash));
    }
    for (k, w) in [(2, 4), (21, 4), (7, 3), (7, 27), (u32::MAX, u32::MAX)] {
        assert_eq!(query_bytes(k, w, 20, &bytes), Answer::Number(2));
    }
    assert_eq!(query_bytes(6, 4, 20, &bytes), Answer::Number(3));
    assert_eq!(query_bytes(7, 4, 20, &bytes[1..]), Answer::Number(3));
    assert_eq!(query_bytes(7, 3, 20, &bytes[1..]), Answer::Number(2));
    let mut harmed = bytes.clone();
    harmed[0] = 2;
    assert_eq!(query_bytes(7, 4, 20, &harmed), Answer::Open);
}

#[test]
fn exported_query_is_open_above_width_and_load() {
    let mut words = vec![0u32; 8];
    words[1] = 16 * 8 + 1;
    let bytes = |words: &[u32]| -> Vec<u8> { words.iter().flat_map(|w| w.to_le_bytes()).collect() };
    assert_eq!(query_bytes(3, 4, 1, &bytes(&words)), Answer::Open);
    assert_ne!(query_bytes(3, 5, 1, &bytes(&words)), Answer::Open);
    let full = vec![1u32; 8];
    assert_eq!(query_bytes(3, 4, 0, &bytes(&full)), Answer::Open);
}
