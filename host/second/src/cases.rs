//! "Numbers to check by hand": the twelve cases of document 01.

use crate::contents::Contents;
use crate::script::{Call, Outcome};
use crate::state::State;

/// One step of a case.
pub enum Step {
    /// A call and the number it answers.
    Call(Call, u32),
    /// The main table has so many slots, these words, and zeros elsewhere.
    Main(usize, Vec<(usize, u32)>),
    /// The annex has these words, and zeros elsewhere.
    Annex(Vec<(usize, u32)>),
    /// The queue in use is these words.
    Queue(Vec<u32>),
    /// So many annex tables are in use.
    Tables(usize),
}

use Call::{Delete, Double, Insert, Query, Rejuvenate, Settle, Start};
use Step::{Annex, Main, Queue, Tables};

/// The queue and annex words lent to every case.
const LENT: (usize, usize) = (4, 32);

/// An accepted call.
fn done(call: Call) -> Step {
    Step::Call(call, 0)
}

/// The main table given word by word.
fn whole(words: &[u32]) -> Step {
    Main(words.len(), words.iter().copied().enumerate().collect())
}

/// "Insert 20, 44, 13", then "61".
fn two_steps() -> Vec<Step> {
    vec![
        done(Insert(20)),
        done(Insert(44)),
        done(Insert(13)),
        whole(&[0, 0, 0, 0, 17, 47, 12, 0]),
        done(Insert(61)),
        whole(&[0, 0, 0, 0, 17, 47, 12, 62]),
    ]
}

/// Cases 1 to 4.
fn single_table_cases() -> Vec<Vec<Step>> {
    let mut one = two_steps();
    one.truncate(4);
    let two = two_steps();
    let mut three = two_steps();
    three.extend([done(Insert(7)), whole(&[4, 0, 0, 0, 17, 47, 12, 63])]);
    let mut four = two_steps();
    four.extend([done(Delete(44)), whole(&[0, 0, 0, 0, 17, 9, 62, 0])]);
    vec![one, two, three, four]
}

/// "Fresh, Insert 20, Double" and again, up to case 8 at most.
fn doubled(times: usize) -> Vec<Step> {
    let after = [
        vec![done(Double(16)), Main(16, vec![(4, 73)])],
        vec![done(Double(32)), Main(32, vec![(20, 97)]), Tables(0)],
        vec![
            done(Double(64)),
            Main(64, vec![(20, 113)]),
            Annex(vec![(4, 2_097_041)]),
            Tables(1),
        ],
        vec![
            done(Double(128)),
            Main(128, vec![(20, 113), (84, 113)]),
            Tables(1),
            Step::Call(Query(148), 1),
            Step::Call(Query(21), 0),
        ],
    ];
    let mut steps = vec![done(Insert(20))];
    steps.extend(after.into_iter().take(times).flatten());
    steps
}

/// The steps after a Settle that leaves nothing.
fn all_zero() -> Vec<Step> {
    vec![
        done(Settle),
        Main(128, vec![]),
        Annex(vec![]),
        Queue(vec![]),
        Tables(0),
    ]
}

/// Cases 9 to 11.
fn settled_cases() -> Vec<Vec<Step>> {
    let mut nine = doubled(4);
    nine.extend([
        done(Delete(20)),
        Main(128, vec![(20, 121), (84, 113)]),
        Queue(vec![40]),
        Step::Call(Query(20), 0),
        Step::Call(Query(84), 1),
    ]);
    nine.extend(all_zero());
    let mut ten = doubled(4);
    ten.extend([
        done(Rejuvenate(84)),
        Main(128, vec![(20, 113), (84, 1)]),
        Queue(vec![169]),
        done(Settle),
        Main(128, vec![(84, 1)]),
        Annex(vec![]),
        Queue(vec![]),
        Tables(0),
    ]);
    let mut eleven = doubled(4);
    eleven.extend([
        done(Delete(20)),
        done(Delete(84)),
        Main(128, vec![(20, 121), (84, 121)]),
        Queue(vec![40, 168]),
    ]);
    eleven.extend(all_zero());
    vec![nine, ten, eleven]
}

/// Case 12.
fn longest_first_case() -> Vec<Step> {
    vec![
        done(Insert(20)),
        done(Double(16)),
        done(Insert(20)),
        done(Double(32)),
        done(Double(64)),
        done(Double(128)),
        Main(128, vec![(20, 113), (21, 118), (84, 113)]),
        Tables(2),
        done(Delete(20)),
        Main(128, vec![(20, 113), (21, 126), (84, 113)]),
        Queue(vec![40]),
        done(Settle),
        Main(128, vec![(20, 113), (84, 113)]),
        Annex(vec![(4, 2_097_041)]),
        Queue(vec![]),
        Tables(1),
        Step::Call(Query(84), 1),
    ]
}

/// The twelve cases, each after "Start 3, F 3, fixed".
pub fn twelve_cases() -> Vec<Vec<Step>> {
    let mut cases = single_table_cases();
    cases.extend((1..=4).map(doubled));
    cases.extend(settled_cases());
    cases.push(longest_first_case());
    for case in &mut cases {
        case.insert(0, done(Start(3, 3, 0)));
    }
    cases
}

/// Words that are zero but for those listed.
fn sparse(count: usize, listed: &[(usize, u32)]) -> Vec<u32> {
    let mut words = vec![0; count];
    for &(slot, word) in listed {
        words[slot] = word;
    }
    words
}

/// Compares what is with what document 01 says.
fn same<T: PartialEq + std::fmt::Debug>(found: T, wanted: T) -> Result<(), String> {
    if found == wanted {
        Ok(())
    } else {
        Err(format!("{found:?} instead of {wanted:?}"))
    }
}

/// Carries out one step.
fn run_step(step: &Step, state: &mut State) -> Result<(), String> {
    match step {
        Step::Call(call, number) => {
            same(call.perform(state), Outcome::Number(*number))?;
            same(Contents::read(state).is_some(), true)
        }
        Main(slots, listed) => same(state.main.clone(), sparse(*slots, listed)),
        Annex(listed) => same(state.annex.clone(), sparse(state.annex.len(), listed)),
        Queue(words) => same(state.queue_words(), words),
        Tables(count) => same(state.record.in_use().len(), *count),
    }
}

/// Runs one case on words lent as zeros.
pub fn run_case(case: &[Step]) -> Result<(), String> {
    let mut state = State::lent(8, LENT.0, LENT.1);
    for (index, step) in case.iter().enumerate() {
        run_step(step, &mut state).map_err(|fault| format!("step {}: {fault}", index + 1))?;
    }
    Ok(())
}

/// The twelve cases as a script, everything shown after each.
pub fn cases_script() -> String {
    let mut lines = Vec::new();
    for case in twelve_cases() {
        lines.push(Call::Load(Box::new(State::lent(8, LENT.0, LENT.1))).line());
        for step in &case {
            if let Step::Call(call, _) = step {
                lines.push(call.line());
            }
        }
        lines.push(Call::Show.line());
    }
    lines.push(Call::End.line());
    lines.join("\n") + "\n"
}

#[cfg(test)]
mod tests {
    use super::*;

    #[test]
    fn the_twelve_cases_hold() {
        let cases = twelve_cases();
        assert_eq!(cases.len(), 12);
        for (index, case) in cases.iter().enumerate() {
            assert_eq!(run_case(case), Ok(()), "case {}", index + 1);
        }
    }

    #[test]
    fn a_wrong_number_is_noticed() {
        let case = [done(Start(3, 3, 0)), Step::Call(Query(1), 1)];
        assert!(run_case(&case).is_err());
        let case = [done(Start(3, 3, 0)), done(Insert(20)), Main(8, vec![])];
        assert!(run_case(&case).is_err());
    }
}
