//! Scripts hold only calls whose outcome is determined, and have the length
//! asked for.

use second::adversarial::adversarial;
use second::damage::{damage, full_queue};
use second::lives::{lives, quick};
use second::script::{expected_output, Call};
use second::writer::Writer;
use second::State;

/// The script of one kind and the output expected from it.
fn replay(fill: fn(&mut Writer), seed: u64, calls: u32) -> (String, String) {
    let mut writer = Writer::new(seed, calls);
    fill(&mut writer);
    let script = writer.finish();
    let output = expected_output(&script).expect("a good script");
    assert!(!output.contains("open"));
    let lines = script.lines().filter(|line| is_call(line)).count();
    assert!(lines <= calls as usize);
    (script, output)
}

/// Whether a line is one of the calls 1 to 10.
fn is_call(line: &str) -> bool {
    let number = line.split(' ').next().and_then(|word| word.parse().ok());
    number.is_some_and(|number: u32| (1..=10).contains(&number))
}

/// How many output lines of the calls 1 to 8 start with a number.
fn answered(output: &str, number: u32) -> usize {
    let start = format!("{number} ");
    let lines = output.lines().filter(|line| line.split(' ').count() == 11);
    lines.filter(|line| line.starts_with(&start)).count()
}

#[test]
fn lives_have_all_their_calls() {
    let (script, output) = replay(lives, 1, 1500);
    let calls = script.lines().filter(|line| is_call(line)).count();
    assert_eq!(calls, 1500);
    for number in [0, 5, 6, 7] {
        assert!(answered(&output, number) > 0, "no answer {number}");
    }
    assert_eq!(replay(lives, 1, 1500).0, script);
    assert_ne!(replay(lives, 2, 1500).0, script);
}

#[test]
fn quick_scripts_hold_quick_calls_only() {
    let (script, output) = replay(quick, 1, 1500);
    for line in script.lines() {
        let call = line.split(' ').next().expect("a number");
        assert!(["0", "2", "3", "4", "5", "10", "12"].contains(&call));
    }
    for number in [0, 1, 6, 7] {
        assert!(answered(&output, number) > 0, "no answer {number}");
    }
}

#[test]
fn damage_meets_every_refusal() {
    let (_, output) = replay(damage, 1, 4000);
    for number in [0, 2, 3, 4, 5, 6, 7, 8, 9, 10] {
        assert!(answered(&output, number) > 0, "no answer {number}");
    }
}

/// Every answer but Start's own refusal, and tables that wrap.
#[test]
fn adversarial_histories_meet_the_limits() {
    let (script, output) = replay(adversarial, 1, 4000);
    for number in 0..=10 {
        assert!(answered(&output, number) > 0, "no answer {number}");
    }
    let mut state = State::default();
    let mut wraps = 0;
    for line in script.lines() {
        let call = Call::parse(line).expect("a good line");
        call.perform(&mut state);
        wraps += usize::from(state.main.first().is_some_and(|word| word & 4 != 0));
    }
    assert!(wraps > 100, "only {wraps} calls leave a table that wraps");
}

#[test]
fn the_longest_queue_is_full() {
    let (_, output) = replay(full_queue, 0, 10);
    let numbers: Vec<&str> = output.lines().map(|line| &line[..1]).collect();
    assert_eq!(numbers, ["0", "7", "7", "6", "0", "0", "8", "0", "0", "2"]);
}
