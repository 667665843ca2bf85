//! Scripts of calls, one a line, and the output expected from them.
//!
//! A script is lines of decimal numbers; the first number of a line says which
//! call it is. The model and the product replay the same script, and their
//! outputs are compared line by line.

use crate::calls::{self, Answer};
use crate::numbers::PLACES;
use crate::record::Place;
use crate::state::State;
use std::fmt::Write;

/// What every word of the second main is lent as.
pub const LENT_WORD: u32 = u32::MAX;

/// One line of a script.
#[derive(Clone, Debug, PartialEq, Eq)]
pub enum Call {
    /// 0: the record and the lent words become these.
    Load(Box<State>),
    /// 1: Start with start power, F and regime.
    Start(u32, u32, u32),
    /// 2: Query.
    Query(u64),
    /// 3: Insert.
    Insert(u64),
    /// 4: Delete.
    Delete(u64),
    /// 5: Rejuvenate.
    Rejuvenate(u64),
    /// 6: Audit.
    Audit,
    /// 7: Settle.
    Settle,
    /// 8: Double with a second main of so many words.
    Double(usize),
    /// 9: the part lookup of one length.
    Part(u32),
    /// 10: the exported Query with k, W, hash and the number of bytes.
    Bytes(u32, u32, u64, usize),
    /// 11: print everything.
    Show,
    /// 12: the last line.
    End,
}

/// What a call gave.
#[derive(Clone, Debug, PartialEq, Eq)]
pub enum Outcome {
    /// The call answered this number.
    Number(u32),
    /// The part lookup gave these words.
    Part(Vec<u32>),
    /// Document 01 leaves the answer open.
    Open,
    /// The line is no call.
    Silent,
}

impl From<Answer> for Outcome {
    /// The same answer as the outcome of a call.
    fn from(answer: Answer) -> Outcome {
        match answer {
            Answer::Number(number) => Outcome::Number(number),
            Answer::Open => Outcome::Open,
        }
    }
}

/// Appends words to a line, each after a space.
fn push_words(line: &mut String, words: &[u32]) {
    for word in words {
        write!(line, " {word}").expect("writing to a string");
    }
}

/// The six numbers of a record, in the order of the script.
pub fn record_numbers(state: &State) -> [u32; 6] {
    let r = &state.record;
    [r.k, r.start_power, r.f, r.regime, r.used, r.queue_length]
}

/// The 45 numbers of the fifteen places.
pub fn place_numbers(state: &State) -> Vec<u32> {
    let places = state.record.places.iter();
    places
        .flat_map(|place| [place.length, place.size_power, place.count])
        .collect()
}

/// The line that loads a state.
fn load_line(state: &State) -> String {
    let mut line = String::from("0");
    push_words(&mut line, &record_numbers(state));
    push_words(&mut line, &place_numbers(state));
    for words in [&state.main, &state.queue, &state.annex] {
        push_words(&mut line, &[words.len() as u32]);
        push_words(&mut line, words);
    }
    line
}

impl Call {
    /// The line of a script for this call.
    pub fn line(&self) -> String {
        match self {
            Call::Load(state) => load_line(state),
            Call::Start(start_power, f, regime) => format!("1 {start_power} {f} {regime}"),
            Call::Query(hash) => format!("2 {hash}"),
            Call::Insert(hash) => format!("3 {hash}"),
            Call::Delete(hash) => format!("4 {hash}"),
            Call::Rejuvenate(hash) => format!("5 {hash}"),
            Call::Audit => String::from("6"),
            Call::Settle => String::from("7"),
            Call::Double(words) => format!("8 {words}"),
            Call::Part(length) => format!("9 {length}"),
            Call::Bytes(k, w, hash, count) => format!("10 {k} {w} {hash} {count}"),
            Call::Show => String::from("11"),
            Call::End => String::from("12"),
        }
    }

    /// Reads one line of a script.
    pub fn parse(line: &str) -> Result<Call, String> {
        let mut numbers = Numbers {
            words: line.split_whitespace(),
        };
        let call = match numbers.next()? {
            0 => Call::Load(Box::new(numbers.state()?)),
            1 => Call::Start(numbers.word()?, numbers.word()?, numbers.word()?),
            2 => Call::Query(numbers.next()?),
            3 => Call::Insert(numbers.next()?),
            4 => Call::Delete(numbers.next()?),
            5 => Call::Rejuvenate(numbers.next()?),
            6 => Call::Audit,
            7 => Call::Settle,
            8 => Call::Double(numbers.count()?),
            9 => Call::Part(numbers.word()?),
            10 => {
                let (k, w) = (numbers.word()?, numbers.word()?);
                Call::Bytes(k, w, numbers.next()?, numbers.count()?)
            }
            11 => Call::Show,
            12 => Call::End,
            other => return Err(format!("no call has the number {other}")),
        };
        match numbers.words.next() {
            None => Ok(call),
            Some(more) => Err(format!("unexpected '{more}' at the end of a line")),
        }
    }

    /// Carries the call out on a state. After a successful Double the second
    /// main is the main.
    pub fn perform(&self, state: &mut State) -> Outcome {
        match self {
            Call::Load(loaded) => {
                state.clone_from(loaded);
                Outcome::Silent
            }
            Call::Start(start_power, f, regime) => {
                Outcome::Number(calls::start(state, *start_power, *f, *regime))
            }
            Call::Query(hash) => calls::query(state, *hash).into(),
            Call::Insert(hash) => calls::insert(state, *hash).into(),
            Call::Delete(hash) => calls::delete(state, *hash).into(),
            Call::Rejuvenate(hash) => calls::rejuvenate(state, *hash).into(),
            Call::Audit => Outcome::Number(calls::audit(state)),
            Call::Settle => Outcome::Number(calls::settle(state)),
            Call::Double(words) => Outcome::Number(double_and_move(state, *words)),
            Call::Part(length) => {
                Outcome::Part(calls::part(&state.record, &state.annex, *length).to_vec())
            }
            Call::Bytes(k, w, hash, count) => {
                calls::query_bytes(*k, *w, *hash, &first_bytes(&state.main, *count)).into()
            }
            Call::Show | Call::End => Outcome::Silent,
        }
    }
}

/// Double with a second main of so many words, which becomes the main if the
/// call succeeds.
pub fn double_and_move(state: &mut State, words: usize) -> u32 {
    let mut second = vec![LENT_WORD; words];
    let number = calls::double(state, &mut second);
    if number == calls::DONE {
        state.main = second;
    } else {
        assert!(second.iter().all(|&word| word == LENT_WORD));
    }
    number
}

/// The first `count` bytes of words, "four a slot, lowest first", with zero
/// bytes added if there are not so many.
fn first_bytes(words: &[u32], count: usize) -> Vec<u8> {
    let mut bytes: Vec<u8> = words.iter().flat_map(|word| word.to_le_bytes()).collect();
    bytes.resize(count, 0);
    bytes
}

/// The numbers of a line, read one by one.
struct Numbers<'a> {
    words: std::str::SplitWhitespace<'a>,
}

impl Numbers<'_> {
    /// The next number of the line.
    fn next(&mut self) -> Result<u64, String> {
        let word = self.words.next().ok_or("a line ends too early")?;
        word.parse().map_err(|_| format!("'{word}' is no number"))
    }

    /// The next number, which has to be a 32-bit one.
    fn word(&mut self) -> Result<u32, String> {
        let number = self.next()?;
        u32::try_from(number).map_err(|_| format!("{number} is no 32-bit number"))
    }

    /// The next number as a number of words or bytes.
    fn count(&mut self) -> Result<usize, String> {
        self.word().map(|number| number as usize)
    }

    /// A number of words and then the words.
    fn list(&mut self) -> Result<Vec<u32>, String> {
        let count = self.count()?;
        (0..count).map(|_| self.word()).collect()
    }

    /// The record, the fifteen places and the three slices of call 0.
    fn state(&mut self) -> Result<State, String> {
        let mut state = State::default();
        state.record.k = self.word()?;
        state.record.start_power = self.word()?;
        state.record.f = self.word()?;
        state.record.regime = self.word()?;
        state.record.used = self.word()?;
        state.record.queue_length = self.word()?;
        for index in 0..PLACES {
            state.record.places[index] = Place {
                length: self.word()?,
                size_power: self.word()?,
                count: self.word()?,
            };
        }
        state.main = self.list()?;
        state.queue = self.list()?;
        state.annex = self.list()?;
        Ok(state)
    }
}

/// The digest of a list of words: from 0, times 16777619 plus the word plus 1
/// for each, modulo 2^32.
pub fn digest(words: &[u32]) -> u32 {
    let step = |d: u64, &word: &u32| (d * 16_777_619 + u64::from(word) + 1) % (1 << 32);
    words.iter().fold(0, step) as u32
}

/// The output line of a call of which the outcome is known, if it has one.
pub fn output_line(call: &Call, outcome: &Outcome, state: &State) -> Option<String> {
    match outcome {
        Outcome::Part(words) => Some(format!("{} {}", words.len(), digest(words))),
        Outcome::Open => Some(String::from("open")),
        Outcome::Number(number) if matches!(call, Call::Bytes(..)) => Some(number.to_string()),
        Outcome::Number(number) => Some(state_line(*number, state)),
        Outcome::Silent if *call == Call::Show => Some(show_line(state)),
        Outcome::Silent => None,
    }
}

/// The number of a call, the record and the digests of places and words.
fn state_line(number: u32, state: &State) -> String {
    let mut line = number.to_string();
    push_words(&mut line, &record_numbers(state));
    push_words(&mut line, &[digest(&place_numbers(state))]);
    for words in [&state.main, &state.queue, &state.annex] {
        push_words(&mut line, &[digest(words)]);
    }
    line
}

/// Everything in full.
fn show_line(state: &State) -> String {
    let mut line = String::new();
    push_words(&mut line, &record_numbers(state));
    push_words(&mut line, &place_numbers(state));
    for words in [&state.main, &state.queue, &state.annex] {
        push_words(&mut line, words);
    }
    line.trim_start().to_string()
}

/// The output expected from a script.
pub fn expected_output(script: &str) -> Result<String, String> {
    let mut state = State::default();
    let mut output = String::new();
    for (index, line) in script.lines().enumerate() {
        let call = Call::parse(line).map_err(|fault| format!("line {}: {fault}", index + 1))?;
        let outcome = call.perform(&mut state);
        if let Some(text) = output_line(&call, &outcome, &state) {
            output.push_str(&text);
            output.push('\n');
        }
        if call == Call::End {
            break;
        }
    }
    Ok(output)
}

#[cfg(test)]
mod tests {
    use super::*;

    #[test]
    fn digest_by_hand() {
        assert_eq!(digest(&[]), 0);
        assert_eq!(digest(&[4]), 5);
        assert_eq!(digest(&[4, 0]), 5 * 16_777_619 + 1);
        assert_eq!(digest(&[u32::MAX]), 0);
    }

    #[test]
    fn lines_read_back() {
        let mut state = State::lent(8, 2, 3);
        state.record.places[14].count = 9;
        state.queue[1] = 77;
        for call in [
            Call::Load(Box::new(state)),
            Call::Start(3, 4, 1),
            Call::Query(u64::MAX),
            Call::Double(16),
            Call::Bytes(3, 4, 5, 32),
            Call::Show,
        ] {
            assert_eq!(Call::parse(&call.line()), Ok(call));
        }
        assert!(Call::parse("13").is_err());
        assert!(Call::parse("6 6").is_err());
        assert!(Call::parse("").is_err());
        assert!(Call::parse("2 -1").is_err());
    }

    #[test]
    fn a_small_script_gives_its_output() {
        let mut script = Call::Load(Box::new(State::lent(8, 0, 0))).line();
        script.push_str("\n1 3 3 0\n3 20\n9 6\n10 3 4 20 32\n10 3 4 21 31\n11\n12\n");
        let output = expected_output(&script).expect("a good script");
        let lines: Vec<&str> = output.lines().collect();
        assert_eq!(lines.len(), 6);
        assert!(lines[0].starts_with("0 3 3 3 0 0 0 "));
        assert!(lines[1].starts_with("0 3 3 3 0 1 0 "));
        assert_eq!(lines[2..5], ["0 0", "1", "3"]);
        assert!(lines[5].ends_with(" 0 0 0 0 17 0 0 0"));
        assert_eq!(lines[5].split(' ').count(), 6 + 45 + 8);
    }
}
