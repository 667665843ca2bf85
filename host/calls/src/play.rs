//! One script on the C interface and on the second program.

use crate::product;
use second::script::{place_numbers, record_numbers, Call, LENT_WORD};
use second::{Answer, Record, State};

/// The index of a line at which the two sides differ, and what differs there.
#[derive(Debug)]
pub struct Difference {
    pub line: usize,
    pub what: String,
}

/// Plays the lines, and gives how many calls were compared.
pub fn play(lines: &[&Call]) -> Result<usize, Difference> {
    let (mut model, mut lent) = (State::default(), State::default());
    let mut compared = 0;
    for (line, call) in lines.iter().enumerate() {
        let done = step(&mut model, &mut lent, call);
        compared += usize::from(done.map_err(|what| Difference { line, what })?);
    }
    Ok(compared)
}

/// One line of a script on both, and whether it was a call that was compared. The part lookup is
/// not exported, so it is not.
fn step(model: &mut State, lent: &mut State, call: &Call) -> Result<bool, String> {
    match call {
        Call::Load(state) => {
            model.clone_from(state);
            lent.clone_from(state);
            Ok(false)
        }
        Call::Double(count) => doubled(model, lent, *count).map(|()| true),
        Call::Bytes(k, w, hash, count) => bytes(model, *k, *w, *hash, *count),
        Call::Part(_) | Call::Show | Call::End => Ok(false),
        _ => both(model, lent, call),
    }
}

/// A call on both, and whether its answer is determined and so was compared. A refused Start
/// through the lent record leaves that record, by value an all-zero one.
fn both(model: &mut State, lent: &mut State, on: &Call) -> Result<bool, String> {
    let before = lent.record;
    let Some(number) = expected(model, on) else {
        return Ok(false);
    };
    let got = product::call(lent, on)?;
    if matches!(on, Call::Start(..)) && number != 0 {
        if lent.record != before {
            return Err(String::from("a refused Start changed the lent record"));
        }
        lent.record = Record::default();
    }
    same(model, lent, (number, got))?;
    Ok(true)
}

/// What the model answers to a call that the product makes too, if it is determined.
fn expected(model: &mut State, on: &Call) -> Option<u32> {
    match *on {
        Call::Start(power, f, regime) => Some(second::start(model, power, f, regime)),
        Call::Query(hash) => known(second::query(model, hash)),
        Call::Insert(hash) => known(second::insert(model, hash)),
        Call::Delete(hash) => known(second::delete(model, hash)),
        Call::Rejuvenate(hash) => known(second::rejuvenate(model, hash)),
        Call::Audit => Some(second::audit(model)),
        Call::Settle => Some(second::settle(model)),
        _ => None,
    }
}

/// The number of a determined answer.
fn known(answer: Answer) -> Option<u32> {
    match answer {
        Answer::Number(number) => Some(number),
        Answer::Open => None,
    }
}

/// Double on both; where it is accepted the second main is the main.
fn doubled(model: &mut State, lent: &mut State, count: usize) -> Result<(), String> {
    let mut second = vec![LENT_WORD; count];
    let number = second::double(model, &mut second);
    let (got, left) = product::double(lent, &vec![LENT_WORD; count])?;
    same(model, lent, (number, got))?;
    if let Some(fault) = other_word("second main", &second, &left) {
        return Err(fault);
    }
    if number == 0 {
        model.main = second;
        lent.main = left;
    }
    Ok(())
}

/// The exported Query on both, and whether it was compared.
fn bytes(model: &State, k: u32, w: u32, hash: u64, count: usize) -> Result<bool, String> {
    let mut all: Vec<u8> = model.main.iter().flat_map(|w| w.to_le_bytes()).collect();
    all.resize(count, 0);
    let Some(number) = known(second::query_bytes(k, w, hash, &all)) else {
        return Ok(false);
    };
    let got = product::query_bytes(k, w, hash, &all);
    same(model, model, (number, got))?;
    Ok(true)
}

/// Numbers, records, widths and all lent words of both.
fn same(model: &State, lent: &State, numbers: (u32, u32)) -> Result<(), String> {
    if numbers.0 != numbers.1 {
        let (second, proved) = numbers;
        return Err(format!("number: second {second}, proved {proved}"));
    }
    let (numbers, places) = (record_numbers, place_numbers);
    other_word("record", &numbers(model), &numbers(lent))
        .or_else(|| other_word("directory", &places(model), &places(lent)))
        .or_else(|| {
            other_word(
                "width",
                &[width(&model.record)],
                &[width_given(&lent.record)],
            )
        })
        .or_else(|| other_word("main", &model.main, &lent.main))
        .or_else(|| other_word("queue", &model.queue, &lent.queue))
        .or_else(|| other_word("annex", &model.annex, &lent.annex))
        .map_or(Ok(()), Err)
}

/// The width that the C interface gives for the record.
fn width_given(record: &Record) -> u32 {
    let filter = product::lend(record);
    // The pointer is to a whole record.
    unsafe { exports::kj_width(&raw const filter) }
}

/// The width of the model's record, 0 where it is out of range.
fn width(record: &Record) -> u32 {
    if record.in_range() {
        record.width()
    } else {
        0
    }
}

/// The first word that differs. Both are lent equally many.
fn other_word(name: &str, second: &[u32], proved: &[u32]) -> Option<String> {
    let at = (0..second.len()).find(|&at| second[at] != proved[at])?;
    let (second, proved) = (second[at], proved[at]);
    Some(format!(
        "{name} word {at}: second {second}, proved {proved}"
    ))
}
