//! Plays random scripts of the second program on the C interface and on the second program, and
//! compares every number, every field of the record and every lent word after each call. The
//! first difference ends it, and the shortest history found that shows one is printed.
//!
//! Without words it plays the fixed scripts of the gate; `SEED CALLS MODE` is one script,
//! `--script FILE..` those that were written before, and `--minutes M` plays fresh ones for so
//! long, `--seed S` from a seed on.

mod found;
mod play;
mod product;
mod run;
mod words;

use run::{Run, Script};
use std::process::ExitCode;
use std::time::{Duration, SystemTime, UNIX_EPOCH};
use words::{Wish, USAGE};

/// The scripts of the gate: a mode, its seeds and the calls of each.
const FIXED: [(&str, std::ops::Range<u64>, u32); 4] = [
    ("lives", 1..9, 10_000),
    ("quick", 1..5, 10_000),
    ("damage", 1..9, 10_000),
    ("adversarial", 1..5, 10_000),
];

/// The modes that `--minutes` plays in turn: the calls of a script, and of how many seeds one has
/// it. Those that take the second program long are few.
const IN_TURN: [(&str, u32, u64); 6] = [
    ("lives", 2_000, 1),
    ("quick", 2_000, 1),
    ("damage", 2_000, 1),
    ("adversarial", 2_000, 1),
    ("large", 150, 50),
    ("full", 10, 50),
];

fn fixed(run: &mut Run) -> Result<(), String> {
    let all = FIXED
        .into_iter()
        .flat_map(|(mode, seeds, calls)| seeds.map(move |seed| Script { seed, calls, mode }));
    for script in all {
        let compared = run.play(&script)?;
        println!("{} {}: {compared} calls agree", script.mode, script.seed);
    }
    Ok(())
}

fn written(run: &mut Run, files: &[&str]) -> Result<(), String> {
    for name in files {
        let text = std::fs::read_to_string(name).map_err(|fault| format!("{name}: {fault}"))?;
        run.play_text(name, &text)?;
    }
    Ok(())
}

/// The scripts of one seed.
fn turns(seed: u64) -> impl Iterator<Item = Script<'static>> {
    let due = IN_TURN.into_iter().filter(move |turn| seed % turn.2 == 0);
    due.map(move |(mode, calls, _)| Script { seed, calls, mode })
}

/// Every mode in turn with each seed from the first on, until the time is over.
fn on(run: &mut Run, time: Duration, first: u64) -> Result<(), String> {
    println!("seeds from {first} on");
    let seeds = (0..).map(|index| first.wrapping_add(index));
    for script in seeds.flat_map(turns) {
        run.play(&script)?;
        let over = run.lasted() >= time;
        run.progress(script.seed, over);
        if over {
            break;
        }
    }
    Ok(())
}

/// A seed that no run before is likely to have had.
fn fresh_seed() -> u64 {
    let now = SystemTime::now().duration_since(UNIX_EPOCH);
    now.map_or(1, |since| since.as_secs() << 20)
}

fn main() -> ExitCode {
    let arguments: Vec<String> = std::env::args().skip(1).collect();
    let words: Vec<&str> = arguments.iter().map(String::as_str).collect();
    let Some(wish) = words::read(&words) else {
        eprintln!("{USAGE}");
        return ExitCode::from(2);
    };
    let mut run = Run::new();
    let result = match wish {
        Wish::Fixed => fixed(&mut run),
        Wish::Files(files) => written(&mut run, &files),
        Wish::One(script) => run.play(&script).map(|_| ()),
        Wish::On(time, first) => on(&mut run, time, first.unwrap_or_else(fresh_seed)),
    };
    match result {
        Ok(()) => println!("{}", run.summary()),
        Err(ref told) => println!("{told}"),
    }
    ExitCode::from(u8::from(result.is_err()))
}
