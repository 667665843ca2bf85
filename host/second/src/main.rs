//! The second program on the command line.
//!
//! - `second cases` runs the twelve cases of document 01;
//! - `second script SEED CALLS MODE` writes a script;
//! - `second expect` reads a script and writes the output expected from it.

use second::cases::{cases_script, run_case, twelve_cases};
use second::modes;
use second::script::expected_output;
use std::io::{self, Read, Write};
use std::process::ExitCode;

const USAGE: &str = "usage: second cases
       second script SEED CALLS lives|quick|damage|adversarial|large|full|cases
       second expect < SCRIPT";

/// Runs the twelve cases and prints how many passed.
fn cases() -> Result<String, String> {
    let (mut passed, mut failed) = (0, 0);
    for (index, case) in twelve_cases().iter().enumerate() {
        match run_case(case) {
            Ok(()) => passed += 1,
            Err(fault) => {
                failed += 1;
                println!("case {}: {fault}", index + 1);
            }
        }
    }
    println!("{passed} passed, {failed} failed");
    if failed == 0 {
        Ok(String::new())
    } else {
        Err(String::from("not every case holds"))
    }
}

/// Writes a script of one kind.
fn script(seed: &str, calls: &str, mode: &str) -> Result<String, String> {
    let seed = seed.parse().map_err(|_| "SEED is no number")?;
    let calls = calls.parse().map_err(|_| "CALLS is no number")?;
    match mode {
        "cases" => Ok(cases_script()),
        _ => modes::script(seed, calls, mode),
    }
}

/// Reads a script and gives the output expected from it.
fn expect() -> Result<String, String> {
    let mut text = String::new();
    io::stdin()
        .read_to_string(&mut text)
        .map_err(|fault| fault.to_string())?;
    expected_output(&text)
}

/// Chooses by the first word of the command line.
fn main() -> ExitCode {
    let arguments: Vec<String> = std::env::args().skip(1).collect();
    let words: Vec<&str> = arguments.iter().map(String::as_str).collect();
    let result = match words[..] {
        ["cases"] => cases(),
        ["script", seed, calls, mode] => script(seed, calls, mode),
        ["expect"] => expect(),
        _ => Err(String::from(USAGE)),
    };
    match result {
        Ok(text) => match io::stdout().write_all(text.as_bytes()) {
            Ok(()) => ExitCode::SUCCESS,
            Err(_) => ExitCode::FAILURE,
        },
        Err(text) => {
            eprintln!("{}", text.trim_end());
            ExitCode::FAILURE
        }
    }
}
