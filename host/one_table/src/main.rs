//! Random histories on the proved functions, held to the independent second program.
//!
//! Without arguments a fixed run: rounds from seed 1 on. `--seed S --minutes M` makes rounds from
//! seed S on until M minutes are over. The last line is 'N passed, M failed'.

mod lent;
mod tables;
mod tally;

use std::process::ExitCode;
use std::time::{Duration, Instant};
use tally::Tally;

/// In so many rounds a table of each size meets each payload width.
const FIXED_ROUNDS: u64 = 23;

/// Where the rounds begin, and how long they go on if not for the fixed number.
#[derive(Debug, PartialEq)]
struct Arguments {
    seed: u64,
    minutes: Option<u64>,
}

fn read_arguments(words: &[String]) -> Option<Arguments> {
    let mut arguments = Arguments {
        seed: 1,
        minutes: None,
    };
    for pair in words.chunks(2) {
        let number = pair.get(1)?.parse().ok()?;
        match pair[0].as_str() {
            "--seed" => arguments.seed = number,
            "--minutes" => arguments.minutes = Some(number),
            _ => return None,
        }
    }
    Some(arguments)
}

/// One round of every comparison.
fn round(seed: u64, tally: &mut Tally) {
    tables::round(seed, tally);
}

fn all_rounds(arguments: &Arguments, tally: &mut Tally) {
    let began = Instant::now();
    for index in 0.. {
        let over = match arguments.minutes {
            None => index == FIXED_ROUNDS,
            Some(minutes) => began.elapsed() >= Duration::from_secs(60 * minutes),
        };
        if over {
            return;
        }
        round(arguments.seed.wrapping_add(index), tally);
    }
}

fn main() -> ExitCode {
    let words: Vec<String> = std::env::args().skip(1).collect();
    let Some(arguments) = read_arguments(&words) else {
        eprintln!("usage: one_table [--seed S] [--minutes M]");
        return ExitCode::from(2);
    };
    let mut tally = Tally::default();
    all_rounds(&arguments, &mut tally);
    print!("{tally}");
    ExitCode::from(u8::from(tally.failed() > 0))
}

#[cfg(test)]
mod tests {
    use super::*;

    fn read(line: &str) -> Option<Arguments> {
        let words: Vec<String> = line.split_whitespace().map(String::from).collect();
        read_arguments(&words)
    }

    #[test]
    fn arguments() {
        let (seed, minutes) = (1, None);
        assert_eq!(read(""), Some(Arguments { seed, minutes }));
        let (seed, minutes) = (7, Some(3));
        assert_eq!(
            read("--minutes 3 --seed 7"),
            Some(Arguments { seed, minutes })
        );
        assert_eq!(read("--seed"), None);
        assert_eq!(read("--seed x"), None);
        assert_eq!(read("--slots 3"), None);
    }
}
