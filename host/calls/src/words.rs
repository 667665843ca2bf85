//! The words of the command line.

use crate::run::Script;
use std::time::Duration;

#[derive(Debug, PartialEq)]
pub enum Wish<'a> {
    /// The fixed scripts of the gate.
    Fixed,
    /// One script.
    One(Script<'a>),
    /// The scripts in these files.
    Files(Vec<&'a str>),
    /// Fresh scripts for so long, from a seed on if it is given.
    On(Duration, Option<u64>),
}

pub const USAGE: &str = "usage: compare
       compare --minutes M [--seed S]
       compare SEED CALLS MODE
       compare --script FILE..";

pub fn read<'a>(words: &[&'a str]) -> Option<Wish<'a>> {
    match *words {
        [] => Some(Wish::Fixed),
        ["--script", ref files @ ..] if !files.is_empty() => Some(Wish::Files(files.to_vec())),
        ["--minutes", minutes] => Some(Wish::On(time(minutes)?, None)),
        ["--minutes", minutes, "--seed", seed] | ["--seed", seed, "--minutes", minutes] => {
            Some(Wish::On(time(minutes)?, Some(seed.parse().ok()?)))
        }
        [seed, calls, mode] => Some(Wish::One(Script {
            seed: seed.parse().ok()?,
            calls: calls.parse().ok()?,
            mode,
        })),
        _ => None,
    }
}

/// Minutes, of which parts may be asked for.
fn time(minutes: &str) -> Option<Duration> {
    let minutes: f64 = minutes.parse().ok()?;
    Duration::try_from_secs_f64(60.0 * minutes).ok()
}

#[cfg(test)]
mod tests {
    use super::*;

    fn read_line(line: &str) -> Option<Wish<'_>> {
        read(&line.split_whitespace().collect::<Vec<&str>>())
    }

    #[test]
    fn wishes() {
        let minutes = |seconds| Duration::from_secs(seconds);
        let (seed, calls, mode) = (7, 100, "quick");
        let one = Wish::One(Script { seed, calls, mode });
        assert_eq!(read_line(""), Some(Wish::Fixed));
        assert_eq!(read_line("7 100 quick"), Some(one));
        assert_eq!(read_line("--script a b"), Some(Wish::Files(vec!["a", "b"])));
        let on = |seconds, seed| Some(Wish::On(minutes(seconds), seed));
        assert_eq!(read_line("--minutes 3"), on(180, None));
        assert_eq!(read_line("--minutes 0.5 --seed 9"), on(30, Some(9)));
        assert_eq!(read_line("--seed 9 --minutes 2"), on(120, Some(9)));
    }

    #[test]
    fn other_words_are_refused() {
        for line in [
            "--minutes",
            "--minutes -1",
            "--minutes x",
            "--seed 3",
            "--script",
            "7 100",
            "x 100 quick",
            "7 -1 quick",
            "--minutes 1 --seed x",
            "--minutes 1 --calls 3",
        ] {
            assert_eq!(read_line(line), None, "{line}");
        }
    }
}
