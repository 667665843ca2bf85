//! A difference that was found, with the shortest history that shows one.

use crate::play::{play, Difference};
use second::script::Call;
use second::shrink::shrink;
use std::fmt::{self, Display, Formatter};
use std::time::{Duration, Instant};

/// Shrinking ends after so long, with what it has by then.
const SHRINKING: Duration = Duration::from_secs(60);

/// The numbers of the calls in a script.
const NAMES: &str = "0 load a state, 1 Start, 2 Query, 3 Insert, 4 Delete, 5 Rejuvenate, 6 Audit, \
                     7 Settle, 8 Double, 10 Query on bytes";

/// The lines of a script that make the two sides differ at the last of them.
pub struct Found {
    lines: Vec<String>,
    what: String,
    before: usize,
}

impl Found {
    /// Shrinks a script that differs.
    pub fn new(script: &[&Call], difference: &Difference) -> Found {
        let history = &script[..=difference.line];
        let end = Instant::now() + SHRINKING;
        let differs = |lines: &[&Call]| Instant::now() < end && play(lines).is_err();
        let least = shrink(history, differs);
        let what = match play(&least) {
            Err(difference) => difference.what,
            Ok(_) => String::from("it is not found a second time"),
        };
        Found {
            lines: least.iter().map(|call| call.line()).collect(),
            what,
            before: history.len(),
        }
    }
}

impl Display for Found {
    fn fmt(&self, out: &mut Formatter) -> fmt::Result {
        let (now, before) = (self.lines.len(), self.before);
        writeln!(out, "the shortest history found, {now} of {before} lines:")?;
        writeln!(out, "({NAMES})")?;
        for line in &self.lines {
            writeln!(out, "{line}")?;
        }
        write!(out, "at its last line: {}", self.what)
    }
}
