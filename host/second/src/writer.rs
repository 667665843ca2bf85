//! Writes a script while carrying it out, so that it holds no call of which
//! document 01 leaves the answer open.

use crate::random::Random;
use crate::script::{Call, Outcome};
use crate::state::State;

/// A script in the making.
pub struct Writer {
    pub state: State,
    pub random: Random,
    calls_left: u32,
    lines: Vec<String>,
}

impl Writer {
    /// An empty script for a number of calls.
    pub fn new(seed: u64, calls: u32) -> Writer {
        Writer {
            state: State::default(),
            random: Random::new(seed),
            calls_left: calls,
            lines: Vec::new(),
        }
    }

    /// Whether the script has all its calls.
    pub fn done(&self) -> bool {
        self.calls_left == 0
    }

    /// Loads a state, unless the script has all its calls.
    pub fn load(&mut self, state: State) {
        if !self.done() {
            let call = Call::Load(Box::new(state));
            self.lines.push(call.line());
            call.perform(&mut self.state);
        }
    }

    /// Adds a call if its outcome is determined; the answer is its number, if
    /// it has one. A call left open changes nothing.
    pub fn call(&mut self, call: Call) -> Option<u32> {
        if self.done() {
            return None;
        }
        let outcome = call.perform(&mut self.state);
        if outcome == Outcome::Open {
            return None;
        }
        self.lines.push(call.line());
        self.calls_left -= 1;
        match outcome {
            Outcome::Number(number) => Some(number),
            _ => None,
        }
    }

    /// Prints everything at this point.
    pub fn show(&mut self) {
        self.lines.push(Call::Show.line());
    }

    /// The whole script.
    pub fn finish(mut self) -> String {
        self.lines.push(Call::End.line());
        self.lines.join("\n") + "\n"
    }
}
