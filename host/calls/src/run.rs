//! Scripts played one after the other, up to the first difference.

use crate::found::Found;
use crate::play::play;
use second::modes;
use second::script::Call;
use std::time::{Duration, Instant};

/// What makes a script: `second script SEED CALLS MODE` writes the same.
#[derive(Clone, Copy, Debug, PartialEq)]
pub struct Script<'a> {
    pub seed: u64,
    pub calls: u32,
    pub mode: &'a str,
}

/// How often progress is shown.
const BETWEEN: Duration = Duration::from_secs(5);

/// What was played so far.
pub struct Run {
    began: Instant,
    shown: Duration,
    scripts: usize,
    compared: usize,
}

impl Run {
    pub fn new() -> Run {
        Run {
            began: Instant::now(),
            shown: Duration::ZERO,
            scripts: 0,
            compared: 0,
        }
    }

    pub fn lasted(&self) -> Duration {
        self.began.elapsed()
    }

    /// Plays one script, and gives how many of its calls were compared, or what there is to tell.
    pub fn play(&mut self, script: &Script) -> Result<usize, String> {
        let Script { seed, calls, mode } = *script;
        let text = modes::script(seed, calls, mode)?;
        self.play_text(&format!("{seed} {calls} {mode}"), &text)
    }

    /// The same for a script that is written already.
    pub fn play_text(&mut self, name: &str, text: &str) -> Result<usize, String> {
        let parsed: Result<Vec<Call>, String> = text.lines().map(Call::parse).collect();
        let parsed = parsed?;
        let lines: Vec<&Call> = parsed.iter().collect();
        let compared = play(&lines).map_err(|difference| {
            let seconds = self.lasted().as_secs_f64();
            let found = Found::new(&lines, &difference);
            format!("a difference after {seconds:.1} s in script {name}\n{found}")
        })?;
        self.scripts += 1;
        self.compared += compared;
        Ok(compared)
    }

    /// Shows how far it is, if it is time or the last time.
    pub fn progress(&mut self, seed: u64, last: bool) {
        let lasted = self.lasted();
        if lasted - self.shown < BETWEEN && !last {
            return;
        }
        self.shown = lasted;
        let seconds = lasted.as_secs();
        let (scripts, compared) = (self.scripts, self.compared);
        println!("{seconds} s: seed {seed}, {scripts} scripts, {compared} calls compared");
    }

    /// The last line of a run without a difference.
    pub fn summary(&self) -> String {
        format!("{} calls compared, no difference", self.compared)
    }
}
