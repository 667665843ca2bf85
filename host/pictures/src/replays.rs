//! The slips once more, by the edits themselves: scripts for a copy of the crates with the edit in it, and the output that it has to give.

use crate::play::{self, Played};
use crate::slips;
use crate::training::{blocks, document_of, read, write_file, Block, Shown};
use second::script::{output_line, Call, Outcome};
use second::State;
use std::path::Path;

/// The queue and annex words lent to the edited program.
const REPLAYED: (usize, usize) = (8, 32);

/// What the edited program is to begin with, and the calls that it is to make: no slip is about Double, and
/// crates/replay does not make it, so it begins with what the last accepted Double left.
fn replayed(played: &[Played]) -> (State, Vec<&Call>) {
    let doubled = played
        .iter()
        .rposition(|p| matches!(p.call, Call::Double(_)) && p.number == Some(0));
    let (mut state, rest) = match doubled {
        Some(index) => (played[index].state.clone(), &played[index + 1..]),
        None => (played[0].state.clone(), played),
    };
    state.queue.truncate(REPLAYED.0);
    state.annex.truncate(REPLAYED.1);
    let calls = rest.iter().map(|p| &p.call);
    let others = calls.filter(|call| !matches!(call, Call::Double(_)));
    (state, others.collect())
}

/// A block as numbers for crates/replay, with everything shown at the end, and the output of the slip.
fn replay(block: &Block, slip: &str) -> Result<(String, String), String> {
    let player = slips::named(slip)?;
    let slipped = play::all(&block.script, player)?;
    let (state, calls) = replayed(&slipped);
    let mut lines = vec![Call::Load(Box::new(state)).line()];
    lines.extend(calls.into_iter().map(Call::line));
    let played = play::all(&lines.join("\n"), player)?;
    let output = |p: &Played| output_line(&p.call, &Outcome::Number(p.number?), &p.state);
    let mut expected: Vec<String> = played.iter().filter_map(output).collect();
    let last = &played[played.len() - 1].state;
    expected.extend(output_line(&Call::Show, &Outcome::Silent, last));
    lines.extend([Call::Show.line(), Call::End.line()]);
    Ok((lines.join("\n") + "\n", expected.join("\n") + "\n"))
}

/// For each block with a slip the script and the output that the edited program has to give, and the list of them.
pub fn write_replays(root: &Path, folder: &Path) -> Result<(), String> {
    let blocks = blocks(&read(&document_of(root))?)?;
    let mut list = String::new();
    for block in &blocks {
        if let Shown::Slip(slip) = &block.shown {
            let (script, output) = replay(block, slip)?;
            write_file(&folder.join(format!("{}.stdin", block.name)), &script)?;
            write_file(&folder.join(format!("{}.stdout", block.name)), &output)?;
            list.push_str(&format!("{} {slip}\n", block.name));
        }
    }
    write_file(&folder.join("list"), &list)
}

/// Puts an edit, in the form of the must-fail edits, into a crate.
pub fn edit(folder: &Path, file: &Path) -> Result<(), String> {
    let lines = read(file)?;
    let rest = lines
        .lines()
        .filter_map(|line| Some(line.split_once(": ")?.1));
    let parts: Vec<&str> = rest.collect();
    let path = folder.join(parts[0]);
    let mut source = read(&path)?;
    for change in parts[1..].chunks(2) {
        if source.matches(change[0]).count() != 1 {
            return Err(format!(
                "{}: '{}' is not there once",
                path.display(),
                change[0]
            ));
        }
        source = source.replace(change[0], change[1]);
    }
    write_file(&path, &source)
}
