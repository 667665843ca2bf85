//! The words and pictures of docs/TRAINING.md. The document has the calls; the program plays them and
//! writes what lies between `<!-- made: NAME -->` and `<!-- end -->`, and docs/pictures/NAME.svg.

use crate::anatomy::{self, Word};
use crate::picture::{self, Picture};
use crate::play::{self, Played};
use crate::{slips, svg, words};
use second::script::Call;
use second::State;
use std::fs;
use std::path::{Path, PathBuf};

/// What is shown of a block of calls.
#[derive(Clone, Debug, PartialEq, Eq)]
pub enum Shown {
    /// The table.
    Table,
    /// Its first entry in its bits.
    Anatomy,
    /// The table, and the one that a slip would leave.
    Slip(String),
    /// The table, and which slips would be noticed.
    EverySlip,
}

/// A block of calls in the document.
pub struct Block {
    pub name: String,
    pub shown: Shown,
    pub script: String,
}

/// A file of docs/pictures and what it has to hold.
pub type File = (String, String);

/// Up to so many words a table is written in full.
const IN_FULL: usize = 16;

/// The fenced blocks of one kind: the words behind it, and the lines inside.
pub fn fenced(document: &str, kind: &str) -> Vec<(Vec<String>, String)> {
    let mut found: Vec<(Vec<String>, String)> = Vec::new();
    let mut inside = false;
    for line in document.lines() {
        let fence = line.strip_prefix("```");
        let words: Option<Vec<&str>> = fence.map(|rest| rest.split_whitespace().collect());
        match words {
            Some(_) if inside => inside = false,
            Some(words) if words.first() == Some(&kind) => {
                inside = true;
                let info = words[1..].iter().map(|&word| String::from(word));
                found.push((info.collect(), String::new()));
            }
            _ if inside => {
                let text = &mut found.last_mut().expect("a block is open").1;
                text.push_str(line);
                text.push('\n');
            }
            _ => {}
        }
    }
    found
}

/// The blocks of calls.
pub fn blocks(document: &str) -> Result<Vec<Block>, String> {
    let read = |(info, script): (Vec<String>, String)| {
        let words: Vec<&str> = info.iter().map(String::as_str).collect();
        let (name, shown) = match words[..] {
            [name] => (name, Shown::Table),
            [name, "anatomy"] => (name, Shown::Anatomy),
            [name, "slip", slip] => (name, Shown::Slip(String::from(slip))),
            [name, "every", "slip"] => (name, Shown::EverySlip),
            _ => return Err(format!("a block of calls is headed '{}'", words.join(" "))),
        };
        let name = String::from(name);
        Ok(Block {
            name,
            shown,
            script,
        })
    };
    fenced(document, "calls").into_iter().map(read).collect()
}

/// Which calls of a script are pictured: those marked `# picture`, or the last.
fn pictured(script: &str) -> Vec<usize> {
    let calls = script
        .lines()
        .filter(|line| !line.trim_start().starts_with('#') && !line.trim().is_empty());
    let marks: Vec<bool> = calls.map(|line| line.contains("# picture")).collect();
    let marked: Vec<usize> = (0..marks.len()).filter(|&index| marks[index]).collect();
    match marks.len() {
        count if marked.is_empty() && count > 0 => vec![count - 1],
        _ => marked,
    }
}

/// Words of a table: all of a short one, else those that are not zero.
fn table_text(words: &[u32]) -> String {
    if words.len() <= IN_FULL {
        return words
            .iter()
            .map(u32::to_string)
            .collect::<Vec<String>>()
            .join(" ");
    }
    let used = words.iter().enumerate().filter(|(_, &word)| word != 0);
    let mut told: Vec<String> = used
        .map(|(slot, word)| format!("{word} at {slot}"))
        .collect();
    let rest = words.len() - told.len();
    told.push(format!("{rest} words 0"));
    told.join(", ")
}

/// All words of a state.
fn words_text(state: &State) -> String {
    let mut text = format!("main {}", table_text(&state.main));
    for (index, place) in state.record.in_use().iter().enumerate() {
        let from = state.record.annex_offset(index);
        let table = &state.annex[from..from + (1 << place.size_power)];
        text.push_str(&format!(
            "; annex, {} bits: {}",
            place.length,
            table_text(table)
        ));
    }
    let queue = state.queue_words();
    if !queue.is_empty() {
        text.push_str(&format!("; queue {}", table_text(queue)));
    }
    text
}

/// A call's answer as words.
fn answer_text(played: &Played) -> String {
    let number = played.number.unwrap_or_default();
    format!("{number}, {}", words::meaning(&played.call, number))
}

/// What is to be told of a script's answers: those of Query, and numbers other than 0.
fn answers_text(played: &[Played]) -> String {
    let asked =
        |p: &&Played| p.hash().is_some() && matches!(p.call, Call::Query(_)) || p.number != Some(0);
    let told: Vec<String> = played
        .iter()
        .filter(asked)
        .map(|p| format!("`{}`: {}", words::written(&p.call), answer_text(p)))
        .collect();
    match told.len() {
        0 => String::from("Every call answers 0."),
        _ => format!("{}. Every other call answers 0.", told.join("; ")),
    }
}

/// The text under a block without a slip.
fn case_text(block: &Block, played: &[Played]) -> String {
    let mut text = format!("![The table of {0}](pictures/{0}.svg)\n\n", block.name);
    for index in pictured(&block.script) {
        let p = &played[index];
        text.push_str(&format!(
            "- After `{}`: {}.\n",
            words::written(&p.call),
            words_text(&p.state)
        ));
    }
    text.push_str(&format!("- {}\n", answers_text(played)));
    text
}

/// The rows of the answers that differ, and of every Query and Audit.
fn answer_rows(right: &[Played], slipped: &[Played]) -> String {
    let mut text = String::new();
    for (r, s) in right.iter().zip(slipped) {
        let call = words::written(&r.call);
        let (told, slip) = (answer_text(r), answer_text(s));
        if told != slip {
            text.push_str(&format!("| `{call}` | {told} | **{slip}** |\n"));
        } else if matches!(r.call, Call::Query(_) | Call::Audit) {
            text.push_str(&format!("| `{call}` | {told} | {slip} |\n"));
        }
    }
    text
}

/// The text under a block with a slip.
fn slip_text(block: &Block, right: &[Played], slipped: &[Played]) -> String {
    let mut text = format!(
        "![Right, and with the slip](pictures/{}.svg)\n\n",
        block.name
    );
    text.push_str("| | Right | With the slip |\n|---|---|---|\n");
    for index in pictured(&block.script) {
        let call = words::written(&right[index].call);
        let (r, s) = (
            words_text(&right[index].state),
            words_text(&slipped[index].state),
        );
        let s = if r == s { "the same" } else { &s };
        text.push_str(&format!("| words after `{call}` | {r} | {s} |\n"));
    }
    text + &answer_rows(right, slipped)
}

/// Pictures of states one under another, each with words before its heading. A row that one shows is shown by all.
fn pictures(states: &[(&str, &Played)]) -> Vec<Picture> {
    let beside: Vec<&State> = states.iter().map(|(_, played)| &played.state).collect();
    let one = |(before, played): &(&str, &Played)| {
        let mut shown = picture::picture(played, &beside);
        shown.heading = format!("{before}{}", shown.heading);
        shown
    };
    states.iter().map(one).collect()
}

/// The pictures of a block without a slip.
fn case_pictures(block: &Block, played: &[Played]) -> String {
    let marked = pictured(&block.script).into_iter();
    let states: Vec<(&str, &Played)> = marked.map(|index| ("", &played[index])).collect();
    svg::document(&pictures(&states))
}

/// The pictures of a block with a slip: one where both leave the same, else the right one and the other.
fn slip_pictures(block: &Block, right: &[Played], slipped: &[Played], slip: &str) -> String {
    let with = format!("with the slip {slip}: ");
    let mut states: Vec<(&str, &Played)> = Vec::new();
    for index in pictured(&block.script) {
        let (r, s) = (&right[index], &slipped[index]);
        if r.state == s.state && r.number == s.number {
            states.push(("right, and with the slip: ", r));
        } else {
            states.extend([("right: ", r), (&with, s)]);
        }
    }
    svg::document(&pictures(&states))
}

/// The first entry of each pictured state, in its bits.
fn anatomy_of(block: &Block, played: &[Played]) -> String {
    let word = |index: usize| {
        let p = &played[index];
        let used = p.state.main.iter().copied().find(|&word| word != 0);
        Word {
            heading: words::written(&p.call),
            word: used.unwrap_or_default(),
            width: p.state.record.width(),
        }
    };
    let shown: Vec<Word> = pictured(&block.script).into_iter().map(word).collect();
    anatomy::document(&shown)
}

/// A row for each slip: whether a test that makes these calls and looks at answers and words would notice it.
fn noticed_rows(block: &Block, right: &[Played]) -> Result<String, String> {
    let mut text = String::from("\n| Slip | Noticed by these calls |\n|---|---|\n");
    for (slip, player) in slips::SLIPS {
        let slipped = play::all(&block.script, player)?;
        let mut both = right.iter().zip(&slipped);
        let other = both.find(|(r, s)| r.number != s.number || r.state != s.state);
        let told = match other {
            None => String::from("no"),
            Some((_, s)) => format!(
                "yes: `{}` answers {}",
                words::written(&s.call),
                answer_text(s)
            ),
        };
        text.push_str(&format!("| {slip} | {told} |\n"));
    }
    Ok(text)
}

/// The text and the picture of one block.
fn made_of(block: &Block) -> Result<(String, File), String> {
    let told = |fault: String| format!("{}: {fault}", block.name);
    let right = play::all(&block.script, play::proved).map_err(told)?;
    let (text, drawn) = match &block.shown {
        Shown::Table => (case_text(block, &right), case_pictures(block, &right)),
        Shown::Anatomy => (case_text(block, &right), anatomy_of(block, &right)),
        Shown::EverySlip => {
            let rows = noticed_rows(block, &right).map_err(told)?;
            (
                case_text(block, &right) + &rows,
                case_pictures(block, &right),
            )
        }
        Shown::Slip(slip) => {
            let slipped = play::all(&block.script, slips::named(slip)?).map_err(told)?;
            let text = slip_text(block, &right, &slipped);
            (text, slip_pictures(block, &right, &slipped, slip))
        }
    };
    Ok((text, (format!("{}.svg", block.name), drawn)))
}

/// The lines of a must-fail edit, as a difference.
fn edit_text(root: &Path, name: &str) -> Result<String, String> {
    let (krate, edit) = name.split_once('/').ok_or("an edit is named CRATE/NAME")?;
    let path = root.join(format!("crates/{krate}/must-fail/{edit}.edit"));
    let text = read(&path)?;
    let mut shown = format!("crates/{krate}/must-fail/{edit}.edit:\n\n```diff\n");
    for line in text.lines() {
        let (kind, rest) = line.split_once(": ").unwrap_or((line, ""));
        match kind {
            "file" => shown.push_str(&format!("# crates/{krate}/{rest}\n")),
            "old" => shown.push_str(&format!("- {rest}\n")),
            _ => shown.push_str(&format!("+ {rest}\n")),
        }
    }
    Ok(shown + "```\n")
}

/// The made text that a marker asks for, if the line is one, and the picture.
fn asked(
    root: &Path,
    blocks: &[Block],
    line: &str,
) -> Result<Option<(String, Option<File>)>, String> {
    let Some(inside) = line
        .strip_prefix("<!-- ")
        .and_then(|rest| rest.strip_suffix(" -->"))
    else {
        return Ok(None);
    };
    match inside.split_once(": ") {
        Some(("edit", name)) => Ok(Some((edit_text(root, name)?, None))),
        Some(("made", name)) => {
            let block = blocks.iter().find(|block| block.name == name);
            let block = block.ok_or_else(|| format!("no calls are called '{name}'"))?;
            made_of(block).map(|(text, file)| Some((text, Some(file))))
        }
        _ => Ok(None),
    }
}

/// The document with everything made anew, and the pictures.
pub fn made(root: &Path, document: &str) -> Result<(String, Vec<File>), String> {
    let blocks = blocks(document)?;
    let (mut text, mut files, mut skipping) = (String::new(), Vec::new(), false);
    for line in document.lines() {
        skipping &= line != "<!-- end -->";
        if skipping {
            continue;
        }
        text.push_str(line);
        text.push('\n');
        if let Some((shown, file)) = asked(root, &blocks, line)? {
            text.push_str(&format!("\n{shown}\n"));
            files.extend(file);
            skipping = true;
        }
    }
    Ok((text, files))
}

/// What `rt must-fail` said of the refusal of one edit.
fn refusal<'a>(log: &'a str, name: &str) -> Option<&'a str> {
    let head = format!("rt: must-fail {name}.edit: refused, as it must be: ");
    log.lines()
        .find_map(|line| line.strip_prefix(head.as_str()))
}

/// Whether a quotation is what was said of that edit: its lines have to be there in this order, ` .. ` for what is left out.
fn quoted_right(log: &str, name: &str, quoted: &str) -> Result<(), String> {
    let mut rest =
        refusal(log, name).ok_or_else(|| format!("{name}: not refused for its meaning"))?;
    for piece in quoted.lines().flat_map(|line| line.split(" .. ")) {
        let at = rest
            .find(piece)
            .ok_or_else(|| format!("{name}: the prover does not say '{piece}'"))?;
        rest = &rest[at + piece.len()..];
    }
    Ok(())
}

/// Holds every quotation to what `rt must-fail` said.
pub fn check_quotations(root: &Path, log: &Path) -> Result<(), String> {
    let quotations = fenced(&read(&document_of(root))?, "prover");
    let log = read(log)?;
    for (info, quoted) in &quotations {
        quoted_right(&log, &info.join(" "), quoted)?;
    }
    println!("{} quotations are what the prover says", quotations.len());
    Ok(())
}

pub fn document_of(root: &Path) -> PathBuf {
    root.join("docs/TRAINING.md")
}

pub fn read(path: &Path) -> Result<String, String> {
    fs::read_to_string(path).map_err(|fault| format!("{}: {fault}", path.display()))
}

pub fn write_file(path: &Path, text: &str) -> Result<(), String> {
    fs::write(path, text).map_err(|fault| format!("{}: {fault}", path.display()))
}

/// Every file that is made, with what it has to hold.
fn all_files(root: &Path) -> Result<Vec<(PathBuf, String)>, String> {
    let document = document_of(root);
    let (text, files) = made(root, &read(&document)?)?;
    let folder = root.join("docs/pictures");
    let mut all = vec![(document, text)];
    all.extend(
        files
            .into_iter()
            .map(|(name, text)| (folder.join(name), text)),
    );
    Ok(all)
}

/// Makes words and pictures anew.
pub fn write(root: &Path) -> Result<(), String> {
    let files = all_files(root)?;
    let folder = root.join("docs/pictures");
    fs::create_dir_all(&folder).map_err(|fault| format!("{}: {fault}", folder.display()))?;
    for (path, text) in &files {
        write_file(path, text)?;
    }
    println!("{} files written", files.len());
    Ok(())
}

/// Compares words and pictures with what is made anew; a picture that nothing makes is a fault too.
pub fn check(root: &Path) -> Result<(), String> {
    let files = all_files(root)?;
    for (path, text) in &files {
        if read(path)? != *text {
            return Err(format!(
                "{} is not what is made; host/training --write makes it",
                path.display()
            ));
        }
    }
    let folder = root.join("docs/pictures");
    let there = fs::read_dir(&folder).map_err(|fault| format!("{}: {fault}", folder.display()))?;
    if there.count() + 1 != files.len() {
        return Err(format!(
            "{} has a picture that nothing makes",
            folder.display()
        ));
    }
    println!("{} files are what is made", files.len());
    Ok(())
}

#[cfg(test)]
mod tests {
    use super::*;
    use second::cases::{twelve_cases, Step};

    const DOCUMENT: &str = include_str!("../../../docs/TRAINING.md");

    /// The calls of one block that may change something.
    fn changes_of(block: &Block) -> Vec<Call> {
        let played = play::all(&block.script, play::proved).expect("a good script");
        let mut calls: Vec<Call> = played.into_iter().map(|p| p.call).collect();
        calls.retain(|call| !matches!(call, Call::Query(_)));
        calls
    }

    #[test]
    fn the_cases_are_those_of_document_01() {
        let blocks = blocks(DOCUMENT).expect("good blocks");
        for (index, case) in twelve_cases().iter().enumerate() {
            let name = format!("case-{:02}", index + 1);
            let block = blocks.iter().find(|block| block.name == name).expect(&name);
            let calls = case.iter().filter_map(|step| match step {
                Step::Call(Call::Query(_), _) => None,
                Step::Call(call, _) => Some(call.clone()),
                _ => None,
            });
            assert_eq!(changes_of(block), calls.collect::<Vec<Call>>(), "{name}");
        }
    }

    #[test]
    fn every_slip_shows() {
        let blocks = blocks(DOCUMENT).expect("good blocks");
        let slips = blocks
            .iter()
            .filter(|block| block.name.starts_with("slip-"));
        for block in slips {
            let text = made_of(block).expect("a good block").0;
            assert!(text.contains("**"), "{}", block.name);
        }
    }

    #[test]
    fn every_slip_is_told() {
        let blocks = blocks(DOCUMENT).expect("good blocks");
        for (slip, _) in slips::SLIPS {
            let told = |block: &Block| block.shown == Shown::Slip(String::from(slip));
            assert!(blocks.iter().any(told), "{slip}");
        }
    }

    #[test]
    fn marked_calls_are_pictured() {
        assert_eq!(
            pictured("start\ndouble # picture\n\n# so\nsettle # picture\naudit"),
            [1, 2]
        );
        assert_eq!(pictured("start\ndouble\n"), [1]);
    }
}
