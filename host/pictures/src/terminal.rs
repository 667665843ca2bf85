//! A picture as lines of text.

use crate::picture::{Entry, Grid, Picture, Row, Slot};
use std::fmt::Write;

/// The words for an entry.
pub fn entry_text(slot: &Slot) -> String {
    match &slot.entry {
        None => String::from("."),
        Some(Entry::Bits(bits)) => bits.clone(),
        Some(Entry::Void) => String::from("void"),
        Some(Entry::Tombstone) => String::from("tombstone"),
        Some(Entry::TooLarge) => String::from("too large"),
    }
}

/// Whether the slot is occupied as an address, and where its run starts if it moved.
fn occupied_text(slot: &Slot) -> String {
    match slot.start {
        _ if !slot.is_occupied() => String::new(),
        Some(start) if start == slot.address => String::from("yes"),
        Some(start) => format!("yes -> {start}"),
        None => String::from("yes -> ?"),
    }
}

fn yes(holds: bool) -> String {
    String::from(if holds { "yes" } else { "" })
}

/// The run of an entry: a bracket opens where it starts and closes where it ends.
fn run_text(slot: &Slot) -> String {
    if slot.entry.is_none() {
        return String::new();
    }
    let owner = slot
        .owner
        .map_or(String::from("?"), |owner| owner.to_string());
    let open = if slot.is_continuation() { "--" } else { "[" };
    let close = if slot.goes_on { "--" } else { "]" };
    format!("{open}{owner}{close}")
}

/// What each line says of a slot.
type Line = (&'static str, fn(&Slot) -> String);

const LINES: [Line; 8] = [
    ("slot", |slot| slot.address.to_string()),
    ("occupied", occupied_text),
    ("entry", entry_text),
    ("shifted", |slot| yes(slot.is_shifted())),
    ("continues", |slot| yes(slot.is_continuation())),
    ("run of", run_text),
    ("word", |slot| slot.word.to_string()),
    ("mother", |slot| slot.note.clone()),
];

/// One line of a row, with columns of one width.
fn line(name: &str, cells: &[String], column: usize) -> String {
    let mut text = format!("  {name:<10}");
    for cell in cells {
        write!(text, "{cell:<column$}").expect("writing to a string");
    }
    text.trim_end().to_string() + "\n"
}

/// The lines of a row of slots; the line of mother hashes only in the annex.
fn row_text(slots: &[Slot]) -> String {
    let cells = LINES.map(|(name, text)| (name, slots.iter().map(text).collect::<Vec<String>>()));
    let widest = cells.iter().flat_map(|(_, row)| row).map(String::len).max();
    let column = widest.unwrap_or_default() + 2;
    let lines = cells.iter();
    lines
        .filter(|(name, row)| *name != "mother" || row.iter().any(|cell| !cell.is_empty()))
        .map(|(name, row)| line(name, row, column))
        .collect::<String>()
        + "\n"
}

/// What is said of slots that are left out.
pub fn gap_text(from: usize, to: usize, used: usize) -> String {
    match used {
        0 => format!("slots {from} to {to} are empty"),
        _ => format!("slots {from} to {to}, with {used} entries, are not shown"),
    }
}

fn grid_text(grid: &Grid) -> String {
    let mut text = format!("  {}\n", grid.title);
    for row in &grid.rows {
        match row {
            Row::Slots(slots) => text.push_str(&row_text(slots)),
            Row::Gap { from, to, used } => {
                text.push_str(&format!("  .. {} ..\n\n", gap_text(*from, *to, *used)));
            }
        }
    }
    text
}

/// The whole picture.
pub fn text(picture: &Picture) -> String {
    let mut text = format!("{}\n  {}\n", picture.heading, picture.numbers);
    text.extend(picture.grids.iter().map(grid_text));
    if !picture.queue.is_empty() {
        text.push_str(&format!("  queue: {}\n\n", picture.queue.join(", ")));
    }
    text
}
