//! One slot word in its bits: what a reader sees first.

use crate::picture::{entry_of, Entry};
use crate::svg::Canvas;

const BOX: usize = 30;
const LEFT: usize = 190;
const FLAG: usize = 92;
const HEIGHT: usize = 74;

/// A word of a table with payloads of width W, and what left it there.
pub struct Word {
    pub heading: String,
    pub word: u32,
    pub width: u32,
}

/// What the payload says.
fn told(word: &Word) -> String {
    match entry_of(word.word, word.width) {
        Some(Entry::Bits(bits)) => format!("L = {}, bits {bits}", bits.len()),
        Some(Entry::Void) => String::from("L = 0: a void"),
        Some(Entry::Tombstone) => String::from("all ones: a tombstone"),
        _ => String::from("no entry"),
    }
}

/// One digit in its box, with a name under it.
fn digit(canvas: &mut Canvas, at: (usize, usize), width: usize, on: bool, name: &str) {
    let (x, y) = at;
    let class = if on { "plate" } else { "entry" };
    canvas.frame(class, at, (width, BOX), 0);
    canvas.label("bits", x + width / 2, y + 20, if on { "1" } else { "0" });
    canvas.label("small", x + width / 2, y + BOX + 12, name);
}

/// The name of a payload bit, counted from the lowest: a one before the first zero, the zero, or a bit of the fingerprint.
fn name_of(word: &Word, place: u32) -> &'static str {
    let payload = word.word / 8;
    let zero = (0..word.width).rev().find(|&p| payload >> p & 1 == 0);
    match zero {
        Some(zero) if place < zero => "bit",
        Some(zero) if place == zero => "zero",
        _ => "one",
    }
}

fn draw(canvas: &mut Canvas, word: &Word, y: usize) {
    canvas.label("title", 34, y + 14, &word.heading);
    canvas.label(
        "numbers",
        34,
        y + 30,
        &format!(
            "word {} = {} x 8 + {}",
            word.word,
            word.word / 8,
            word.word % 8
        ),
    );
    for index in 0..word.width {
        let place = word.width - 1 - index;
        let on = word.word >> (place + 3) & 1 == 1;
        let x = LEFT + index as usize * BOX;
        digit(canvas, (x, y), BOX, on, name_of(word, place));
    }
    let flags = LEFT + word.width as usize * BOX + 24;
    for (index, name) in ["shifted", "continuation", "occupied"].iter().enumerate() {
        let on = word.word >> (2 - index) & 1 == 1;
        digit(canvas, (flags + index * FLAG, y), FLAG, on, name);
    }
    canvas.label("title", flags + 3 * FLAG + 20, y + 20, &told(word));
}

/// Words one under another.
pub fn document(words: &[Word]) -> String {
    let mut canvas = Canvas::new();
    canvas.text_line("heading", "One entry through its life, as slot words");
    for word in words {
        let y = canvas.down(HEIGHT);
        draw(&mut canvas, word, y + 14);
    }
    canvas.finish(
        "Slot words in their bits",
        "Payload bits and the three low bits of each word",
    )
}
