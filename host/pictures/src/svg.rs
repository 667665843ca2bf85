//! A picture as SVG. States are told by shape and text: an entry with bits is a box, a void a pill, a tombstone an arch.

use crate::picture::{Entry, Grid, Picture, Row, Slot, ROW};
use crate::terminal::{entry_text, gap_text};
use std::fmt::Write;

const MARGIN: usize = 34;
const CELL: usize = 104;
/// The width of every picture.
pub const WIDTH: usize = 2 * MARGIN + ROW * CELL;
/// From the top of a row: the end of the address, the top of the slot, its bottom, the run's line, the next row.
const PLATE: usize = 20;
const TOP: usize = 46;
const BOTTOM: usize = TOP + 76;
const RUN: usize = BOTTOM + 9;
const ROW_HEIGHT: usize = RUN + 32;
/// Bits in one line of a slot, large and small.
const BITS_IN_LINE: usize = 11;
const DENSE_IN_LINE: usize = 17;
/// How far a run's line goes out of its row, to go on in another.
const LEAD: usize = 18;
/// An address of more letters than this is written smaller.
const ADDRESS: usize = 12;

/// The elements drawn so far, and how far down the next one goes.
pub struct Canvas {
    body: String,
    y: usize,
}

/// Text that may stand in SVG.
fn escaped(text: &str) -> String {
    let text = text.replace('&', "&amp;");
    text.replace('<', "&lt;").replace('>', "&gt;")
}

impl Canvas {
    pub fn new() -> Canvas {
        Canvas {
            body: String::new(),
            y: 12,
        }
    }

    fn add(&mut self, element: &str) {
        writeln!(self.body, "{element}").expect("writing to a string");
    }

    /// Text of a class at x, y.
    pub fn label(&mut self, class: &str, x: usize, y: usize, text: &str) {
        let text = escaped(text);
        self.add(&format!(
            r#"<text class="{class}" x="{x}" y="{y}">{text}</text>"#
        ));
    }

    pub fn path(&mut self, class: &str, steps: &str) {
        self.add(&format!(r#"<path class="{class}" d="{steps}"/>"#));
    }

    pub fn frame(&mut self, class: &str, at: (usize, usize), size: (usize, usize), round: usize) {
        let ((x, y), (w, h)) = (at, size);
        self.add(&format!(
            r#"<rect class="{class}" x="{x}" y="{y}" width="{w}" height="{h}" rx="{round}"/>"#
        ));
    }

    /// A line of text on its own.
    pub fn text_line(&mut self, class: &str, text: &str) {
        self.y += 18;
        self.label(class, MARGIN, self.y, text);
    }

    /// Room of this height, and where it begins.
    pub fn down(&mut self, height: usize) -> usize {
        self.y += height;
        self.y - height
    }

    /// The document, with its title and description.
    pub fn finish(self, title: &str, description: &str) -> String {
        let height = self.y + 14;
        let (title, description) = (escaped(title), escaped(description));
        format!(
            r#"<svg xmlns="http://www.w3.org/2000/svg" width="{WIDTH}" height="{height}" viewBox="0 0 {WIDTH} {height}" role="img">
<title>{title}</title>
<desc>{description}</desc>
{STYLE}<rect class="paper" width="{WIDTH}" height="{height}"/>
{}</svg>
"#,
            self.body
        )
    }
}

const STYLE: &str = r##"<defs><marker id="tip" viewBox="0 0 8 8" refX="7" refY="4" markerWidth="8" markerHeight="8" orient="auto"><path d="M0 0L8 4L0 8z" fill="#222"/></marker></defs>
<style>
text{font-family:'DejaVu Sans',Verdana,Arial,sans-serif;font-size:11px;fill:#222}
.heading{font-size:15px;font-weight:bold}.title{font-size:12px;font-weight:bold}
.middle,.address,.bits,.dense,.small,.faint,.word{text-anchor:middle}
.address{font-size:12px;font-weight:bold}.small{font-size:10px}.faint{font-size:10px;fill:#777}
.bits{font-family:'DejaVu Sans Mono',Menlo,Consolas,monospace;font-size:13px;font-weight:bold}
.dense{font-family:'DejaVu Sans Mono',Menlo,Consolas,monospace;font-size:9px;font-weight:bold}
.word{font-family:'DejaVu Sans Mono',Menlo,Consolas,monospace;font-size:10px}
.paper{fill:#fff}.slot{fill:none;stroke:#bbb}.plate{fill:#e4e4e4;stroke:#222}
.entry{fill:#fff;stroke:#222;stroke-width:1.6}.void{fill:#f4f4f4;stroke:#222;stroke-width:1.6}
.tombstone{fill:#c4c4c4;stroke:#222;stroke-width:1.6}
.run{fill:none;stroke:#222;stroke-width:2.4}.arrow{fill:none;stroke:#222;stroke-width:1.3;marker-end:url(#tip)}
.seam{fill:none;stroke:#222;stroke-width:1.6;stroke-dasharray:5 3}.gap{fill:none;stroke:#777;stroke-width:3;stroke-dasharray:2 8}.rule{stroke:#222;stroke-width:1}
</style>
"##;

/// The left edge of a slot.
fn left_of(slot: &Slot) -> usize {
    MARGIN + slot.address % ROW * CELL
}

/// The middle of a slot.
fn middle_of(address: usize) -> usize {
    MARGIN + address % ROW * CELL + CELL / 2
}

/// The shape of an entry, with its top left corner.
fn shape(canvas: &mut Canvas, slot: &Slot, at: (usize, usize)) {
    let (x, y) = at;
    let size = (CELL - 10, BOTTOM - TOP - 22);
    match slot.entry {
        None => {}
        Some(Entry::Void) => canvas.frame("void", at, size, size.1 / 2),
        Some(Entry::Tombstone) => {
            let (w, h) = size;
            let steps = format!(
                "M{x} {}v-{}a{} 26 0 0 1 {w} 0v{}z",
                y + h,
                h - 26,
                w / 2,
                h - 26
            );
            canvas.path("tombstone", &steps);
        }
        Some(_) => canvas.frame("entry", at, size, 0),
    }
}

/// The lines of text inside an entry, each with its class and height: its bits or kind, then its own two bits or its mother hash.
fn inside(slot: &Slot) -> Vec<(&'static str, usize, String)> {
    let text: Vec<char> = entry_text(slot).chars().collect();
    let (class, height, letters) = match text.len() {
        0..=BITS_IN_LINE => ("bits", 14, BITS_IN_LINE),
        _ => ("dense", 10, DENSE_IN_LINE),
    };
    let bits = text.chunks(letters).map(|line| line.iter().collect());
    let mut lines: Vec<_> = bits.map(|line| (class, height, line)).collect();
    let flags = [
        (slot.is_shifted(), "shifted"),
        (slot.is_continuation(), "continuation"),
        (!slot.note.is_empty(), &slot.note),
    ];
    let told = flags.iter().filter(|(holds, _)| *holds);
    lines.extend(told.map(|(_, text)| ("small", 11, String::from(*text))));
    lines
}

/// One slot: frame, entry and word.
fn draw_slot(canvas: &mut Canvas, slot: &Slot, y: usize) {
    let (x, middle) = (left_of(slot), middle_of(slot.address));
    canvas.frame("slot", (x, y + TOP), (CELL, BOTTOM - TOP), 0);
    canvas.label(
        "word",
        middle,
        y + BOTTOM - 6,
        &format!("word {}", slot.word),
    );
    if slot.entry.is_none() {
        canvas.label("faint", middle, y + TOP + 34, "empty");
        return;
    }
    shape(canvas, slot, (x + 5, y + TOP + 5));
    let lines = inside(slot);
    let height: usize = lines.iter().map(|(_, height, _)| height).sum();
    let mut line = y + TOP + 5 + (BOTTOM - TOP - 22).saturating_sub(height) / 2;
    for (class, height, text) in &lines {
        line += height;
        canvas.label(class, middle, line - 2, text);
    }
}

/// The address above a slot: a plate where it is occupied.
fn draw_address(canvas: &mut Canvas, slot: &Slot, y: usize) {
    let middle = middle_of(slot.address);
    if !slot.is_occupied() {
        canvas.label("address", middle, y + 14, &slot.address.to_string());
        return;
    }
    canvas.frame("plate", (left_of(slot) + 6, y), (CELL - 12, PLATE), 3);
    let text = format!("{} occupied", slot.address);
    let class = if text.len() > ADDRESS {
        "small"
    } else {
        "address"
    };
    canvas.label(class, middle, y + 14, &text);
}

/// The arrow from an occupied address to the slot where its run starts: in the same row a curve, else
/// one that leaves to the right, where the rows and the seam go on, and one that comes in from the left.
fn draw_arrow(canvas: &mut Canvas, slot: &Slot, y: usize) {
    let (from, above) = (middle_of(slot.address), y + PLATE);
    match slot.start {
        _ if !slot.is_occupied() => {}
        None => canvas.label("small", from, above + 14, "has no run"),
        Some(start) if start >= slot.address && start / ROW == slot.address / ROW => {
            let (to, below) = (middle_of(start), y + TOP + 4);
            let (near, far) = (above + 20, above + 2);
            canvas.path(
                "arrow",
                &format!("M{from} {above}C{from} {near} {to} {far} {to} {below}"),
            );
        }
        Some(start) => {
            canvas.path("arrow", &format!("M{from} {above}v9h{}", CELL / 2 - 8));
            canvas.label(
                "small",
                from + 6,
                above + 21,
                &format!("run starts at {start}"),
            );
        }
    }
}

/// The arrow that comes in to the start of a run whose address is in another row or over the seam.
fn draw_arrival(canvas: &mut Canvas, slot: &Slot, y: usize) {
    let (Some(owner), false) = (slot.owner, slot.is_continuation()) else {
        return;
    };
    if owner <= slot.address && owner / ROW == slot.address / ROW {
        return;
    }
    let (from, to, line) = (left_of(slot) + 6, middle_of(slot.address), y + PLATE + 9);
    canvas.path("arrow", &format!("M{from} {line}H{to}V{}", y + TOP + 4));
    canvas.label("small", from + 20, line + 11, &format!("from {owner}"));
}

/// The line under one slot of a run: a foot where the run starts and one where it ends, a tip where it goes on in another row.
fn draw_run(canvas: &mut Canvas, slot: &Slot, y: usize) {
    if slot.entry.is_none() {
        return;
    }
    let last_of_row = slot.address % ROW == ROW - 1;
    let (mut x, mut end) = (left_of(slot), left_of(slot) + CELL);
    let mut steps = String::new();
    if !slot.is_continuation() {
        x += 8;
        steps = format!("M{x} {}v6", y + RUN - 6);
    } else if slot.address % ROW == 0 {
        x -= LEAD;
    }
    if !slot.goes_on {
        end -= 8;
    }
    write!(steps, "M{x} {}H{end}", y + RUN).expect("writing to a string");
    if !slot.goes_on {
        steps.push_str("v-6");
    }
    canvas.path("run", &steps);
    if slot.goes_on && last_of_row {
        canvas.path("arrow", &format!("M{end} {}h{LEAD}", y + RUN));
    }
    let owner = slot
        .owner
        .map_or(String::from("run of no address"), |c| format!("run of {c}"));
    canvas.label("small", (x + end) / 2, y + RUN + 13, &owner);
}

/// The seam between the last slot and slot 0.
fn draw_seam(canvas: &mut Canvas, slot: &Slot, slots: usize, y: usize) {
    let x = match slot.address {
        0 => MARGIN - 5,
        last if last + 1 == slots => left_of(slot) + CELL + 5,
        _ => return,
    };
    canvas.path("seam", &format!("M{x} {}V{}", y + TOP - 6, y + RUN + 4));
    canvas.label("faint", x, y + RUN + 15, "seam");
}

fn draw_row(canvas: &mut Canvas, slots: &[Slot], count: usize) {
    let y = canvas.y + 8;
    for slot in slots {
        draw_slot(canvas, slot, y);
        draw_address(canvas, slot, y);
        draw_run(canvas, slot, y);
        draw_seam(canvas, slot, count, y);
    }
    for slot in slots {
        draw_arrow(canvas, slot, y);
        draw_arrival(canvas, slot, y);
    }
    canvas.y += ROW_HEIGHT;
}

fn draw_gap(canvas: &mut Canvas, text: &str) {
    let y = canvas.y + 16;
    canvas.path("gap", &format!("M{MARGIN} {y}h{}", ROW * CELL));
    canvas.y += 20;
    canvas.label("middle", WIDTH / 2, canvas.y + 10, text);
    canvas.y += 14;
}

fn draw_grid(canvas: &mut Canvas, grid: &Grid) {
    canvas.y += 4;
    canvas.text_line("title", &grid.title);
    for row in &grid.rows {
        match row {
            Row::Slots(slots) => draw_row(canvas, slots, grid.slots),
            Row::Gap { from, to, used } => draw_gap(canvas, &gap_text(*from, *to, *used)),
        }
    }
}

/// One state under those before it.
fn draw(canvas: &mut Canvas, picture: &Picture) {
    canvas.text_line("heading", &picture.heading);
    canvas.text_line("numbers", &picture.numbers);
    picture
        .grids
        .iter()
        .for_each(|grid| draw_grid(canvas, grid));
    for queued in picture.queue.chunks(4) {
        canvas.text_line("title", &format!("queue: {}", queued.join(", ")));
    }
    canvas.y += 8;
}

/// States one under another, as one picture.
pub fn document(pictures: &[Picture]) -> String {
    let mut canvas = Canvas::new();
    for (index, picture) in pictures.iter().enumerate() {
        if index > 0 {
            let y = canvas.y + 4;
            canvas.path("rule", &format!("M0 {y}h{WIDTH}"));
            canvas.y += 8;
        }
        draw(&mut canvas, picture);
    }
    let headings: Vec<&str> = pictures.iter().map(|p| p.heading.as_str()).collect();
    let numbers: Vec<&str> = pictures.iter().map(|p| p.numbers.as_str()).collect();
    canvas.finish(&headings.join("; then "), &numbers.join("; then "))
}
