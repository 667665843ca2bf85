//! The kinds of random scripts by their names.

use crate::adversarial::adversarial;
use crate::damage::{damage, full_queue};
use crate::lives::{large, lives, quick};
use crate::writer::Writer;

/// What fills a script with calls of one kind.
type Fill = fn(&mut Writer);

/// Every kind of random script.
pub const MODES: [(&str, Fill); 6] = [
    ("lives", lives),
    ("quick", quick),
    ("damage", damage),
    ("adversarial", adversarial),
    ("large", large),
    ("full", full_queue),
];

/// The script of a seed, a number of calls and a kind.
pub fn script(seed: u64, calls: u32, mode: &str) -> Result<String, String> {
    let found = MODES.iter().find(|(name, _)| *name == mode);
    let (_, fill) = found.ok_or_else(|| format!("no mode is called '{mode}'"))?;
    let mut writer = Writer::new(seed, calls);
    fill(&mut writer);
    Ok(writer.finish())
}
