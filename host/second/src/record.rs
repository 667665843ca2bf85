//! The record of a filter and the tests for number 2.

use crate::numbers::{
    extra_bits, load_limit, LARGEST_F, LARGEST_POWER, LARGEST_START_POWER, LONGEST_QUEUE, PLACES,
    SHORTEST_MOTHER_HASH, SMALLEST_F, SMALLEST_POWER,
};

/// A place of the annex directory: "a mother-hash length b, a size power s and
/// a count".
#[derive(Clone, Copy, Debug, Default, PartialEq, Eq)]
pub struct Place {
    pub length: u32,
    pub size_power: u32,
    pub count: u32,
}

/// "The record of a filter holds k, start power, F, regime, used count, queue
/// length and the annex directory."
#[derive(Clone, Copy, Debug, Default, PartialEq, Eq)]
pub struct Record {
    pub k: u32,
    pub start_power: u32,
    pub f: u32,
    pub regime: u32,
    pub used: u32,
    pub queue_length: u32,
    pub places: [Place; PLACES],
}

/// "Start power 3 to 10, start fingerprint length F 3 to 15, regime 0 (fixed)
/// or 1 (widening)."
pub fn start_numbers_in_range(start_power: u32, f: u32, regime: u32) -> bool {
    (SMALLEST_POWER..=LARGEST_START_POWER).contains(&start_power)
        && (SMALLEST_F..=LARGEST_F).contains(&f)
        && regime <= 1
}

impl Record {
    /// "Generation X = k less the start power."
    pub fn generation(&self) -> u32 {
        self.k - self.start_power
    }

    /// "Fresh fingerprints have F plus extra bits".
    pub fn fresh_length(&self) -> u32 {
        self.f + extra_bits(self.regime, self.generation())
    }

    /// "W is the fresh length plus 1."
    pub fn width(&self) -> u32 {
        self.fresh_length() + 1
    }

    /// "places in use come first": a place is in use while its length is not 0.
    pub fn in_use(&self) -> &[Place] {
        let unused = self.places.iter().position(|place| place.length == 0);
        &self.places[..unused.unwrap_or(PLACES)]
    }

    /// The words of all tables in use: "An annex table for length b follows
    /// its predecessor directly."
    pub fn annex_words(&self) -> usize {
        self.in_use().iter().map(|p| 1usize << p.size_power).sum()
    }

    /// Where the table of a place in use starts in the annex.
    pub fn annex_offset(&self, index: usize) -> usize {
        let before = &self.in_use()[..index];
        before.iter().map(|p| 1usize << p.size_power).sum()
    }

    /// False exactly if number 2 holds: "record out of range".
    pub fn in_range(&self) -> bool {
        start_numbers_in_range(self.start_power, self.f, self.regime)
            && (self.start_power..=LARGEST_POWER).contains(&self.k)
            && self.used <= load_limit(self.k)
            && self.queue_length <= LONGEST_QUEUE
            && self.places_in_range()
    }

    /// "a count above its load limit", "directory lengths not strictly rising
    /// within 6 to k, s not within 3 to b-1, an unused place not zero".
    fn places_in_range(&self) -> bool {
        let in_use = self.in_use();
        let rising = in_use.windows(2).all(|two| two[0].length < two[1].length);
        let fit = in_use.iter().all(|place| {
            (SHORTEST_MOTHER_HASH..=self.k).contains(&place.length)
                && (SMALLEST_POWER..place.length).contains(&place.size_power)
                && place.count <= load_limit(place.size_power)
        });
        let unused = &self.places[in_use.len()..];
        rising && fit && unused.iter().all(|place| *place == Place::default())
    }
}

#[cfg(test)]
mod tests {
    use super::*;

    /// A record in range, with two places in use.
    fn good() -> Record {
        let mut record = Record {
            k: 9,
            start_power: 4,
            f: 5,
            regime: 1,
            used: 448,
            queue_length: 1 << 20,
            ..Record::default()
        };
        record.places[0] = place(6, 3, 7);
        record.places[1] = place(9, 8, 224);
        record
    }

    /// A place of three numbers.
    fn place(length: u32, size_power: u32, count: u32) -> Place {
        Place {
            length,
            size_power,
            count,
        }
    }

    /// The record with one thing changed.
    fn with(change: impl Fn(&mut Record)) -> Record {
        let mut record = good();
        change(&mut record);
        record
    }

    #[test]
    fn main_numbers_of_refusal_two() {
        assert!(good().in_range());
        assert!(!Record::default().in_range());
        assert!(!with(|r| r.start_power = 2).in_range());
        assert!(!with(|r| r.start_power = 10).in_range());
        assert!(!with(|r| r.start_power = 11).in_range());
        assert!(!with(|r| r.f = 2).in_range());
        assert!(!with(|r| r.f = 16).in_range());
        assert!(!with(|r| r.regime = 2).in_range());
        assert!(!with(|r| r.k = 3).in_range());
        assert!(with(|r| r.k = 20).in_range());
        assert!(!with(|r| r.k = 21).in_range());
        assert!(!with(|r| r.k = u32::MAX).in_range());
        assert!(!with(|r| r.used = 449).in_range());
        assert!(!with(|r| r.queue_length += 1).in_range());
    }

    #[test]
    fn places_of_refusal_two() {
        assert!(!with(|r| r.places[0].count = 8).in_range());
        assert!(!with(|r| r.places[0].length = 5).in_range());
        assert!(!with(|r| r.places[0].length = 9).in_range());
        assert!(!with(|r| r.places[1].length = 10).in_range());
        assert!(!with(|r| r.places[1].length = 6).in_range());
        assert!(!with(|r| r.places[0].size_power = 2).in_range());
        assert!(!with(|r| r.places[1].size_power = 9).in_range());
        assert!(!with(|r| r.places[1].size_power = u32::MAX).in_range());
        assert!(!with(|r| r.places[0].length = 0).in_range());
        assert!(!with(|r| r.places[2].count = 1).in_range());
        assert!(!with(|r| r.places[14].size_power = 1).in_range());
        assert!(!with(|r| r.places[3] = place(9, 3, 0)).in_range());
        assert!(with(|r| r.places[1].count = 0).in_range());
    }
}
