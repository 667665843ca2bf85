//! "Numbers" of document 01: limits, the load limit and the extra bits.

/// "k up to 20", and every table has at least 2^3 slots.
pub const SMALLEST_POWER: u32 = 3;
/// "The main table has 2^k slots, k up to 20."
pub const LARGEST_POWER: u32 = 20;
/// "Start power 3 to 10".
pub const LARGEST_START_POWER: u32 = 10;
/// "start fingerprint length F 3 to 15".
pub const SMALLEST_F: u32 = 3;
/// "start fingerprint length F 3 to 15".
pub const LARGEST_F: u32 = 15;
/// "The annex has at most 15 tables".
pub const PLACES: usize = 15;
/// "the queue at most 2^20 words in use".
pub const LONGEST_QUEUE: u32 = 1 << 20;
/// "directory lengths [...] within 6 to k", "k+L at least 6".
pub const SHORTEST_MOTHER_HASH: u32 = 6;
/// Annex tables are laid out "with payload width 18".
pub const ANNEX_WIDTH: u32 = 18;
/// "exported Query: [...] W not 4 to 26" is refused.
pub const SMALLEST_WIDTH: u32 = 4;
/// "exported Query: [...] W not 4 to 26" is refused.
pub const LARGEST_WIDTH: u32 = 26;

/// "The load limit of a table of 2^n slots is 2^n - 2^(n-3), seven eighths."
pub fn load_limit(power: u32) -> u32 {
    (1 << power) - (1 << (power - 3))
}

/// "Its size power s is the smallest, from 3, whose load limit holds the count
/// when made."
pub fn size_power_for(count: u32) -> u32 {
    (SMALLEST_POWER..)
        .find(|&power| load_limit(power) >= count)
        .expect("some table holds the count")
}

/// The rounded-up log2 of a number of at least 1.
fn rounded_up_log2(number: u32) -> u32 {
    (0..32)
        .find(|&power| 1u64 << power >= u64::from(number))
        .expect("2^31 is large enough")
}

/// "Extra is 0 in the fixed regime. In the widening regime extra is 2 times
/// the rounded-up log2(X+1)".
pub fn extra_bits(regime: u32, generation: u32) -> u32 {
    if regime == 0 {
        0
    } else {
        2 * rounded_up_log2(generation + 1)
    }
}

#[cfg(test)]
mod tests {
    use super::*;

    #[test]
    fn extra_bits_are_the_table_of_the_document() {
        let table = [0, 2, 4, 4, 6, 6, 6, 6, 8, 8, 8, 8, 8, 8, 8, 8, 10, 10];
        for (generation, &extra) in (0u32..).zip(table.iter()) {
            assert_eq!(extra_bits(1, generation), extra);
            assert_eq!(extra_bits(0, generation), 0);
        }
    }

    #[test]
    fn load_limit_is_seven_eighths() {
        assert_eq!(load_limit(3), 7);
        assert_eq!(load_limit(4), 14);
        for power in 3..=20 {
            assert_eq!(load_limit(power) * 8, 7 << power);
        }
    }

    #[test]
    fn size_power_is_the_smallest_that_holds() {
        assert_eq!(size_power_for(1), 3);
        assert_eq!(size_power_for(7), 3);
        assert_eq!(size_power_for(8), 4);
        assert_eq!(size_power_for(14), 4);
        assert_eq!(size_power_for(15), 5);
        assert_eq!(size_power_for(load_limit(19)), 19);
    }
}
