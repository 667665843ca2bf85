//! "Slots" of document 01: payloads and slot words.

/// "plus 1 if occupied": speaks of the slot as an address.
pub const OCCUPIED: u32 = 1;
/// "2 if continuation": speaks of the entry stored there.
pub const CONTINUATION: u32 = 2;
/// "plus 4 if shifted": speaks of the entry stored there.
pub const SHIFTED: u32 = 4;

/// The lowest `count` bits of a number.
pub fn low_bits(number: u64, count: u32) -> u64 {
    number & ((1u64 << count) - 1)
}

/// "The lowest k bits of a hash are its canonical slot".
pub fn canonical_slot(hash: u64, k: u32) -> usize {
    low_bits(hash, k) as usize
}

/// "the next L bits are a fingerprint of length L".
pub fn fingerprint(hash: u64, k: u32, length: u32) -> u64 {
    low_bits(hash >> k, length)
}

/// "A payload of width W holds, from the top, W-1-L ones, a zero, and the L
/// fingerprint bits."
pub fn payload(width: u32, length: u32, bits: u64) -> u32 {
    let ones = (1u64 << (width - 1 - length)) - 1;
    ((ones << (length + 1)) + bits) as u32
}

/// "L = 0 is a void entry."
pub fn void(width: u32) -> u32 {
    payload(width, 0, 0)
}

/// "W ones are a tombstone".
pub fn tombstone(width: u32) -> u32 {
    ((1u64 << width) - 1) as u32
}

/// The fingerprint length L of a payload below 2^W, or nothing for a
/// tombstone: L is the place of the highest zero.
pub fn length_of(width: u32, payload: u32) -> Option<u32> {
    (0..width).rev().find(|&place| payload >> place & 1 == 0)
}

/// The L fingerprint bits of a payload.
pub fn bits_of(length: u32, payload: u32) -> u64 {
    low_bits(u64::from(payload), length)
}

/// "An entry matches a hash if it is in the hash's run, is no tombstone, and
/// its L bits equal the hash's bits k to k+L-1." Here the entry is known to be
/// in the run; the answer is L if it matches.
pub fn match_length(width: u32, payload: u32, hash: u64, k: u32) -> Option<u32> {
    let length = length_of(width, payload)?;
    (bits_of(length, payload) == fingerprint(hash, k, length)).then_some(length)
}

#[cfg(test)]
mod tests {
    use super::*;

    #[test]
    fn payloads_of_the_hand_numbers() {
        assert_eq!(payload(4, 3, 2), 2);
        assert_eq!(payload(4, 2, 1), 9);
        assert_eq!(payload(4, 1, 0), 12);
        assert_eq!(void(4), 14);
        assert_eq!(tombstone(4), 15);
        assert_eq!(payload(18, 3, 2) * 8 + 1, 2_097_041);
    }

    #[test]
    fn every_payload_reads_back() {
        for width in 4..=10 {
            for value in 0..tombstone(width) {
                let length = length_of(width, value).expect("no tombstone");
                assert_eq!(payload(width, length, bits_of(length, value)), value);
            }
            assert_eq!(length_of(width, void(width)), Some(0));
            assert_eq!(length_of(width, tombstone(width)), None);
        }
    }

    #[test]
    fn void_matches_always_and_tombstone_never() {
        for hash in [0, 1, 77, u64::MAX] {
            assert_eq!(match_length(4, void(4), hash, 3), Some(0));
            assert_eq!(match_length(4, tombstone(4), hash, 3), None);
        }
        assert_eq!(match_length(4, 9, 0b01_010, 3), Some(2));
        assert_eq!(match_length(4, 9, 0b10_010, 3), None);
    }
}
