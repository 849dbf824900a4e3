//! The header check and the frame check, bit by bit.

/// the remainder of a check of `width` bits after one more bit
fn bit_step(width: u32, polynomial: u32, remainder: u32, bit: u32) -> u32 {
    let shifted = remainder << 1 & ((1 << width) - 1);
    if remainder >> (width - 1) == bit {
        shifted
    } else {
        shifted ^ polynomial
    }
}

/// "highest bit first"
pub fn bits(bytes: &[u8]) -> impl Iterator<Item = u32> + '_ {
    bytes.iter().flat_map(|byte| (0..8).rev().map(move |place| u32::from(byte >> place & 1)))
}

/// "Header check: polynomial hex 385, start value hex 1A"
pub fn header_remainder(bits: impl Iterator<Item = u32>) -> u32 {
    bits.fold(0x1a, |remainder, bit| bit_step(11, 0x385, remainder, bit))
}

/// "over sync, startup, frame number and length"
pub fn header_check(sync: bool, startup: bool, frame_number: u32, words: u32) -> u32 {
    let covered = u32::from(sync) << 19 | u32::from(startup) << 18 | frame_number << 7 | words;
    header_remainder((0..20).rev().map(|place| covered >> place & 1))
}

/// "Frame check: polynomial hex 5D6DCB, over header and payload, start value hex FEDCBA on channel A and ABCDEF on B, highest bit first."
pub fn frame_check(channel: u32, bytes: &[u8]) -> u32 {
    let start = if channel == 0 { 0xfedcba } else { 0xabcdef };
    bits(bytes).fold(start, |remainder, bit| bit_step(24, 0x5d6dcb, remainder, bit))
}
