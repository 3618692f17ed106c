//! Blocks as numbers: the long division, done anew for every block.

const DIVISOR: u32 = 0b101_1011_1001;

pub const A: u32 = 0x0FC;
pub const B: u32 = 0x198;
pub const C: u32 = 0x168;
pub const C_PRIME: u32 = 0x350;
pub const D: u32 = 0x1B4;

/// What the division leaves of 26 bits: the offset of the block's kind, where it is valid.
pub fn left(block: u32) -> u32 {
    let mut rest = block;
    for place in (10..26).rev() {
        rest ^= (rest >> place & 1) * (DIVISOR << (place - 10));
    }
    rest
}

/// The offset of the third kind, by word 2.
pub fn third(word2: u32) -> u32 {
    if word2 >> 11 & 1 == 0 {
        C
    } else {
        C_PRIME
    }
}
