//! Blocks: 26 bits, a word of 16 and a check of 10, by true long division.

use super::answers::OVER_26_BITS;
use super::bits::{bits_of, number_of, sum};

#[derive(Clone, Copy, PartialEq, Debug)]
pub enum Kind {
    A,
    B,
    C,
    CPrime,
    D,
}

pub const KINDS: [Kind; 5] = [Kind::A, Kind::B, Kind::C, Kind::CPrime, Kind::D];

pub const BLOCK_BITS: usize = 26;

/// x^10 + x^8 + x^7 + x^5 + x^4 + x^3 + 1, the highest power first.
const DIVISOR: [bool; 11] = [true, false, true, true, false, true, true, true, false, false, true];

/// The offset of a kind.
pub fn offset(kind: Kind) -> u16 {
    match kind {
        Kind::A => 0x0FC,
        Kind::B => 0x198,
        Kind::C => 0x168,
        Kind::CPrime => 0x350,
        Kind::D => 0x1B4,
    }
}

/// The remainder of some bits by the divisor: ten bits. The list has ten bits at least.
pub fn remainder(dividend: &[bool]) -> Vec<bool> {
    let mut rest = dividend.to_vec();
    for place in 0..rest.len() - 10 {
        if rest[place] {
            let part = sum(&rest[place..place + 11], &DIVISOR);
            rest[place..place + 11].copy_from_slice(&part);
        }
    }
    rest[rest.len() - 10..].to_vec()
}

/// The check of a word: the remainder of the word times x^10, plus the offset of the kind.
pub fn check(word: u16, kind: Kind) -> u16 {
    let mut dividend = bits_of(u64::from(word), 16);
    dividend.extend([false; 10]);
    let offset = bits_of(u64::from(offset(kind)), 10);
    number_of(&sum(&remainder(&dividend), &offset)) as u16
}

/// A word written as a block of a kind.
pub fn write(word: u16, kind: Kind) -> Vec<bool> {
    let mut block = bits_of(u64::from(word), 16);
    block.extend(bits_of(u64::from(check(word, kind)), 10));
    block
}

/// Are 26 bits valid as a kind: with its offset taken off, is a multiple of the divisor left?
pub fn valid(block: &[bool], kind: Kind) -> bool {
    let offset = bits_of(u64::from(offset(kind)), BLOCK_BITS);
    remainder(&sum(block, &offset)).iter().all(|&bit| !bit)
}

/// The word that a block holds in front.
pub fn word(block: &[bool]) -> u16 {
    number_of(&block[..16]) as u16
}

/// The word and kind of 26 bits, if a kind fits.
pub fn read(block: &[bool]) -> Option<(u16, Kind)> {
    let fitting = KINDS.into_iter().find(|&kind| valid(block, kind))?;
    Some((word(block), fitting))
}

/// The word of 26 bits, if they are valid as the kind expected.
pub fn judge(block: &[bool], expected: Kind) -> Option<u16> {
    valid(block, expected).then(|| word(block))
}

/// The bits of a block given as a number; a number over 26 bits is refused.
fn bits_of_number(block: u32) -> Result<Vec<bool>, u8> {
    if block >= 1 << BLOCK_BITS {
        return Err(OVER_26_BITS);
    }
    Ok(bits_of(u64::from(block), BLOCK_BITS))
}

/// A word written as a block of a kind, as a number.
pub fn write_number(word: u16, kind: Kind) -> u32 {
    number_of(&write(word, kind)) as u32
}

/// The word and kind of a block given as a number, or none, or the refusal.
pub fn read_number(block: u32) -> Result<Option<(u16, Kind)>, u8> {
    Ok(read(&bits_of_number(block)?))
}

/// The word of a block given as a number, if valid as the kind expected, or the refusal.
pub fn judge_number(block: u32, expected: Kind) -> Result<Option<u16>, u8> {
    Ok(judge(&bits_of_number(block)?, expected))
}
