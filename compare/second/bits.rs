//! Lists of bits, first bit highest: numbers and bytes as bits, and back.

/// The lowest `count` bits of a number.
pub fn bits_of(number: u64, count: usize) -> Vec<bool> {
    (0..count).rev().map(|bit| number >> bit & 1 == 1).collect()
}

/// The number that some bits spell.
pub fn number_of(bits: &[bool]) -> u64 {
    bits.iter().fold(0, |number, &bit| 2 * number + u64::from(bit))
}

/// Bytes as bits, eight to a byte.
pub fn bits_of_bytes(bytes: &[u8]) -> Vec<bool> {
    bytes.iter().flat_map(|&byte| bits_of(u64::from(byte), 8)).collect()
}

/// Bits as bytes; the number of bits is a multiple of eight.
pub fn bytes_of_bits(bits: &[bool]) -> Vec<u8> {
    bits.chunks(8).map(|eight| number_of(eight) as u8).collect()
}

/// Two lists of one length added bit by bit, without carry.
pub fn sum(left: &[bool], right: &[bool]) -> Vec<bool> {
    left.iter().zip(right).map(|(l, r)| l != r).collect()
}
