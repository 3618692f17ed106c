//! The encoder: a good key as its groups, 0A at addresses 0 to 3 and, if wanted, 2A at 0 to 15.

use super::answers::BUFFER_TOO_SHORT;
use super::bits::{bits_of, number_of};
use super::groups::write_bytes;
use super::keys::{key_of, Key};

/// Word 3 of a 0A: no frequencies, then the filler.
const NO_AF: u16 = 0xE0CD;

/// Word 2, from its parts.
pub fn second_word(group_type: u8, version: u8, tp: bool, pty: u8, five: u8) -> u16 {
    let parts = [
        bits_of(u64::from(group_type), 4),
        bits_of(u64::from(version), 1),
        vec![tp],
        bits_of(u64::from(pty), 5),
        bits_of(u64::from(five), 5),
    ];
    number_of(&parts.concat()) as u16
}

pub fn word_of_bytes(high: u8, low: u8) -> u16 {
    256 * u16::from(high) + u16::from(low)
}

fn name_group(key: &Key, address: u8) -> [u16; 4] {
    let at = 2 * usize::from(address);
    let second = second_word(0, 0, key.tp, key.pty, address);
    [key.pi, second, NO_AF, word_of_bytes(key.name[at], key.name[at + 1])]
}

fn text_group(key: &Key, address: u8) -> [u16; 4] {
    let at = 4 * usize::from(address);
    let second = second_word(2, 0, key.tp, key.pty, address);
    let third = word_of_bytes(key.text[at], key.text[at + 1]);
    [key.pi, second, third, word_of_bytes(key.text[at + 2], key.text[at + 3])]
}

/// The groups of a key, in order.
pub fn groups_of(key: &Key) -> Vec<[u16; 4]> {
    let mut groups: Vec<[u16; 4]> = (0..4).map(|address| name_group(key, address)).collect();
    if key.text_wanted {
        groups.extend((0..16).map(|address| text_group(key, address)));
    }
    groups
}

/// Writes the groups of an exercise in front of a buffer, and says how many bytes; bytes beyond stay.
pub fn encode(sheet: &[u8], exercise: usize, buffer: &mut [u8]) -> Result<usize, u8> {
    let key = key_of(sheet, exercise)?;
    let bytes: Vec<u8> = groups_of(&key).into_iter().flat_map(write_bytes).collect();
    if buffer.len() < bytes.len() {
        return Err(BUFFER_TOO_SHORT);
    }
    buffer[..bytes.len()].copy_from_slice(&bytes);
    Ok(bytes.len())
}
