//! A marker as one would write it in Rust, for a good key: every block divided, then header, content and addresses.

use super::divide::{left, third, A, B, D};
use crate::second::keys::Key;

/// Block number `number` of the bytes.
fn block(bytes: &[u8], number: usize) -> u32 {
    let at = 26 * number;
    let four = bytes[at / 8..].iter().chain([&0; 4]).take(5).fold(0, |all, &byte| all << 8 | u64::from(byte));
    (four >> (14 - at % 8) & ((1 << 26) - 1)) as u32
}

fn words(bytes: &[u8], group: usize) -> [u16; 4] {
    [0, 1, 2, 3].map(|place| (block(bytes, 4 * group + place) >> 10) as u16)
}

/// The answer and its place for a submission of whole groups.
pub fn mark(key: &Key, bytes: &[u8]) -> (u8, usize) {
    let groups = bytes.len() / 13;
    for number in 0..4 * groups {
        let word2 = block(bytes, number / 4 * 4 + 1) >> 10;
        if left(block(bytes, number)) != [A, B, third(word2), D][number % 4] {
            return (4, number);
        }
    }
    let mut seen = 0u32;
    let mut flag = None;
    for group in 0..groups {
        match content(key, words(bytes, group), &mut flag) {
            Ok(address) => seen |= address.map_or(0, |address| 1 << address),
            Err(answer) => return (answer, group),
        }
    }
    let wanted = if key.text_wanted { 20 } else { 4 };
    match seen.trailing_ones() {
        missing if missing < wanted => (7, missing as usize),
        _ => (0, 0),
    }
}

fn pair(characters: &[u8], at: usize) -> u16 {
    u16::from(characters[at]) << 8 | u16::from(characters[at + 1])
}

/// The address that a group brings, if one; or answer 5 or 6.
fn content(key: &Key, words: [u16; 4], first_flag: &mut Option<u16>) -> Result<Option<usize>, u8> {
    let [pi, second, third, fourth] = words;
    let version = second >> 11 & 1;
    let header = second >> 5 & 0x3F == u16::from(key.tp) << 5 | u16::from(key.pty);
    if pi != key.pi || !header || version == 1 && third != key.pi {
        return Err(5);
    }
    match second >> 11 {
        0 | 1 => {
            let address = usize::from(second & 3);
            if fourth == pair(&key.name, 2 * address) {
                Ok(Some(address))
            } else {
                Err(6)
            }
        }
        4 => {
            let address = usize::from(second & 15);
            let flag = second >> 4 & 1;
            let text = third == pair(&key.text, 4 * address) && fourth == pair(&key.text, 4 * address + 2);
            let right = key.text_wanted && text && *first_flag.get_or_insert(flag) == flag;
            if right {
                Ok(Some(4 + address))
            } else {
                Err(6)
            }
        }
        5 => Err(6),
        _ => Ok(None),
    }
}
