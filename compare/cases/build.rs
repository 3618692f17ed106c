//! What cases are made of: keys, groups of any type for a key, damage, and drawn keys.

use crate::draws::Draws;
use crate::second::bits::{bits_of, bits_of_bytes, bytes_of_bits, sum};
use crate::second::encoder::{groups_of, second_word, word_of_bytes};
use crate::second::groups::write_bytes;
use crate::second::keys::Key;

/// A case, and the answer and place it was made for, if it was made for one.
pub struct Case {
    pub sheet: Vec<u8>,
    pub exercise: u8,
    pub submission: Vec<u8>,
    pub meant: Option<(u8, usize)>,
}

/// A case of a sheet with one key, made for an answer and place.
pub fn case(meant: (u8, usize), key: &Key, submission: Vec<u8>) -> Case {
    Case { sheet: sheet(&[key]), exercise: 0, submission, meant: Some(meant) }
}

/// The same with four words for each group of the submission.
pub fn case_of(meant: (u8, usize), key: &Key, groups: &[[u16; 4]]) -> Case {
    case(meant, key, bytes(groups))
}

/// A case of any sheet and exercise, made for an answer and place.
pub fn case_on(meant: (u8, usize), sheet: &[u8], exercise: u8, submission: Vec<u8>) -> Case {
    Case { sheet: sheet.to_vec(), exercise, submission, meant: Some(meant) }
}

/// A key with no text wanted.
pub fn plain_key() -> Key {
    Key { pi: 0x1001, pty: 0, tp: false, text_wanted: false, name: *b"ABCDEFGH", text: [0; 64] }
}

/// A key with text wanted, no four characters of it alike.
pub fn text_key() -> Key {
    Key { pi: 0xD3C2, pty: 10, tp: true, text_wanted: true, name: *b"RADIO-UM", text: TEXT }
}

const TEXT: [u8; 64] = *b"A text of sixty-four characters, sent by fours in any order once";

/// Keys that differ by PI and name.
pub fn keys(count: usize) -> Vec<Key> {
    let key = |number: usize| {
        let mut key = plain_key();
        key.pi += number as u16;
        key.name[7] = 255 - number as u8 % 200;
        key
    };
    (0..count).map(key).collect()
}

/// The sheet of some keys, good or not.
pub fn sheet(keys: &[&Key]) -> Vec<u8> {
    keys.iter().flat_map(|key| record(key)).collect()
}

pub fn sheet_of(keys: &[Key]) -> Vec<u8> {
    sheet(&keys.iter().collect::<Vec<_>>())
}

pub fn record(key: &Key) -> Vec<u8> {
    let flags = u8::from(key.tp) + 2 * u8::from(key.text_wanted);
    [&key.pi.to_be_bytes()[..], &[key.pty, flags], &key.name, &key.text, &[0; 4]].concat()
}

/// The words of a group with the key's header.
pub fn words(key: &Key, group_type: u8, version: u8, five: u8, third: u16, fourth: u16) -> [u16; 4] {
    [key.pi, second_word(group_type, version, key.tp, key.pty, five), third, fourth]
}

pub fn name_0a(key: &Key, address: u8) -> [u16; 4] {
    words(key, 0, 0, address, 0xE0CD, name_word(key, address))
}

pub fn name_0b(key: &Key, address: u8) -> [u16; 4] {
    words(key, 0, 1, address, key.pi, name_word(key, address))
}

fn name_word(key: &Key, address: u8) -> u16 {
    let at = 2 * usize::from(address);
    word_of_bytes(key.name[at], key.name[at + 1])
}

/// A 2A with a text flag of 0 or 1.
pub fn text_2a(key: &Key, flag: u8, address: u8) -> [u16; 4] {
    let at = 4 * usize::from(address);
    let third = word_of_bytes(key.text[at], key.text[at + 1]);
    words(key, 2, 0, 16 * flag + address, third, word_of_bytes(key.text[at + 2], key.text[at + 3]))
}

pub fn text_2b(key: &Key, flag: u8, address: u8) -> [u16; 4] {
    let at = 2 * usize::from(address);
    words(key, 2, 1, 16 * flag + address, key.pi, word_of_bytes(key.text[at], key.text[at + 1]))
}

/// The groups that pass for a key, as the encoder orders them: places 0 to 3 names, 4 to 19 text.
pub fn passing(key: &Key) -> Vec<[u16; 4]> {
    groups_of(key)
}

/// Some groups with one of them changed by a pattern in one of its words.
pub fn changed(groups: &[[u16; 4]], place: usize, word: usize, pattern: u16) -> Vec<[u16; 4]> {
    let mut groups = groups.to_vec();
    groups[place][word] ^= pattern;
    groups
}

/// Some groups with one more put in front of a place.
pub fn inserted(groups: &[[u16; 4]], place: usize, group: [u16; 4]) -> Vec<[u16; 4]> {
    [&groups[..place], &[group], &groups[place..]].concat()
}

/// Some groups without the one at a place.
pub fn without(groups: &[[u16; 4]], place: usize) -> Vec<[u16; 4]> {
    [&groups[..place], &groups[place + 1..]].concat()
}

pub fn bytes(groups: &[[u16; 4]]) -> Vec<u8> {
    groups.iter().flat_map(|&words| write_bytes(words)).collect()
}

/// A passing submission repeated and cut to a length.
pub fn cut(key: &Key, length: usize) -> Vec<u8> {
    bytes(&passing(key)).into_iter().cycle().take(length).collect()
}

/// A submission with a pattern of 26 bits turned in one of its blocks.
pub fn turned(submission: &[u8], block: usize, pattern: u32) -> Vec<u8> {
    let mut bits = bits_of_bytes(submission);
    let place = 26 * block;
    let turned = sum(&bits[place..place + 26], &bits_of(u64::from(pattern), 26));
    bits[place..place + 26].copy_from_slice(&turned);
    bytes_of_bits(&bits)
}

/// The pattern in a block of a pattern in its word.
pub fn in_word(pattern: u16) -> u32 {
    u32::from(pattern) << 10
}

impl Draws {
    /// A good key.
    pub fn key(&mut self, text_wanted: bool) -> Key {
        let mut key = Key { pi: self.word(), pty: self.below(32) as u8, tp: self.below(2) == 1, ..plain_key() };
        key.text_wanted = text_wanted;
        key.name = key.name.map(|_| 32 + self.below(224) as u8);
        if text_wanted {
            key.text = key.text.map(|_| 32 + self.below(224) as u8);
        }
        key
    }
}
