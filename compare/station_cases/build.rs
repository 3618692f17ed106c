//! What streams are made of: groups of any type for a station, and bad blocks.

use crate::second::encoder::{second_word, word_of_bytes};
use crate::second::groups::{group_of, Group};

/// Groups, and the ends of lines that their record was made for.
pub struct Stream {
    pub groups: Vec<Group>,
    pub meant: Vec<&'static str>,
}

pub fn stream(meant: &[&'static str], groups: &[Group]) -> Stream {
    Stream { groups: groups.to_vec(), meant: meant.to_vec() }
}

/// A stream for each number of groups from the front, from 1 on.
pub fn steps(groups: &[Group]) -> Vec<Stream> {
    (1..=groups.len()).map(|count| stream(&[], &groups[..count])).collect()
}

/// The station that most groups are of, with PTY 10 and TP 1.
pub const PI: u16 = 0x1001;

pub fn good(words: [u16; 4]) -> Group {
    group_of(words.map(Some))
}

/// A group of which the places not marked good are bad.
pub fn masked(words: [u16; 4], good: [bool; 4]) -> Group {
    group_of([0, 1, 2, 3].map(|place| good[place].then_some(words[place])))
}

pub fn words(group_type: u8, version: u8, five: u8, third: u16, fourth: u16) -> [u16; 4] {
    [PI, second_word(group_type, version, true, 10, five), third, fourth]
}

pub fn name_0a(address: u8, codes: [u8; 2], name: &[u8; 2]) -> Group {
    good(words(0, 0, address, word_of_bytes(codes[0], codes[1]), word_of_bytes(name[0], name[1])))
}

pub fn name_0b(address: u8, third: u16, name: &[u8; 2]) -> Group {
    good(words(0, 1, address, third, word_of_bytes(name[0], name[1])))
}

/// A 2A with a text flag of 0 or 1.
pub fn text_2a(flag: u8, address: u8, text: &[u8; 4]) -> Group {
    let third = word_of_bytes(text[0], text[1]);
    good(words(2, 0, 16 * flag + address, third, word_of_bytes(text[2], text[3])))
}

pub fn text_2b(flag: u8, address: u8, text: &[u8; 2]) -> Group {
    good(words(2, 1, 16 * flag + address, PI, word_of_bytes(text[0], text[1])))
}

/// A 4A with these fields as they are, in range or not.
pub fn clock_4a(day: u32, time: [u16; 2], sign: u16, offset: u16) -> Group {
    let [hour, minute] = time;
    let third = 2 * (day % 32_768) as u16 + hour / 16;
    good(words(4, 0, (day / 32_768) as u8, third, hour % 16 * 4096 + 64 * minute + 32 * sign + offset))
}

/// The group with another PI.
pub fn of_station(pi: u16, group: Group) -> Group {
    let [_, second, third, fourth] = group.words;
    Group { words: [pi, second, third, fourth], ..group }
}

/// A group in nine bytes: four words, high byte first, and the mask, bit 3 for word 1.
pub fn group_bytes(group: &Group) -> Vec<u8> {
    let mask = group.good.iter().fold(0, |mask, &good| 2 * mask + u8::from(good));
    let words = group.words.iter().flat_map(|word| word.to_be_bytes());
    words.chain([mask]).collect()
}
