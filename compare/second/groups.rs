//! Groups: four words and a mask, the header, the fields by type, and 13 bytes both ways.

use super::bits::{bits_of, bits_of_bytes, bytes_of_bits, number_of};
use super::blocks::{judge, word, write, Kind, BLOCK_BITS};
use super::clock::Clock;

pub const GROUP_BYTES: usize = 13;

/// Four words, and for each whether its block was good, word 1 first.
#[derive(Clone, Copy, PartialEq, Debug)]
pub struct Group {
    pub words: [u16; 4],
    pub good: [bool; 4],
}

/// What every group says of itself.
#[derive(Clone, Copy, PartialEq, Debug)]
pub struct Header {
    pub pi: u16,
    pub group_type: u8,
    pub version: u8,
    pub tp: bool,
    pub pty: u8,
}

/// What a group says by its type; the clock as it was sent.
#[derive(Clone, Copy, PartialEq, Debug)]
pub enum Fields {
    Name0A { switches: Switches, address: u8, name: [u8; 2], af: [u8; 2] },
    Name0B { switches: Switches, address: u8, name: [u8; 2] },
    Text2A { flag: bool, address: u8, text: [u8; 4] },
    Text2B { flag: bool, address: u8, text: [u8; 2] },
    Clock4A(Clock),
    Other,
}

#[derive(Clone, Copy, PartialEq, Debug)]
pub struct Switches {
    pub ta: bool,
    pub ms: bool,
    pub di: bool,
}

/// The kind of the third block, by word 2: C for version 0, C' for version 1.
pub fn third_kind(second_word: u16) -> Kind {
    if bits_of(u64::from(second_word), 16)[4] {
        Kind::CPrime
    } else {
        Kind::C
    }
}

/// The kinds of a group's blocks, in order.
pub fn kinds(second_word: u16) -> [Kind; 4] {
    [Kind::A, Kind::B, third_kind(second_word), Kind::D]
}

/// The header: word 1, and word 2 without its last five bits.
pub fn header(words: [u16; 4]) -> Header {
    let second = bits_of(u64::from(words[1]), 16);
    Header {
        pi: words[0],
        group_type: number_of(&second[0..4]) as u8,
        version: number_of(&second[4..5]) as u8,
        tp: second[5],
        pty: number_of(&second[6..11]) as u8,
    }
}

/// The two bytes of a word, high byte first.
pub fn bytes_of_word(word: u16) -> [u8; 2] {
    [(word / 256) as u8, (word % 256) as u8]
}

/// The fields that the type and version call for; only the words are looked at.
pub fn fields(words: [u16; 4]) -> Fields {
    let header = header(words);
    let five = &bits_of(u64::from(words[1]), 16)[11..16];
    let switches = Switches { ta: five[0], ms: five[1], di: five[2] };
    let name_address = number_of(&five[3..5]) as u8;
    let text_address = number_of(&five[1..5]) as u8;
    let third = bytes_of_word(words[2]);
    let fourth = bytes_of_word(words[3]);
    match (header.group_type, header.version) {
        (0, 0) => Fields::Name0A { switches, address: name_address, name: fourth, af: third },
        (0, 1) => Fields::Name0B { switches, address: name_address, name: fourth },
        (2, 0) => {
            Fields::Text2A { flag: five[0], address: text_address, text: [third[0], third[1], fourth[0], fourth[1]] }
        }
        (2, 1) => Fields::Text2B { flag: five[0], address: text_address, text: fourth },
        (4, 0) => Fields::Clock4A(super::clock::read(words)),
        _ => Fields::Other,
    }
}

/// Four words as four blocks, one after the other.
pub fn write_bits(words: [u16; 4]) -> Vec<bool> {
    let kinds = kinds(words[1]);
    (0..4).flat_map(|place| write(words[place], kinds[place])).collect()
}

/// Four words as 13 bytes.
pub fn write_bytes(words: [u16; 4]) -> Vec<u8> {
    bytes_of_bits(&write_bits(words))
}

/// A group from what its blocks gave: the word of each good block, 0 at the bad places.
pub fn group_of(blocks: [Option<u16>; 4]) -> Group {
    Group { words: blocks.map(|block| block.unwrap_or(0)), good: blocks.map(|block| block.is_some()) }
}

/// The group in 13 bytes, each block judged by itself, the third by word 2 as it stands.
pub fn read_bytes(bytes: &[u8]) -> Group {
    let bits = bits_of_bytes(bytes);
    let blocks: Vec<&[bool]> = bits.chunks(BLOCK_BITS).collect();
    let kinds = kinds(word(blocks[1]));
    group_of([0, 1, 2, 3].map(|place| judge(blocks[place], kinds[place])))
}

/// The four words in 13 bytes, good or not.
pub fn words_of_bytes(bytes: &[u8]) -> [u16; 4] {
    let bits = bits_of_bytes(bytes);
    [0, 1, 2, 3].map(|place| word(&bits[BLOCK_BITS * place..BLOCK_BITS * (place + 1)]))
}
