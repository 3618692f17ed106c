//! Groups as thirteen bytes and back, and the switches.

use super::{one, several, Case};
use crate::cases::build::turned;
use crate::draws::Draws;
use crate::codes::{group_codes, switches_code};
use crate::second::groups::{write_bytes, GROUP_BYTES};

fn words(draws: &mut Draws) -> [u16; 4] {
    [0; 4].map(|_| draws.word())
}

pub fn written() -> Vec<Case> {
    let mut draws = Draws::from(211);
    let mut groups = vec![[0x1001, 0x0000, 0xE0CD, 0x4142], [0x1001, 0x0800, 0x1234, 0x4142], [0; 4], [0xFFFF; 4]];
    groups.extend((0..80).map(|_| words(&mut draws)));
    let asked = |words: [u16; 4]| words.map(u16::to_be_bytes).concat();
    let answers = |words: [u16; 4]| write_bytes(words).into_iter().map(u64::from).collect();
    groups.into_iter().map(|words| several(10, &[&asked(words)], answers(words))).collect()
}

/// Whole groups, groups with a block damaged, and drawn bytes.
pub fn read() -> Vec<Case> {
    let mut draws = Draws::from(212);
    let mut cases = Vec::new();
    for _ in 0..60 {
        let whole = write_bytes(words(&mut draws));
        let damaged = turned(&whole, draws.below(4) as usize, 1 + draws.below((1 << 26) - 1));
        for bytes in [whole, damaged, draws.bytes(GROUP_BYTES)] {
            cases.push(several(11, &[&bytes], group_codes(&bytes).map(u64::from).to_vec()));
        }
    }
    cases
}

/// Each type and version with some of the five low bits.
pub fn switches() -> Vec<Case> {
    let words = (0..32).flat_map(|top: u16| (0..8).map(move |five| top << 11 | five << 2 | top % 4));
    words.map(|word2| one(4, &[&word2.to_be_bytes()], switches_code(word2))).collect()
}
