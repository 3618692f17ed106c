//! Blocks: written, read and judged.

use super::{one, Case};
use crate::draws::Draws;
use crate::codes::{judge_code, kind_number, read_code};
use crate::second::blocks::{write_number, Kind, KINDS};

/// Words with one bit set or none, all, and drawn ones.
fn words(draws: &mut Draws) -> Vec<u16> {
    let mut words: Vec<u16> = (0..16).map(|bit| 1 << bit).collect();
    words.extend([0x0000, 0xFFFF, 0x1001, 0xE0CD, 0x4142]);
    words.extend((0..29).map(|_| draws.word()));
    words
}

pub fn written() -> Vec<Case> {
    let mut cases = Vec::new();
    for word in words(&mut Draws::from(201)) {
        for kind in KINDS {
            cases.push(one(1, &[&word.to_be_bytes(), &[kind_number(kind)]], write_number(word, kind)));
        }
    }
    cases
}

/// Valid blocks, the same with a few bits turned, drawn numbers, and numbers from 26 bits on.
fn blocks(draws: &mut Draws, count: usize) -> Vec<u32> {
    let mut blocks = vec![0, (1 << 26) - 1, 1 << 26, u32::MAX, write_number(0, Kind::A) | 1 << 26];
    for _ in 0..count {
        let block = write_number(draws.word(), KINDS[draws.below(5) as usize]);
        let burst = (1 + draws.below(1_023)) << draws.below(17);
        blocks.extend([block, block ^ 1 << draws.below(26), block ^ burst, draws.below(1 << 26)]);
        blocks.push(block | 1 << (26 + draws.below(6)));
    }
    blocks
}

pub fn read() -> Vec<Case> {
    let blocks = blocks(&mut Draws::from(202), 80);
    blocks.into_iter().map(|block| one(2, &[&block.to_be_bytes()], read_code(block))).collect()
}

pub fn judged() -> Vec<Case> {
    let mut cases = Vec::new();
    for block in blocks(&mut Draws::from(203), 16) {
        for kind in KINDS {
            cases.push(one(3, &[&block.to_be_bytes(), &[kind_number(kind)]], judge_code(block, kind)));
        }
    }
    cases
}
