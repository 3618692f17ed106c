//! One block damaged: in one bit, in two bits anywhere, or within ten neighbouring bits.

use super::build::*;
use crate::draws::Draws;
use crate::second::keys::Key;

const BLOCK_BITS: u32 = 26;

/// Three submissions that pass: 0A, 0B, and 0A with 2A.
fn submissions() -> Vec<(Key, Vec<u8>)> {
    let plain = plain_key();
    let text = text_key();
    let all_0b: Vec<[u16; 4]> = (0..4).map(|address| name_0b(&plain, address)).collect();
    vec![(plain_key(), bytes(&passing(&plain))), (plain_key(), bytes(&all_0b)), (text_key(), bytes(&passing(&text)))]
}

fn damaged(submission: &(Key, Vec<u8>), block: usize, pattern: u32) -> Case {
    case((4, block), &submission.0, turned(&submission.1, block, pattern))
}

/// Each bit of one block, and one bit of each block.
pub fn one_bit() -> Vec<Case> {
    let submissions = submissions();
    let mut cases = Vec::new();
    for bit in 0..BLOCK_BITS {
        cases.push(damaged(&submissions[0], 5, 1 << bit));
    }
    for block in 0..16 {
        let bit = 7 * block as u32 % BLOCK_BITS;
        cases.push(damaged(&submissions[0], block, 1 << bit));
        cases.push(damaged(&submissions[1], block, 1 << (BLOCK_BITS - 1 - bit)));
    }
    for block in [0, 16, 18, 42, 79] {
        cases.push(damaged(&submissions[2], block, 1 << (block as u32 % BLOCK_BITS)));
    }
    cases
}

/// Two bits at every distance, and some drawn.
pub fn two_bits() -> Vec<Case> {
    let submissions = submissions();
    let mut draws = Draws::from(4);
    let mut cases = Vec::new();
    for distance in 1..BLOCK_BITS {
        let lower = draws.below(BLOCK_BITS - distance);
        let pattern = 1 << lower | 1 << (lower + distance);
        let block = draws.below(16) as usize;
        cases.push(damaged(&submissions[distance as usize % 2], block, pattern));
    }
    for _ in 0..6 {
        let lower = draws.below(25);
        let higher = lower + 1 + draws.below(25 - lower);
        cases.push(damaged(&submissions[2], draws.below(80) as usize, 1 << lower | 1 << higher));
    }
    cases
}

/// Three to ten neighbouring bits: all of them, only the outer ones and one between, and some drawn.
pub fn bursts() -> Vec<Case> {
    let submissions = submissions();
    let mut draws = Draws::from(5);
    let mut cases = Vec::new();
    for length in 3..11 {
        let outer = 1 | 1 << (length - 1);
        let one_between = 1 << (1 + draws.below(length - 2));
        for shape in [(1 << length) - 1, outer | one_between, outer | 2 * draws.below(1 << (length - 2))] {
            let shift = draws.below(BLOCK_BITS - length + 1);
            cases.push(damaged(&submissions[length as usize % 2], draws.below(16) as usize, shape << shift));
        }
    }
    // At both ends of a block, and over the seam of word and check.
    for block in [0, 1, 2, 3, 15] {
        cases.push(damaged(&submissions[0], block, 0x3FF));
        cases.push(damaged(&submissions[1], block, 0x3FF << 16));
        cases.push(damaged(&submissions[0], block, 0x3FF << 5));
    }
    for _ in 0..6 {
        let pattern = (1 + draws.below(1_023)) << draws.below(17);
        cases.push(damaged(&submissions[2], draws.below(80) as usize, pattern));
    }
    cases
}
