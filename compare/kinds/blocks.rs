//! Blocks: all words of all kinds, damaged blocks, drawn numbers of 26 bits, and numbers over 26 bits.

use super::Kind as Cases;
use crate::draws::Draws;
use crate::codes::{judge_code, kind_number, read_code};
use crate::library;
use crate::second::blocks::{write_number, Kind, KINDS};

fn try_read(cases: &mut Cases, block: u32) {
    cases.equal(|| format!("{block:07x}"), library::read_block(block), read_code(block));
}

fn try_judge(cases: &mut Cases, block: u32, kind: Kind) {
    let found = library::judge_block(block, kind_number(kind));
    cases.equal(|| format!("{block:07x} as {kind:?}"), found, judge_code(block, kind));
}

/// All words of all kinds.
pub fn written() -> Cases {
    let mut cases = Cases::new("blocks written");
    for word in 0..=u16::MAX {
        for kind in KINDS {
            let found = library::write_block(word, kind_number(kind));
            cases.equal(|| format!("{word:04x} as {kind:?}"), found, write_number(word, kind));
        }
    }
    cases
}

/// All valid blocks, drawn ones with each bit turned, and drawn numbers.
pub fn read() -> Cases {
    let mut cases = Cases::new("blocks read");
    let mut draws = Draws::from(101);
    for word in 0..=u16::MAX {
        for kind in KINDS {
            try_read(&mut cases, write_number(word, kind));
        }
    }
    for _ in 0..2_000 {
        let block = write_number(draws.word(), KINDS[draws.below(5) as usize]);
        for bit in 0..26 {
            try_read(&mut cases, block ^ 1 << bit);
            try_read(&mut cases, block ^ draws.below(1 << 10) << draws.below(17));
        }
    }
    for _ in 0..100_000 {
        try_read(&mut cases, draws.below(1 << 26));
    }
    cases
}

/// Drawn valid blocks as each kind, whole and with one bit turned, and drawn numbers.
pub fn judged() -> Cases {
    let mut cases = Cases::new("blocks judged");
    let mut draws = Draws::from(102);
    for _ in 0..10_000 {
        let block = write_number(draws.word(), KINDS[draws.below(5) as usize]);
        let turned = block ^ 1 << draws.below(26);
        let drawn = draws.below(1 << 26);
        for kind in KINDS {
            try_judge(&mut cases, block, kind);
            try_judge(&mut cases, turned, kind);
            try_judge(&mut cases, drawn, kind);
        }
    }
    cases
}

/// Numbers from 26 bits on: the edges, each higher bit by itself, and drawn ones.
pub fn over() -> Cases {
    let mut cases = Cases::new("blocks over 26 bits");
    let mut draws = Draws::from(103);
    let valid = write_number(0x1001, Kind::A);
    let mut blocks = vec![(1 << 26) - 1, 1 << 26, (1 << 26) + 1, u32::MAX];
    blocks.extend((26..32).map(|bit| valid | 1 << bit));
    blocks.extend((0..10_000).map(|_| draws.below(u32::MAX) | 1 << (26 + draws.below(6))));
    for block in blocks {
        try_read(&mut cases, block);
        for kind in KINDS {
            try_judge(&mut cases, block, kind);
        }
    }
    cases
}
