//! What streams are made of: good blocks from a place in a group on, bad blocks, and a small fixed generator.

use crate::second::blocks::{word, write, Kind, BLOCK_BITS};
use crate::second::groups::write_bits;

/// A stream of whole bytes, and the bits of its locks and losses, where it was made for them.
pub struct Stream {
    pub bits: Vec<bool>,
    pub meant: Option<Vec<(usize, &'static str)>>,
}

/// A stream made for some locks and losses; bits 0 fill its last byte.
pub fn stream(bits: Vec<bool>, meant: &[(usize, &'static str)]) -> Stream {
    Stream { bits: filled(bits), meant: Some(meant.to_vec()) }
}

/// A stream made for no answer known before.
pub fn open_stream(bits: Vec<bool>) -> Stream {
    Stream { bits: filled(bits), meant: None }
}

fn filled(mut bits: Vec<bool>) -> Vec<bool> {
    bits.resize(bits.len().next_multiple_of(8), false);
    bits
}

/// A lock: the place in a group of its older block, and the version of its group.
#[derive(Clone, Copy)]
pub struct Phase {
    pub older_place: usize,
    pub version: u16,
}

/// A,B; B,C; B,C'; C,D; C',D; D,A.
pub const PHASES: [Phase; 6] = [
    Phase { older_place: 0, version: 0 },
    Phase { older_place: 1, version: 0 },
    Phase { older_place: 1, version: 1 },
    Phase { older_place: 2, version: 0 },
    Phase { older_place: 2, version: 1 },
    Phase { older_place: 3, version: 0 },
];

/// The last bit of a lock on the first pair of a stream.
pub const FIRST_LOCK: usize = 51;

/// The last bit of a run, the first being run 1, after a lock on the first pair.
pub fn run_end(run: usize) -> usize {
    FIRST_LOCK + run * 50 * BLOCK_BITS
}

/// The words of group n: the version changes after every second group, from the one given on.
pub fn words(n: usize, version: u16) -> [u16; 4] {
    let n = n as u16;
    let version = (version + n / 2) % 2;
    [0x1001, n % 16 * 0x1000 + version * 0x800 + n % 32, 0xE0CD ^ n.wrapping_mul(0x3A7), 0x4142 + n]
}

/// So many good blocks that begin with the older block of a phase, each with its place in its group.
pub fn good_blocks(phase: Phase, count: usize) -> Vec<(usize, Vec<bool>)> {
    let groups = (0..count / 4 + 2).flat_map(|n| write_bits(words(n, phase.version)));
    let bits: Vec<bool> = groups.collect();
    let blocks = bits.chunks(BLOCK_BITS).enumerate().map(|(index, block)| (index % 4, block.to_vec()));
    blocks.skip(phase.older_place).take(count).collect()
}

/// A block made bad at its place, in one of four ways.
pub fn spoiled(place: usize, block: &[bool], way: usize) -> Vec<bool> {
    let mut bad = block.to_vec();
    match way % 4 {
        0 => bad = vec![false; BLOCK_BITS],
        1 => bad[25] ^= true,
        2 => bad[0] ^= true,
        _ => bad = write(word(block), other_kind(place, block)),
    }
    bad
}

/// A kind that a place does not expect; at a third place, C for C' and C' for C.
fn other_kind(place: usize, block: &[bool]) -> Kind {
    let third = if write(word(block), Kind::C) == block { Kind::CPrime } else { Kind::C };
    [Kind::B, Kind::A, third, Kind::C][place]
}

pub fn joined(blocks: &[(usize, Vec<bool>)]) -> Vec<bool> {
    blocks.iter().flat_map(|(_, block)| block.clone()).collect()
}

/// A fixed generator.
pub struct Noise {
    pub state: u64,
}

impl Noise {
    pub fn draw(&mut self, below: u64) -> u64 {
        self.state = self.state.wrapping_mul(6364136223846793005).wrapping_add(1442695040888963407);
        (self.state >> 33) % below
    }

    pub fn bits(&mut self, count: usize) -> Vec<bool> {
        (0..count).map(|_| self.draw(2) == 1).collect()
    }
}
