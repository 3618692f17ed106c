//! Bad second blocks, slips of bits, and data that locks falsely.

use super::build::{good_blocks, joined, open_stream, spoiled, stream, Stream, FIRST_LOCK, PHASES};
use crate::second::blocks::BLOCK_BITS;
use crate::second::groups::write_bits;

/// One block of a group bad, at each place and in each way, in either version: after a bad second the third is bad.
pub fn bad_seconds() -> Vec<Stream> {
    let mut streams = Vec::new();
    for way in 0..4 {
        let mut blocks = good_blocks(PHASES[0], 48);
        for group in 2..10 {
            let (place, block) = blocks[4 * group + group % 4].clone();
            blocks[4 * group + group % 4].1 = spoiled(place, &block, way);
        }
        for group in [10, 11] {
            let (place, block) = blocks[4 * group + 1].clone();
            blocks[4 * group + 1].1 = spoiled(place, &block, way);
        }
        streams.push(stream(joined(&blocks), &[(FIRST_LOCK, "locked")]));
    }
    streams
}

/// A bit too few or too many after some blocks: the lock is lost at the end of a run and taken anew.
pub fn slips() -> Vec<Stream> {
    let mut streams = Vec::new();
    for phase in PHASES {
        for after in [3, 6, 7, 30] {
            let bits = joined(&good_blocks(phase, 180));
            let at = after * BLOCK_BITS + 5;
            streams.push(open_stream([&bits[..at], &bits[at + 1..]].concat()));
            streams.push(open_stream([&bits[..at], &bits[at - 1..]].concat()));
        }
    }
    streams
}

/// A group that locks falsely for ever where it is cut before its bits 1 to 9, and truly before 0 and 10.
pub fn false_locks() -> Vec<Stream> {
    let groups = write_bits([0x1400, 0x0000, 0xCF80, 0x4142]).repeat(30);
    (0..=10).map(|cut| open_stream(groups[cut..].to_vec())).collect()
}
