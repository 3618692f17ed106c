//! Locks: on each pair of kinds that follow each other and on no other, at once and late.

use super::build::{good_blocks, joined, open_stream, stream, Noise, Stream, FIRST_LOCK, PHASES};
use crate::second::blocks::{write, Kind, KINDS};

/// No bits, and bits that are too few for a pair.
pub fn short() -> Vec<Stream> {
    let pair = joined(&good_blocks(PHASES[0], 2));
    [0, 8, 24, 48].into_iter().map(|count| stream(pair[..count].to_vec(), &[])).collect()
}

/// Does a kind follow a kind, the word of the first being of a version?
fn follows(first: Kind, version: u16, second: Kind) -> bool {
    match first {
        Kind::A => second == Kind::B,
        Kind::B => second == if version == 0 { Kind::C } else { Kind::CPrime },
        Kind::C | Kind::CPrime => second == Kind::D,
        Kind::D => second == Kind::A,
    }
}

/// Any two kinds, the first with a word of either version.
pub fn pairs() -> Vec<Stream> {
    let mut streams = Vec::new();
    for first in KINDS {
        for second in KINDS {
            for version in [0, 1] {
                let bits = [write(0x2005 + 0x800 * version, first), write(0x1001, second)].concat();
                let locks = follows(first, version, second);
                streams.push(stream(bits, &[(FIRST_LOCK, "locked")][..usize::from(locks)]));
            }
        }
    }
    streams
}

/// Good blocks only, of both versions, from each lock on.
pub fn clean() -> Vec<Stream> {
    let bits = PHASES.map(|phase| joined(&good_blocks(phase, 120)));
    bits.into_iter().map(|bits| stream(bits, &[(FIRST_LOCK, "locked")])).collect()
}

/// Good blocks behind 1 to 30 bits of noise.
pub fn late() -> Vec<Stream> {
    let behind = |count: usize| {
        let noise = Noise { state: 7 }.bits(count);
        open_stream([noise, joined(&good_blocks(PHASES[count % 6], 12))].concat())
    };
    (1..=30).map(behind).collect()
}
