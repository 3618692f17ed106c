//! A hunt of 100,000 bits that ends in a lock on the last of them.

use super::build::{stream, words, Noise, Stream};
use crate::second::groups::write_bits;
use crate::second::receiver::{answers, Answer};

const HUNT_BITS: usize = 100_000;
const PAIR_BITS: usize = 52;

/// Noise and then the first two blocks of a group.
fn hunt(seed: u64) -> Vec<bool> {
    let mut bits = Noise { state: seed }.bits(HUNT_BITS - PAIR_BITS);
    bits.extend(&write_bits(words(0, 0))[..PAIR_BITS]);
    bits
}

/// The first seed whose noise locks nowhere: hunting looks at the last 52 bits only, so each bit is tried once.
pub fn long_hunt() -> Vec<Stream> {
    let last = HUNT_BITS - 1;
    let first_lock = |bits: &[bool]| answers(bits).iter().position(|answer| *answer == Answer::Locked);
    let bits = (1..).map(hunt).find(|bits| first_lock(bits) == Some(last)).expect("a seed");
    vec![stream(bits, &[(last, "locked")])]
}
