//! Streams of bits: noise, groups with bit errors from none to every second bit, slips, cuts, and the like.

use crate::draws::Draws;
use crate::receiver_cases;
use crate::second::groups::write_bits;

fn noise(draws: &mut Draws, count: usize) -> Vec<bool> {
    (0..count).map(|_| draws.below(2) == 1).collect()
}

/// Drawn groups, one after the other.
fn groups(draws: &mut Draws, count: usize) -> Vec<bool> {
    (0..count).flat_map(|_| write_bits([0; 4].map(|_| draws.word()))).collect()
}

/// Bits of which so many of a thousand are turned.
fn with_errors(draws: &mut Draws, bits: Vec<bool>, thousandths: u32) -> Vec<bool> {
    bits.into_iter().map(|bit| bit ^ (draws.below(1_000) < thousandths)).collect()
}

/// Bits of which some are lost and some come twice.
fn with_slips(draws: &mut Draws, bits: Vec<bool>, apart: u32) -> Vec<bool> {
    bits.into_iter().flat_map(|bit| vec![bit; [1, 0, 2][slip(draws, apart)]]).collect()
}

fn slip(draws: &mut Draws, apart: u32) -> usize {
    if draws.below(apart) > 0 {
        return 0;
    }
    1 + draws.below(2) as usize
}

/// Pieces of streams, cut anywhere, with noise between them.
fn cut(draws: &mut Draws, pieces: usize) -> Vec<bool> {
    let mut bits = Vec::new();
    for _ in 0..pieces {
        let [from, behind, between] = [104, 104, 200].map(|limit| draws.below(limit) as usize);
        let count = 4 + draws.below(20) as usize;
        let piece = groups(draws, count);
        bits.extend(&piece[from..piece.len() - behind]);
        bits.extend(noise(draws, between));
    }
    bits
}

/// A long stream that is clean, loses its lock to noise, and comes back, twice.
fn lost(draws: &mut Draws) -> Vec<bool> {
    let mut bits = Vec::new();
    for _ in 0..2 {
        bits.extend(groups(draws, 30));
        bits.extend(noise(draws, 26 * 70));
    }
    bits.extend(groups(draws, 10));
    bits
}

/// The thousandths of bits that are turned, from none to half.
const ERRORS: [u32; 14] = [0, 1, 2, 5, 10, 20, 30, 50, 75, 100, 150, 200, 300, 500];

/// All streams, each of any number of bits.
pub fn all() -> Vec<Vec<bool>> {
    let mut draws = Draws::from(151);
    let mut streams: Vec<Vec<bool>> = receiver_cases::all().into_iter().map(|stream| stream.bits).collect();
    streams.extend([vec![false; 3_000], vec![true; 3_000], (0..3_000).map(|bit| bit % 2 == 0).collect()]);
    streams.extend((0..53).map(|count| noise(&mut draws, count)));
    streams.extend((0..40).map(|_| noise(&mut draws, 10_000)));
    for errors in ERRORS {
        for _ in 0..20 {
            let clean = groups(&mut draws, 150);
            streams.push(with_errors(&mut draws, clean, errors));
        }
    }
    for apart in [50, 100, 300, 1_000, 3_000] {
        for _ in 0..20 {
            let clean = groups(&mut draws, 150);
            streams.push(with_slips(&mut draws, clean, apart));
        }
    }
    streams.extend((0..60).map(|_| cut(&mut draws, 10)));
    streams.extend((0..30).map(|_| lost(&mut draws)));
    streams
}
