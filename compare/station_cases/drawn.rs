//! Groups of few stations drawn from a fixed generator, most of types that the record reads and a few with bad blocks.

use super::build::{clock_4a, good, masked, of_station, stream, Stream};
use crate::draws::Draws;
use crate::second::encoder::second_word;
use crate::second::groups::Group;

const STATIONS: [u16; 3] = [0x1001, 0xD3C2, 0x0000];

pub fn mixtures() -> Vec<Stream> {
    let mut draws = Draws::from(7);
    (0..30).map(|place| stream(&[], &drawn(&mut draws, 4 + place))).collect()
}

/// Groups of one station, with another one for a few groups now and then.
pub fn drawn(draws: &mut Draws, count: usize) -> Vec<Group> {
    let mut pi = STATIONS[draws.below(3) as usize];
    let mut groups = Vec::new();
    for _ in 0..count {
        if draws.below(32) == 0 {
            pi = STATIONS[draws.below(3) as usize];
        }
        groups.push(damaged(draws, pi));
    }
    groups
}

/// One group in eight has blocks that may be bad.
fn damaged(draws: &mut Draws, pi: u16) -> Group {
    let group = of_station(pi, any_group(draws));
    if draws.below(8) > 0 {
        return group;
    }
    masked(group.words, [0; 4].map(|_| draws.below(4) > 0))
}

fn any_group(draws: &mut Draws) -> Group {
    let flag = u32::from(draws.below(16) == 0);
    let five = draws.below(32) as u8;
    let text_five = (16 * flag + draws.below(16)) as u8;
    let second = |number: u8, version: u8, five: u8| second_word(number, version, five % 2 == 1, 3 * five % 32, five);
    match draws.below(8) {
        0 | 1 => good([0, second(0, 0, five), codes(draws), draws.word()]),
        2 => good([0, second(0, 1, five), draws.word(), draws.word()]),
        3 | 4 => good([0, second(2, 0, text_five), draws.word(), draws.word()]),
        5 => good([0, second(2, 1, text_five), draws.word(), draws.word()]),
        6 => clock(draws),
        _ => good([0, draws.word(), draws.word(), draws.word()]),
    }
}

/// Two codes, many of them counts and frequencies that come again.
fn codes(draws: &mut Draws) -> u16 {
    let mut code = || match draws.below(6) {
        0 => 224 + draws.below(26),
        1 => draws.below(256),
        _ => 1 + draws.below(12),
    };
    (256 * code() + code()) as u16
}

fn clock(draws: &mut Draws) -> Group {
    let day = match draws.below(8) {
        0 => draws.below(131_072),
        1 => 15_076 + draws.below(6),
        2 => 88_124 + draws.below(6),
        _ => 40_000 + draws.below(30_000),
    };
    let time = [draws.below(26) as u16, draws.below(62) as u16];
    clock_4a(day, time, draws.below(2) as u16, draws.below(27) as u16)
}
