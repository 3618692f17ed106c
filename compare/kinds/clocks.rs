//! Clocks: read from words and written as words, in range and out of it.

use super::Kind as Cases;
use crate::draws::Draws;
use crate::codes::{read_clock_code, write_clock_code};
use crate::library;
use crate::second::clock::{write, Clock, FIRST_DAY, LAST_DAY};

/// A clock, most of them in range or near its edges.
pub fn drawn_clock(draws: &mut Draws) -> Clock {
    let day = match draws.below(8) {
        0 => draws.below(1 << 17),
        1 => FIRST_DAY - 3 + draws.below(6),
        2 => LAST_DAY - 3 + draws.below(6),
        _ => FIRST_DAY + draws.below(LAST_DAY - FIRST_DAY + 1),
    };
    let mut field = |limit: u32| match draws.below(16) {
        0 => draws.below(256) as u8,
        1 => (limit - 1 + draws.below(2)) as u8,
        _ => draws.below(limit) as u8,
    };
    let (hour, minute, offset) = (field(24), field(60), field(25));
    Clock { day, hour, minute, negative: draws.below(2) == 1, offset }
}

fn try_read(cases: &mut Cases, words: [u16; 4]) {
    cases.equal(|| format!("{words:x?}"), library::read_clock(words), read_clock_code(words));
}

/// Words of drawn clocks with a bit turned or not, all fourth words of one day, and drawn words.
pub fn read() -> Cases {
    let mut cases = Cases::new("clocks read");
    let mut draws = Draws::from(121);
    for _ in 0..50_000 {
        let clock = drawn_clock(&mut draws);
        if let Ok(mut words) = write(draws.word(), draws.below(2) == 1, draws.below(32) as u8, clock) {
            try_read(&mut cases, words);
            words[1 + draws.below(3) as usize] ^= 1 << draws.below(16);
            try_read(&mut cases, words);
        }
        try_read(&mut cases, [draws.word(), 0x4000 | draws.word() % 0x800, draws.word(), draws.word()]);
    }
    for word4 in 0..=u16::MAX {
        try_read(&mut cases, [0, 0x4001, 0x6144, word4]);
        try_read(&mut cases, [0, 0x4001, 0x6145, word4]);
    }
    cases
}

fn try_write(cases: &mut Cases, pi: u16, tp: bool, pty: u8, clock: Clock) {
    let found = library::write_clock(pi, tp, pty, &clock);
    cases.equal(|| format!("{pi:x} {tp} {pty} {clock:?}"), found, write_clock_code(pi, tp, pty, clock));
}

/// Drawn clocks, and each field alone through all its values.
pub fn written() -> Cases {
    let mut cases = Cases::new("clocks written");
    let mut draws = Draws::from(122);
    let one = Clock { day: 45_218, hour: 23, minute: 59, negative: true, offset: 10 };
    for _ in 0..100_000 {
        let clock = drawn_clock(&mut draws);
        let pty = draws.below(34) as u8;
        try_write(&mut cases, draws.word(), draws.below(2) == 1, pty, clock);
    }
    for value in 0..=u8::MAX {
        try_write(&mut cases, 0xD3C2, true, value, one);
        try_write(&mut cases, 0xD3C2, true, 10, Clock { hour: value, ..one });
        try_write(&mut cases, 0xD3C2, true, 10, Clock { minute: value, ..one });
        try_write(&mut cases, 0xD3C2, true, 10, Clock { offset: value, ..one });
        try_write(&mut cases, 0xD3C2, true, 10, Clock { offset: value, negative: false, ..one });
    }
    for day in [0, 15_078, 15_079, 65_535, 65_536, 88_127, 88_128, 131_071, 131_072, u32::MAX] {
        try_write(&mut cases, 0xD3C2, false, 0, Clock { day, ..one });
    }
    cases
}
