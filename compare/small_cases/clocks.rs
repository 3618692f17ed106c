//! Clocks read and written, and local dates.

use super::{one, Case};
use crate::draws::Draws;
use crate::codes::{date_code, read_clock_code, write_clock_code};
use crate::second::clock::{date, write, Clock, FIRST_DAY, LAST_DAY};

/// A clock, many of them near the edges of a range.
fn drawn_clock(draws: &mut Draws) -> Clock {
    let day = match draws.below(6) {
        0 => draws.below(1 << 17),
        1 => FIRST_DAY - 2 + draws.below(4),
        2 => LAST_DAY - 1 + draws.below(4),
        _ => FIRST_DAY + draws.below(LAST_DAY - FIRST_DAY + 1),
    };
    let mut field = |limit: u32| if draws.below(8) == 0 { limit - 1 + draws.below(3) } else { draws.below(limit) };
    let (hour, minute, offset) = (field(24) as u8, field(60) as u8, field(25) as u8);
    Clock { day, hour, minute, negative: draws.below(2) == 1, offset }
}

fn clock_bytes(clock: Clock) -> Vec<u8> {
    let rest = [clock.hour, clock.minute, u8::from(clock.negative), clock.offset];
    [&clock.day.to_be_bytes()[..], &rest].concat()
}

/// Words of clocks, the same with a bit turned, and drawn words.
pub fn read() -> Vec<Case> {
    let mut draws = Draws::from(221);
    let mut words = vec![[0, 0x4001, 0x6145, 0x7EEA], [0, 0x4000, 0x75CC, 0], [0, 0x4000, 0x75CE, 0]];
    words.extend([[0, 0x4002, 0xB07E, 0], [0, 0x4002, 0xB080, 0], [0, 0x4001, 0x6144, 0x0018]]);
    words.extend([[0, 0x4001, 0x6144, 0x0019], [0, 0x4001, 0x6144, 0x0020]]);
    for _ in 0..150 {
        if let Ok(mut written) = write(0, draws.below(2) == 1, draws.below(32) as u8, drawn_clock(&mut draws)) {
            words.push(written);
            written[1 + draws.below(3) as usize] ^= 1 << draws.below(16);
            words.push(written);
        }
        words.push([0, draws.word(), draws.word(), draws.word()]);
    }
    let asked = |words: [u16; 4]| [words[1], words[2], words[3]].map(u16::to_be_bytes).concat();
    words.into_iter().map(|words| one(5, &[&asked(words)], read_clock_code(words))).collect()
}

pub fn written() -> Vec<Case> {
    let mut draws = Draws::from(222);
    let mut cases = Vec::new();
    for _ in 0..250 {
        let (pi, tp, pty) = (draws.word(), draws.below(2) == 1, draws.below(34) as u8);
        let clock = drawn_clock(&mut draws);
        let asked = [&pi.to_be_bytes()[..], &[u8::from(tp), pty], &clock_bytes(clock)].concat();
        cases.push(one(6, &[&asked], write_clock_code(pi, tp, pty, clock)));
    }
    cases
}

/// The first days of months and years, days at both edges, drawn clocks, and no clock.
pub fn dates() -> Vec<Case> {
    let mut draws = Draws::from(223);
    let mut clocks: Vec<Clock> = (0..300).map(|_| drawn_clock(&mut draws)).collect();
    for day in [FIRST_DAY, FIRST_DAY + 1, 51_543, 51_544, 51_603, 51_604, 88_068, 88_069, LAST_DAY - 1, LAST_DAY] {
        for (negative, offset) in [(false, 0), (false, 1), (true, 1), (false, 24), (true, 24)] {
            clocks.push(Clock { day, hour: 0, minute: 29, negative, offset });
            clocks.push(Clock { day, hour: 23, minute: 30, negative, offset });
        }
    }
    let held = |clock| one(7, &[&[1], &clock_bytes(clock)], date_code(date(Some(clock))));
    let mut cases: Vec<Case> = clocks.into_iter().map(held).collect();
    cases.push(one(7, &[&[0], &clock_bytes(drawn_clock(&mut draws))], date_code(date(None))));
    cases
}
