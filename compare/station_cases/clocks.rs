//! Clocks at the edges of their ranges, those that leave the one held, and local dates.

use super::build::{clock_4a, good, stream, Stream, PI};
use crate::second::encoder::second_word;

/// A stream of one 4A.
fn alone(meant: &[&'static str], day: u32, time: [u16; 2], sign: u16, offset: u16) -> Stream {
    stream(meant, &[clock_4a(day, time, sign, offset)])
}

pub fn held() -> Vec<Stream> {
    let unread = good([PI, second_word(4, 0, true, 10, 29), 0x6145, 0x7EEA]);
    let later = [clock_4a(45_218, [23, 59], 1, 10), clock_4a(45_219, [0, 0], 0, 24)];
    vec![
        alone(&["clock 15079 0 0 0 0", "date 1900 3 1 weekday 4 0:0"], 15_079, [0, 0], 0, 0),
        alone(&["clock 88127 0 0 0 0", "date 2100 2 28 weekday 7 0:0"], 88_127, [0, 0], 0, 0),
        alone(&["clock 45218 23 59 0 24"], 45_218, [23, 59], 0, 24),
        alone(&["clock 45218 0 0 1 24"], 45_218, [0, 0], 1, 24),
        alone(&["clock 45218 12 30 0 0"], 45_218, [12, 30], 1, 0),
        stream(&["clock 45218 23 59 1 10"], &[unread]),
        stream(&["clock 45219 0 0 0 24"], &later),
    ]
}

/// Fields out of range, alone and after a clock that stays; PI, PTY and TP are set all the same.
pub fn refused() -> Vec<Stream> {
    let fields = [
        (15_078, [0, 0], 0, 0),
        (88_128, [0, 0], 0, 0),
        (0, [0, 0], 0, 0),
        (131_071, [0, 0], 0, 0),
        (45_218, [0, 0], 0, 25),
        (45_218, [0, 0], 1, 25),
        (45_218, [0, 0], 0, 31),
        (45_218, [24, 0], 0, 0),
        (45_218, [31, 0], 0, 0),
        (45_218, [23, 60], 0, 0),
        (45_218, [0, 63], 0, 0),
    ];
    let both = |(day, time, sign, offset)| {
        let mut before = clock_4a(50_000, [1, 2], 0, 3);
        before.words[1] &= !0x0400;
        let later = [before, clock_4a(day, time, sign, offset)];
        let kept = stream(&["pty 10 tp 1", "clock 50000 1 2 0 3"], &later);
        [alone(&["pi 1001", "pty 10 tp 1", "clock none", "date none"], day, time, sign, offset), kept]
    };
    fields.into_iter().flat_map(both).collect()
}

/// Local days in range and out of it, over midnight both ways, and over ends of months and years.
pub fn dates() -> Vec<Stream> {
    vec![
        alone(&["clock 88127 23 30 0 1", "date none"], 88_127, [23, 30], 0, 1),
        alone(&["date 2100 2 28 weekday 7 23:59"], 88_127, [23, 29], 0, 1),
        alone(&["date none"], 88_127, [12, 0], 0, 24),
        alone(&["clock 15079 0 0 1 1", "date none"], 15_079, [0, 0], 1, 1),
        alone(&["date 1900 3 1 weekday 4 0:0"], 15_079, [0, 30], 1, 1),
        alone(&["date none"], 15_079, [11, 59], 1, 24),
        alone(&["date 1982 9 6 weekday 1 18:59"], 45_218, [23, 59], 1, 10),
        alone(&["date 2000 2 29 weekday 2 0:0"], 51_602, [12, 0], 0, 24),
        alone(&["date 2000 2 29 weekday 2 23:30"], 51_604, [0, 0], 1, 1),
        alone(&["date 2000 1 1 weekday 6 0:15"], 51_543, [23, 45], 0, 1),
        alone(&["date 1999 12 31 weekday 5 23:59"], 51_544, [0, 29], 1, 1),
    ]
}
