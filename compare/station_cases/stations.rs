//! Which station is held: no group, other PIs, bad blocks, groups that hold nothing but PI, PTY and TP.

use super::build::{clock_4a, good, masked, name_0a, name_0b, of_station, steps, stream, text_2a, words, Stream, PI};
use crate::second::encoder::second_word;
use crate::second::groups::Group;

/// A group of each kind that the record holds something of.
fn full() -> Vec<Group> {
    vec![
        name_0a(0, [227, 1], b"AB"),
        name_0a(1, [2, 3], b"CD"),
        name_0b(2, PI, b"EF"),
        name_0a(3, [205, 205], b"GH"),
        text_2a(1, 4, b"text"),
        clock_4a(45_218, [23, 59], 1, 10),
    ]
}

pub fn none_and_one() -> Vec<Stream> {
    let low_and_high = [name_0a(0, [0, 0], b"\x00\x1F"), name_0a(1, [0, 0], b"\xFF\x80")];
    let empty = stream(&["pi none", "pty 0 tp 0", "name 2020202020202020 0000", "clock none", "date none"], &[]);
    let all = ["pi 1001", "pty 10 tp 1", "name 4142434445464748 1111", "date 1982 9 6 weekday 1 18:59"];
    let second = |tp: bool, pty: u8| good([PI, second_word(0, 0, tp, pty, 0), 0, 0]);
    vec![
        empty,
        stream(&all, &full()),
        stream(&["name 001fff8020202020 1100"], &low_and_high),
        stream(&["pty 31 tp 0"], &[second(true, 0), second(false, 31)]),
        stream(&["pty 0 tp 1"], &[second(false, 31), second(true, 0)]),
    ]
}

/// Another PI clears name, text, AF, clock and flag, and so does the first one when it is back.
pub fn other_pi_and_back() -> Vec<Stream> {
    let away = of_station(0x1002, name_0a(2, [226, 9], b"XY"));
    let back = name_0a(1, [4, 5], b"ZZ");
    let zero = stream(&["pi 0000"], &[of_station(0, full()[0])]);
    let other = of_station(0x1002, good(words(14, 0, 0, 0, 0)));
    let gone = stream(&["pi 1002", "af held 0 of 0", "clock none", "flag none"], &after_full(other));
    let all = [full(), vec![away, back, of_station(0xFFFF, full()[5]), full()[4]]].concat();
    [zero, gone].into_iter().chain(steps(&all)).collect()
}

fn after_full(last: Group) -> Vec<Group> {
    [full(), vec![last]].concat()
}

/// Every mask but the one with all good leaves the record, whatever the words.
pub fn bad_blocks() -> Vec<Stream> {
    let mask = |number: u8| [8, 4, 2, 1].map(|bit| number / bit % 2 == 1);
    let unlike = [0x2002, second_word(0, 0, false, 3, 1), 0xE1FF, 0x5858];
    let alone = (0..15).map(|number| stream(&["pi none", "pty 0 tp 0"], &[masked(unlike, mask(number))]));
    let later = [7, 11, 13, 14].map(|number| {
        let kinds = full().into_iter().map(|group| masked(group.words, mask(number))).collect::<Vec<_>>();
        stream(&["pi 1001", "name 5151202020202020 1000"], &[vec![name_0a(0, [0, 0], b"QQ")], kinds].concat())
    });
    alone.chain(later).collect()
}

/// A third word of version 1 that is not PI counts, and is no AF.
pub fn third_words() -> Vec<Stream> {
    let alone = stream(&["pi 1001", "name 2020202051522020 0010"], &[name_0b(2, 0x9999, b"QR")]);
    let later = stream(&["pi 1001", "af held 1 of 3 87600"], &[full()[0], name_0b(3, 0xE401, b"ST")]);
    vec![alone, later]
}

/// Types and versions that the record holds nothing of: PI, PTY and TP alone are set.
pub fn other_types() -> Vec<Stream> {
    let kinds = [(1, 0), (1, 1), (3, 0), (4, 1), (8, 0), (14, 0), (15, 1)];
    let alone = |(number, version)| {
        let group = good(words(number, version, 17, 0x6145, 0x7EEA));
        stream(&["pi 1001", "pty 10 tp 1", "flag none", "af held 0 of 0", "clock none"], &[group])
    };
    let later = good([PI, second_word(14, 0, false, 5, 17), 0xE109, 0x5858]);
    let kept = stream(&["pty 5 tp 0", "name 4142434445464748 1111", "clock 45218 23 59 1 10"], &after_full(later));
    kinds.map(alone).into_iter().chain([kept]).collect()
}
