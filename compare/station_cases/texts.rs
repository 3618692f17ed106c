//! Text by 2A and by 2B, its marks, and changes of the text flag.

use super::build::{name_0a, steps, stream, text_2a, text_2b, Stream};
use crate::second::groups::Group;

const TEXT: &[u8; 64] = b"A text of sixty-four characters, sent by fours in any order once";

fn by_fours(flag: u8) -> Vec<Group> {
    let four = |address: u8| TEXT[4 * usize::from(address)..][..4].try_into().expect("four");
    (0..16).map(|address| text_2a(flag, address, four(address))).collect()
}

fn by_pairs(flag: u8) -> Vec<Group> {
    let pair = |address: u8| TEXT[2 * usize::from(address)..][..2].try_into().expect("two");
    (0..16).map(|address| text_2b(flag, address, pair(address))).collect()
}

/// All addresses, in order and against it; a part written over.
pub fn whole() -> Vec<Stream> {
    let backwards: Vec<Group> = by_fours(1).into_iter().rev().collect();
    let over = [by_fours(0), vec![text_2b(0, 15, b"zz"), text_2a(0, 15, b"\x00\x0D\x1F\xFF")]].concat();
    vec![
        stream(&[" 11111111111111111111111111111111", "flag 0"], &by_fours(0)),
        stream(&["flag 1"], &backwards),
        stream(&[" 11111111111111110000000000000000"], &by_pairs(0)),
        stream(&["flag 1"], &by_pairs(1)),
        stream(&["flag 0"], &over),
    ]
}

/// One group alone, of either flag: 2A marks two pairs, 2B one.
pub fn flags() -> Vec<Stream> {
    vec![
        stream(&["flag 0", " 11000000000000000000000000000000"], &[text_2a(0, 0, b"ABCD")]),
        stream(&["flag 1", " 00000000000000000000000000000011"], &[text_2a(1, 15, b"ABCD")]),
        stream(&["flag 0", " 10000000000000000000000000000000"], &[text_2b(0, 0, b"AB")]),
        stream(&["flag 1", " 00000000000000010000000000000000"], &[text_2b(1, 15, b"\x01B")]),
        stream(&["flag 1", " 01110000000000000000000000000000"], &[text_2b(1, 1, b"EF"), text_2a(1, 1, b"ABCD")]),
        stream(&["flag none"], &[name_0a(3, [0, 0], b"GH")]),
    ]
}

/// A change in the midst of a text, by 2A and by 2B, and back; the name stays.
pub fn flag_changes() -> Vec<Stream> {
    let named = name_0a(1, [225, 9], b"CD");
    let half = [vec![named], by_fours(0)[..8].to_vec()].concat();
    let changed = |group: Group| [half.clone(), vec![group]].concat();
    let by_2a = stream(&["flag 1", " 00000000000000001100000000000000"], &changed(text_2a(1, 8, b"new ")));
    let by_2b = stream(&["flag 1", " 00000000100000000000000000000000"], &changed(text_2b(1, 8, b"nw")));
    let back = [
        text_2a(1, 0, b"ABCD"),
        text_2a(1, 1, b"EFGH"),
        text_2b(0, 2, b"IJ"),
        text_2a(0, 2, b"KLMN"),
        text_2a(1, 3, b"OPQR"),
        text_2b(1, 0, b"ST"),
        text_2a(0, 0, b"UVWX"),
    ];
    [by_2a, by_2b].into_iter().chain(steps(&back)).collect()
}
