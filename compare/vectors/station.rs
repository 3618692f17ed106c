//! The station record: AF lists, name and text, clock.

use crate::second::groups::Group;
use crate::second::station::{fresh, record_of, take, Record};
use crate::Tally;

pub fn run(tally: &mut Tally) {
    af_lists(tally);
    texts(tally);
    stations(tally);
}

fn good(words: [u16; 4]) -> Group {
    Group { words, good: [true; 4] }
}

/// 0A groups with these pairs of AF codes.
fn with_codes(pairs: &[[u16; 2]]) -> Record {
    let groups: Vec<Group> = pairs.iter().map(|[h, l]| good([0x1001, 0, 256 * h + l, 0x4142])).collect();
    record_of(&groups)
}

fn af_lists(tally: &mut Tally) {
    let list = with_codes(&[[229, 1], [2, 3], [4, 5]]).af;
    tally.equal("229 and five codes", list.held, vec![87_600, 87_700, 87_800, 87_900, 88_000]);
    let list = with_codes(&[[228, 1], [2, 3], [4, 205]]).af;
    tally.equal("228, four codes and a filler", list.held, vec![87_600, 87_700, 87_800, 87_900]);
    let list = with_codes(&[[235, 18], [18, 142], [14, 18], [18, 150], [120, 18], [18, 16]]).af;
    tally.equal("method B, expected", list.expected, 11);
    tally.equal("method B, held", list.held, vec![89_300, 101_700, 88_900, 102_500, 99_500, 89_100]);
    tally.equal("nothing expected, nothing held", with_codes(&[[1, 2]]).af.held, vec![]);
    tally.equal("a full list ignores more", with_codes(&[[225, 1], [2, 3]]).af.held, vec![87_600]);
    tally.equal("224 empties", with_codes(&[[225, 1], [224, 3]]).af.held, vec![]);
    tally.equal("a repeated count empties", with_codes(&[[226, 1], [226, 2]]).af.held, vec![87_700]);
    tally.equal("249 expects 25", with_codes(&[[249, 249]]).af.expected, 25);
    let changes_nothing = |code: u16| with_codes(&[[227, 1], [code, code]]).af == with_codes(&[[227, 1]]).af;
    let others = [0, 205, 206, 223, 250, 251, 255];
    tally.that("0, 205 to 223 and 250 to 255 change nothing", others.into_iter().all(changes_nothing));
    let in_0b = record_of(&[good([0x1001, 0, 0xE501, 0x4142]), good([0x1001, 0x0800, 0x0203, 0x4142])]);
    tally.equal("0B carries no AF", in_0b.af.held, vec![87_600]);
}

fn texts(tally: &mut Tally) {
    let first = good([0x1001, 0x2000, 0x4142, 0x4344]);
    let second = good([0x1001, 0x2001, 0x4546, 0x4748]);
    let unlike = good([0x1001, 0x2012, 0x494A, 0x4B4C]);
    let kept = record_of(&[first, second]);
    tally.equal("a flag alike clears nothing", &kept.text[..9], b"ABCDEFGH ".as_slice());
    tally.equal("2A marks two pairs", &kept.text_seen[..5], [true, true, true, true, false].as_slice());
    tally.equal("the flag is held", kept.text_flag, Some(false));
    let cleared = record_of(&[first, second, unlike]);
    tally.equal("a flag unlike clears", &cleared.text[..12], b"        IJKL".as_slice());
    tally.equal("its marks too", &cleared.text_seen[..6], [false, false, false, false, true, true].as_slice());
    let from_2b = record_of(&[good([0x1001, 0x280F, 0x1001, 0x0142])]);
    tally.equal("2B: characters as they come", from_2b.text[30..32].to_vec(), vec![0x01, 0x42]);
    tally.equal("2B marks one pair", from_2b.text_seen.iter().filter(|&&seen| seen).count(), 1);
    let mixed = record_of(&[first, good([0x1001, 0x2811, 0x1001, 0x4142])]);
    tally.equal("2A and 2B share one flag", &mixed.text[..4], b"  AB".as_slice());
}

fn stations(tally: &mut Tally) {
    let named = record_of(&[good([0x1001, 0x0541, 0, 0x4344])]);
    tally.equal("PTY and TP", (named.pty, named.tp), (10, true));
    tally.equal("name", &named.name, b"  CD    ");
    tally.equal("name seen", named.name_seen, [false, true, false, false]);
    let other = take(named.clone(), &good([0x1002, 0xF000, 0, 0]));
    tally.equal("another PI makes it fresh", other, Record { pi: Some(0x1002), ..fresh() });
    let one_bad = Group { words: [0x1002, 0, 0, 0], good: [true, true, true, false] };
    tally.equal("only four good blocks count", take(named.clone(), &one_bad), named.clone());
    let third_not_pi = take(named.clone(), &good([0x1001, 0x0D42, 0x9999, 0x4546]));
    tally.equal("0B counts whatever its third word", &third_not_pi.name, b"  CDEF  ");
    let clock = take(named, &good([0x1001, 0x4001, 0x6145, 0x7EEA]));
    tally.equal("a clock is held", clock.clock.map(|held| held.day), Some(45_218));
    let refused = take(clock, &good([0x1001, 0x4021, 0x6145, 0x7EF9]));
    tally.equal("offset 25 is not held", refused.clock.map(|held| held.offset), Some(10));
    tally.equal("its PTY is", (refused.pty, refused.tp), (1, false));
}
