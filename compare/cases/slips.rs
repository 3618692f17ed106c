//! Slips seen in class that concern marking.

use super::build::*;
use crate::second::bits::{bits_of_bytes, bytes_of_bits};
use crate::second::blocks::{offset, Kind, KINDS};
use crate::second::groups::kinds;

/// The pattern that turns one kind into another in the check bits.
fn into(from: Kind, to: Kind) -> u32 {
    u32::from(offset(from) ^ offset(to))
}

/// A block valid as another kind than the one of its place is not valid there.
pub fn any_kind_at_any_place() -> Vec<Case> {
    let plain = plain_key();
    let version_0 = passing(&plain);
    let version_1: Vec<[u16; 4]> = (0..4).map(|address| name_0b(&plain, address)).collect();
    let good = bytes(&version_0);
    // A seven-bit burst turns A into B.
    let mut cases =
        vec![case((4, 0), &plain, turned(&good, 0, 0x164)), case((4, 12), &plain, turned(&good, 12, 0x164))];
    // Every other kind at every place, for both versions.
    for groups in [version_0, version_1] {
        for (place, kind) in kinds(groups[1][1]).into_iter().enumerate() {
            let others = KINDS.into_iter().filter(|&other| other != kind);
            cases.extend(
                others.map(|other| case((4, 4 + place), &plain, turned(&bytes(&groups), 4 + place, into(kind, other)))),
            );
        }
    }
    // One or two bits of the word do it too: A into B, C into D, D into C.
    cases.push(case((4, 0), &plain, turned(&good, 0, in_word(0x0300))));
    cases.push(case((4, 2), &plain, turned(&good, 2, in_word(0x0100))));
    cases.push(case((4, 3), &plain, turned(&good, 3, in_word(0x0100))));
    // All blocks valid, but the first group begins with its second, third or fourth block.
    for blocks in 1..4 {
        let mut bits = bits_of_bytes(&good);
        bits.rotate_left(26 * blocks);
        cases.push(case((4, 0), &plain, bytes_of_bits(&bits)));
    }
    cases
}

/// C' in version 0 and C in version 1, in every type of group.
pub fn third_kind_by_version() -> Vec<Case> {
    let plain = plain_key();
    let mut cases = Vec::new();
    for group_type in 0..16 {
        for version in 0..2 {
            let group = words(&plain, group_type, version, 0, plain.pi, 0x4142);
            let submission = bytes(&[passing(&plain), vec![group]].concat());
            cases.push(case((4, 18), &plain, turned(&submission, 18, into(Kind::C, Kind::CPrime))));
        }
    }
    // At the first and at the last group of a text.
    let text = text_key();
    let good = bytes(&passing(&text));
    cases.push(case((4, 18), &text, turned(&good, 18, into(Kind::C, Kind::CPrime))));
    cases.push(case((4, 78), &text, turned(&good, 78, into(Kind::C, Kind::CPrime))));
    cases
}

/// An absent key or zero groups, where a comparison finds no difference.
pub fn absent_key_or_zero_groups() -> Vec<Case> {
    let good = record(&plain_key());
    let passes = bytes(&passing(&plain_key()));
    let mut zero_key = plain_key();
    zero_key.pi = 0;
    zero_key.name = [0; 8];
    let mut zero_text_key = zero_key.clone();
    zero_text_key.text_wanted = true;
    vec![
        case_on((1, 0), &[], 0, Vec::new()),
        case_on((1, 0), &[], 0, passes.clone()),
        case_on((1, 0), &[], 0, bytes(&passing(&zero_key))),
        case_on((1, 0), &[], 255, bytes(&passing(&zero_key))),
        case_on((1, 0), &good, 1, passes.clone()),
        case_on((1, 0), &good, 255, bytes(&passing(&zero_key))),
        // A sheet of 80 zero bytes.
        case_on((2, 0), &[0; 80], 0, bytes(&passing(&zero_key))),
        case_on((2, 0), &[0; 80], 0, bytes(&passing(&zero_text_key))),
        case_on((2, 0), &[0; 80], 0, vec![0; 52]),
        case_on((2, 0), &[0; 80], 0, Vec::new()),
        case_on((1, 0), &[0; 80], 1, bytes(&passing(&zero_key))),
        case((2, 0), &zero_text_key, bytes(&passing(&zero_text_key))),
        // Zero groups.
        case_on((3, 0), &good, 0, Vec::new()),
        case_on((3, 0), &record(&text_key()), 0, Vec::new()),
    ]
}
