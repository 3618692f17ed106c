//! Headers: PI, TP, PTY, and the third word of version 1, in every type of group.

use super::build::*;
use crate::draws::Draws;

const TP: u16 = 0x0400;

/// Each bit of PI, TP and PTY turned, at several groups.
pub fn each_header_field() -> Vec<Case> {
    let plain = plain_key();
    let text = text_key();
    let groups = passing(&plain);
    let text_groups = passing(&text);
    let mut cases = Vec::new();
    for bit in 0..16 {
        let place = bit % 4;
        cases.push(case_of((5, place), &plain, &changed(&groups, place, 0, 1 << bit)));
    }
    for bit in 5..11 {
        let place = bit % 4;
        cases.push(case_of((5, place), &plain, &changed(&groups, place, 1, 1 << bit)));
        cases.push(case_of((5, bit), &text, &changed(&text_groups, bit, 1, 1 << bit)));
    }
    for place in [0, 4, 19] {
        cases.push(case_of((5, place), &text, &changed(&text_groups, place, 0, 0x0001)));
    }
    // The bytes of PI the wrong way about; all groups wrong alike.
    let swapped: Vec<[u16; 4]> = groups.iter().map(|g| [g[0].swap_bytes(), g[1], g[2], g[3]]).collect();
    cases.push(case_of((5, 0), &plain, &swapped));
    let all_tp: Vec<[u16; 4]> = groups.iter().map(|g| [g[0], g[1] | TP, g[2], g[3]]).collect();
    cases.push(case_of((5, 0), &plain, &all_tp));
    cases
}

/// The third word of version 1 is PI again; in version 0 it is not looked at as PI.
pub fn third_words() -> Vec<Case> {
    let plain = plain_key();
    let text = text_key();
    let groups = passing(&plain);
    let all_0b: Vec<[u16; 4]> = (0..4).map(|address| name_0b(&plain, address)).collect();
    let mut cases = vec![case_of((0, 0), &plain, &all_0b)];
    for place in 0..4 {
        let mut one_0b = groups.clone();
        one_0b[place] = all_0b[place];
        cases.push(case_of((0, 0), &plain, &one_0b));
        for pattern in [0x0001, 0x8000, plain.pi, plain.pi ^ 0xE0CD] {
            cases.push(case_of((5, place), &plain, &changed(&one_0b, place, 2, pattern)));
        }
        cases.push(case_of((6, place), &plain, &changed(&one_0b, place, 3, 1)));
        cases.push(case_of((5, place), &plain, &changed(&changed(&one_0b, place, 2, 1), place, 3, 1)));
        // PI wrong in the first word only, and in both alike.
        cases.push(case_of((5, place), &plain, &changed(&one_0b, place, 0, 1)));
        cases.push(case_of((5, place), &plain, &changed(&changed(&one_0b, place, 0, 1), place, 2, 1)));
    }
    for group_type in 0..16 {
        let group = words(&plain, group_type, 1, 0, plain.pi ^ 1, 0x4142);
        cases.push(case_of((5, 3), &plain, &inserted(&groups, 3, group)));
    }
    let text_0b: Vec<[u16; 4]> = (0..4).map(|address| name_0b(&text, address)).collect();
    cases.push(case_of((0, 0), &text, &[&text_0b, &passing(&text)[4..]].concat()));
    cases
}

/// Types other than 0 and 2 may come between, with any content; their headers are marked.
pub fn other_types() -> Vec<Case> {
    let plain = plain_key();
    let text = text_key();
    let mut draws = Draws::from(1);
    let mut between = Vec::new();
    for group_type in (0..16).filter(|&group_type| group_type != 0 && group_type != 2) {
        for version in 0..2 {
            let third = if version == 1 { text.pi } else { draws.word() };
            between.push(words(&text, group_type, version, draws.below(32) as u8, third, draws.word()));
        }
    }
    let mixed = draws.shuffled([passing(&text), between].concat());
    let mut cases = vec![case_of((0, 0), &text, &mixed)];
    let groups = passing(&plain);
    for group_type in (0..16).filter(|&group_type| group_type != 0 && group_type != 2) {
        let group_a = words(&plain, group_type, 0, draws.below(32) as u8, draws.word(), draws.word());
        let group_b = words(&plain, group_type, 1, draws.below(32) as u8, plain.pi, draws.word());
        let both = inserted(&inserted(&groups, 2, group_b), 1, group_a);
        cases.push(case_of((0, 0), &plain, &both));
        // Of the two, PI, TP, PTY or the third word wrong in turn.
        let wrong = [(1, 0, 0x0010), (1, 1, TP), (3, 1, 0x0080), (3, 2, 0x0100)];
        let (place, word, pattern) = wrong[usize::from(group_type) % 4];
        cases.push(case_of((5, place), &plain, &changed(&both, place, word, pattern)));
    }
    // A 4A with a true clock, with all ones, with zero: the clock is not marked.
    for (five, third, fourth) in [(1, 0x6145, 0x7EEA), (31, 0xFFFF, 0xFFFF), (0, 0, 0)] {
        let clock = words(&plain, 4, 0, five, third, fourth);
        cases.push(case_of((0, 0), &plain, &inserted(&groups, 4, clock)));
    }
    cases
}
