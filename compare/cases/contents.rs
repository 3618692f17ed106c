//! Contents: name pairs, text, text flags, text groups refused, what is not marked, and any order.

use super::build::*;
use crate::draws::Draws;

/// Name pairs that are not the key's, in 0A and 0B.
pub fn names() -> Vec<Case> {
    let plain = plain_key();
    let groups = passing(&plain);
    let all_0b: Vec<[u16; 4]> = (0..4).map(|address| name_0b(&plain, address)).collect();
    let mut cases = Vec::new();
    for place in 0..4 {
        for pattern in [0x0001, 0x0100, 0x8000] {
            cases.push(case_of((6, place), &plain, &changed(&groups, place, 3, pattern)));
            cases.push(case_of((6, place), &plain, &changed(&all_0b, place, 3, pattern)));
        }
        // The pair at another address, and its characters the wrong way about.
        cases.push(case_of((6, place), &plain, &changed(&groups, place, 1, 0x0001)));
        let mut swapped = groups.clone();
        swapped[place][3] = swapped[place][3].swap_bytes();
        cases.push(case_of((6, place), &plain, &swapped));
        // Right first, wrong when it comes again; wrong first, right when it comes again.
        let twice = [&groups[..], &groups[..]].concat();
        cases.push(case_of((6, 4 + place), &plain, &changed(&twice, 4 + place, 3, 0x0020)));
        cases.push(case_of((6, place), &plain, &changed(&twice, place, 3, 0x0020)));
    }
    cases
}

/// Text that is not the key's, at each address.
pub fn texts() -> Vec<Case> {
    let text = text_key();
    let groups = passing(&text);
    let mut cases = Vec::new();
    for address in 0..16 {
        let word = 2 + address % 2;
        let pattern = if address % 4 < 2 { 0x0001 } else { 0x0100 };
        cases.push(case_of((6, 4 + address), &text, &changed(&groups, 4 + address, word, pattern)));
    }
    // A text at another address, its words the wrong way about, spaces in its stead, wrong when it comes again.
    cases.push(case_of((6, 9), &text, &changed(&groups, 9, 1, 0x0001)));
    let mut swapped = groups.clone();
    swapped[10].swap(2, 3);
    cases.push(case_of((6, 10), &text, &swapped));
    let mut spaces = groups.clone();
    spaces[19] = words(&text, 2, 0, 15, 0x2020, 0x2020);
    cases.push(case_of((6, 19), &text, &spaces));
    let again = inserted(&groups, 20, groups[4]);
    cases.push(case_of((0, 0), &text, &again));
    cases.push(case_of((6, 20), &text, &changed(&again, 20, 3, 0x0001)));
    cases
}

/// All 2A flags alike, 0 or 1; one unlike the first.
pub fn flags() -> Vec<Case> {
    let text = text_key();
    let with_flag = |flag: u8| -> Vec<[u16; 4]> {
        let names = passing(&text)[..4].to_vec();
        names.into_iter().chain((0..16).map(|address| text_2a(&text, flag, address))).collect()
    };
    let mut cases = vec![case_of((0, 0), &text, &with_flag(0)), case_of((0, 0), &text, &with_flag(1))];
    for flag in 0..2 {
        let groups = with_flag(flag);
        // The first unlike all others is answered at the second.
        cases.push(case_of((6, 5), &text, &changed(&groups, 4, 1, 0x0010)));
        for place in [5, 19] {
            cases.push(case_of((6, place), &text, &changed(&groups, place, 1, 0x0010)));
        }
        // The other flag from some place on; back again; an address that comes again with the other flag.
        let halves = [&groups[..12], &with_flag(1 - flag)[12..]].concat();
        cases.push(case_of((6, 12), &text, &halves));
        cases.push(case_of((6, 20), &text, &[&groups[..], &with_flag(1 - flag)[4..]].concat()));
        cases.push(case_of((6, 20), &text, &inserted(&groups, 20, text_2a(&text, 1 - flag, 0))));
        // A text in front of the names, and a name between that has the bit where the flag is.
        let text_first = [&groups[4..], &groups[..4]].concat();
        cases.push(case_of((0, 0), &text, &text_first));
        cases.push(case_of((0, 0), &text, &inserted(&groups, 6, words(&text, 0, 0, 0x10, 0xE0CD, groups[0][3]))));
        cases.push(case_of((0, 0), &text, &inserted(&groups, 4, words(&text, 3, 0, 0x10, 0, 0))));
        cases.push(case_of((0, 0), &text, &inserted(&groups, 4, words(&text, 3, 0, 0x00, 0, 0))));
    }
    cases
}

/// 2B at all, and 2A where no text is wanted.
pub fn text_groups_refused() -> Vec<Case> {
    let plain = plain_key();
    let text = text_key();
    let plain_groups = passing(&plain);
    let text_groups = passing(&text);
    let mut cases = Vec::new();
    for place in [0, 4, 5, 20] {
        for (flag, address) in [(0, 0), (1, 15)] {
            cases.push(case_of((6, place), &text, &inserted(&text_groups, place, text_2b(&text, flag, address))));
        }
    }
    for place in [0, 2, 4] {
        cases.push(case_of((6, place), &plain, &inserted(&plain_groups, place, text_2b(&plain, 0, 3))));
        for (flag, address) in [(0, 0), (1, 0), (0, 15)] {
            cases.push(case_of((6, place), &plain, &inserted(&plain_groups, place, text_2a(&plain, flag, address))));
        }
        let spaces = words(&plain, 2, 0, 0, 0x2020, 0x2020);
        cases.push(case_of((6, place), &plain, &inserted(&plain_groups, place, spaces)));
    }
    // The whole text as 2B.
    let all_2b: Vec<[u16; 4]> = (0..16).map(|address| text_2b(&text, 0, address)).collect();
    cases.push(case_of((6, 4), &text, &[&text_groups[..4], &all_2b].concat()));
    cases
}

/// TA, M/S, DI and AF are not marked.
pub fn not_marked() -> Vec<Case> {
    let plain = plain_key();
    let mut draws = Draws::from(2);
    let mut cases = Vec::new();
    for switches in 0..8 {
        let with_switches = |groups: Vec<[u16; 4]>| -> Vec<[u16; 4]> {
            groups.into_iter().map(|g| [g[0], g[1] | switches << 2, g[2], g[3]]).collect()
        };
        cases.push(case_of((0, 0), &plain, &with_switches(passing(&plain))));
        let all_0b = (0..4).map(|address| name_0b(&plain, address)).collect();
        cases.push(case_of((0, 0), &plain, &with_switches(all_0b)));
    }
    for af in [0x0000, 0xFFFF, 0xE501, 0xE0CD, 0xFA01, plain.pi, draws.word(), draws.word()] {
        let groups: Vec<[u16; 4]> = passing(&plain).into_iter().map(|g| [g[0], g[1], af, g[3]]).collect();
        cases.push(case_of((0, 0), &plain, &groups));
    }
    cases
}

/// Groups in any order, some of them again, 0A and 0B mixed.
pub fn any_order() -> Vec<Case> {
    let plain = plain_key();
    let text = text_key();
    let groups = passing(&text);
    let mut draws = Draws::from(3);
    let backwards: Vec<[u16; 4]> = groups.iter().rev().copied().collect();
    let mixed_names = [name_0b(&plain, 3), name_0a(&plain, 1), name_0b(&plain, 0), name_0a(&plain, 2)];
    let mut cases = vec![
        case_of((0, 0), &text, &backwards),
        case_of((0, 0), &text, &[&groups[..], &groups].concat()),
        case_of((0, 0), &text, &[&backwards[..], &groups].concat()),
        case_of((0, 0), &plain, &mixed_names),
        case_of((0, 0), &plain, &[mixed_names, mixed_names].concat()),
        case_of((7, 2), &plain, &mixed_names[..3]),
    ];
    for _ in 0..4 {
        let shuffled = draws.shuffled(groups.clone());
        cases.push(case_of((0, 0), &text, &shuffled));
        // Without the last: the address that it held is missing.
        let last = shuffled[19];
        let address = groups.iter().position(|&group| group == last).unwrap();
        cases.push(case_of((7, address), &text, &shuffled[..19]));
    }
    cases
}
