//! Each answer from 0 to 7 once or twice, and answer 7 for each address.

use super::build::*;

/// Each answer by the plainest cause.
pub fn each_answer() -> Vec<Case> {
    let plain = plain_key();
    let text = text_key();
    let groups = passing(&plain);
    let mut not_good = plain_key();
    not_good.pty = 32;
    vec![
        case_of((0, 0), &plain, &groups),
        case_of((0, 0), &text, &passing(&text)),
        case_on((1, 0), &[], 0, bytes(&groups)),
        case_of((2, 0), &not_good, &groups),
        case_of((3, 0), &plain, &[]),
        case((4, 0), &plain, turned(&bytes(&groups), 0, 1)),
        case_of((5, 0), &plain, &changed(&groups, 0, 0, 0x0001)),
        case_of((6, 0), &plain, &changed(&groups, 0, 3, 0x0001)),
        case_of((7, 3), &plain, &without(&groups, 3)),
    ]
}

/// Each address missing alone; several missing, the lowest answered; no address at all.
pub fn missing_addresses() -> Vec<Case> {
    let plain = plain_key();
    let text = text_key();
    let plain_groups = passing(&plain);
    let text_groups = passing(&text);
    let plain_alone = (0..4).map(|address| case_of((7, address), &plain, &without(&plain_groups, address)));
    let text_alone = (0..20).map(|address| case_of((7, address), &text, &without(&text_groups, address)));
    let two = |lower: usize, higher: usize| case_of((7, lower), &text, &without(&without(&text_groups, higher), lower));
    let several = [
        two(0, 1),
        two(1, 3),
        two(3, 4),
        two(2, 19),
        two(4, 5),
        two(4, 19),
        two(18, 19),
        // The names alone, the text alone, the last address alone, a group that brings no address.
        case_of((7, 4), &text, &text_groups[..4]),
        case_of((7, 0), &text, &text_groups[4..]),
        case_of((7, 0), &text, &text_groups[19..]),
        case_of((7, 0), &text, &[words(&text, 14, 0, 0, 0x1234, 0x5678)]),
        case_of((7, 0), &plain, &[words(&plain, 14, 0, 0, 0x1234, 0x5678)]),
        case_of((7, 0), &plain, &[name_0b(&plain, 3)]),
        case_of((7, 1), &plain, &[name_0b(&plain, 0)]),
        // An address that comes again and again does not stand for another.
        case_of((7, 1), &plain, &[plain_groups[0]; 20]),
        case_of((7, 3), &plain, &[&plain_groups[..3], &plain_groups[..3]].concat()),
    ];
    plain_alone.chain(text_alone).chain(several).collect()
}
