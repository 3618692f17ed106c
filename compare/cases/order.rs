//! Two things wrong at once: which answer comes first.

use super::build::*;

/// A key whose PTY is not good.
fn not_good() -> Vec<u8> {
    let mut record = record(&plain_key());
    record[2] = 32;
    record
}

/// Submissions of the plain key that would be answered 3, 4, 5, 6 and 7.
fn wrong_submissions() -> Vec<Vec<u8>> {
    let groups = passing(&plain_key());
    vec![
        Vec::new(),
        bytes(&groups)[..12].to_vec(),
        turned(&bytes(&groups), 0, 1),
        bytes(&changed(&groups, 0, 0, 1)),
        bytes(&changed(&groups, 0, 3, 1)),
        bytes(&groups[1..]),
    ]
}

/// 1 before 2 and all others, 2 before 3 and all others, 3 before 4 and all others.
pub fn sheet_key_and_length() -> Vec<Case> {
    let good = record(&plain_key());
    let mut cases = vec![
        case_on((1, 0), &not_good()[..79], 0, bytes(&passing(&plain_key()))),
        case_on((1, 0), &not_good(), 1, bytes(&passing(&plain_key()))),
        case_on((1, 0), &[not_good(), vec![0]].concat(), 0, bytes(&passing(&plain_key()))),
        case_on((1, 0), &[good.clone(), not_good()].concat(), 2, bytes(&passing(&plain_key()))),
        case_on((1, 0), &not_good()[..79], 0, Vec::new()),
    ];
    for submission in wrong_submissions() {
        cases.push(case_on((1, 0), &good[..79], 0, submission.clone()));
        cases.push(case_on((1, 0), &good, 1, submission.clone()));
        cases.push(case_on((2, 0), &not_good(), 0, submission.clone()));
    }
    for submission in &wrong_submissions()[2..] {
        let one_byte_more = [&submission[..], &[0]].concat();
        let one_byte_less = submission[..submission.len() - 1].to_vec();
        cases.push(case_on((3, 0), &good, 0, one_byte_more));
        cases.push(case_on((3, 0), &good, 0, one_byte_less));
    }
    cases
}

/// 4 in a late block before 5, 6 and 7 of earlier groups; of two damaged blocks the first.
pub fn blocks_first() -> Vec<Case> {
    let plain = plain_key();
    let text = text_key();
    let groups = passing(&plain);
    let text_groups = passing(&text);
    let good = bytes(&groups);
    let last_turned = |groups: &[[u16; 4]], block: usize| turned(&bytes(groups), block, 0x40);
    vec![
        case((4, 15), &plain, last_turned(&changed(&groups, 0, 0, 1), 15)),
        case((4, 15), &plain, last_turned(&changed(&groups, 0, 1, 0x400), 15)),
        case((4, 15), &plain, last_turned(&changed(&groups, 0, 3, 1), 15)),
        case((4, 14), &plain, last_turned(&changed(&groups, 2, 3, 1), 14)),
        case((4, 11), &plain, last_turned(&groups[..3], 11)),
        case((4, 79), &text, last_turned(&changed(&text_groups, 4, 2, 1), 79)),
        case((4, 76), &text, last_turned(&changed(&text_groups, 18, 0, 1), 76)),
        case((4, 16), &plain, last_turned(&inserted(&groups, 4, text_2b(&plain, 0, 0)), 16)),
        // Within one group: a wrong header or name and a damaged block.
        case((4, 3), &plain, last_turned(&changed(&groups, 0, 0, 1), 3)),
        case((4, 0), &plain, last_turned(&changed(&groups, 0, 3, 1), 0)),
        // Two damaged blocks.
        case((4, 0), &plain, turned(&turned(&good, 0, 1), 1, 1)),
        case((4, 1), &plain, turned(&turned(&good, 2, 1), 1, 1)),
        case((4, 2), &plain, turned(&turned(&good, 2, 1), 3, 1)),
        case((4, 7), &plain, turned(&turned(&good, 7, 2), 8, 2)),
        case((4, 3), &plain, turned(&turned(&good, 12, 2), 3, 2)),
        // The version bit turned in a damaged second block.
        case((4, 1), &plain, turned(&good, 1, in_word(0x0800))),
        case((4, 5), &plain, turned(&good, 5, in_word(0x0800))),
    ]
}

/// 5 before 6 within a group, 6 of a group before 5 of the next, 5 of a group before 6 of the next.
pub fn group_by_group() -> Vec<Case> {
    let plain = plain_key();
    let text = text_key();
    let groups = passing(&plain);
    let text_groups = passing(&text);
    let header_and_name = |word: usize, pattern: u16| changed(&changed(&groups, 2, 3, 1), 2, word, pattern);
    let mut other_third = name_0b(&plain, 1);
    other_third[2] ^= 1;
    let mut other_text_third = text_2b(&text, 0, 1);
    other_text_third[2] ^= 1;
    let unwanted = text_2a(&plain, 0, 0);
    vec![
        // Within a group.
        case_of((5, 2), &plain, &header_and_name(0, 0x8000)),
        case_of((5, 2), &plain, &header_and_name(1, 0x0400)),
        case_of((5, 2), &plain, &header_and_name(1, 0x0020)),
        case_of((5, 4), &plain, &changed(&inserted(&groups, 4, other_third), 4, 3, 1)),
        case_of((5, 4), &text, &inserted(&text_groups, 4, other_text_third)),
        case_of((5, 1), &plain, &changed(&inserted(&groups, 1, unwanted), 1, 1, 0x0400)),
        case_of((5, 7), &text, &changed(&changed(&text_groups, 7, 1, 0x0010), 7, 1, 0x0400)),
        case_of((5, 7), &text, &changed(&changed(&text_groups, 7, 2, 1), 7, 0, 1)),
        // 6, then 5 in the next group, and the other way about.
        case_of((6, 0), &plain, &changed(&changed(&groups, 0, 3, 1), 1, 0, 1)),
        case_of((6, 2), &plain, &changed(&changed(&groups, 2, 3, 1), 3, 1, 0x0400)),
        case_of((6, 8), &text, &changed(&changed(&text_groups, 8, 2, 1), 9, 0, 1)),
        case_of((6, 0), &plain, &changed(&inserted(&groups, 0, unwanted), 1, 0, 1)),
        case_of((6, 0), &text, &changed(&inserted(&text_groups, 0, text_2b(&text, 0, 0)), 1, 0, 1)),
        case_of((5, 0), &plain, &changed(&changed(&groups, 0, 0, 1), 1, 3, 1)),
        case_of((5, 2), &plain, &changed(&changed(&groups, 2, 1, 0x0400), 3, 3, 1)),
        case_of((5, 8), &text, &changed(&changed(&text_groups, 8, 0, 1), 9, 2, 1)),
        // The first of two alike.
        case_of((5, 1), &plain, &changed(&changed(&groups, 1, 0, 1), 2, 0, 1)),
        case_of((6, 1), &plain, &changed(&changed(&groups, 1, 3, 1), 2, 3, 1)),
        case_of((6, 3), &text, &changed(&changed(&text_groups, 3, 3, 1), 12, 3, 1)),
    ]
}

/// 5 and 6 before 7.
pub fn addresses_last() -> Vec<Case> {
    let plain = plain_key();
    let text = text_key();
    let groups = passing(&plain);
    let text_groups = passing(&text);
    vec![
        case_of((5, 0), &plain, &changed(&groups[..1], 0, 0, 1)),
        case_of((6, 0), &plain, &changed(&groups[..1], 0, 3, 1)),
        case_of((5, 2), &plain, &changed(&groups[1..], 2, 1, 0x0020)),
        case_of((6, 2), &plain, &changed(&groups[1..], 2, 3, 0x0100)),
        case_of((5, 18), &text, &changed(&text_groups[1..], 18, 0, 0x0100)),
        case_of((6, 18), &text, &changed(&text_groups[1..], 18, 2, 0x0100)),
        case_of((6, 3), &plain, &[&groups[1..], &[text_2b(&plain, 0, 0)]].concat()),
        case_of((6, 0), &text, &[text_2b(&text, 1, 15)]),
        case_of((6, 0), &plain, &[text_2a(&plain, 0, 0)]),
    ]
}
