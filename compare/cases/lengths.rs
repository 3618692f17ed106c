//! Lengths of submissions and of sheets, and exercise numbers.

use super::build::*;

pub fn small_submissions() -> Vec<Case> {
    let plain = plain_key();
    let text = text_key();
    let mut cases: Vec<Case> = [1, 2, 12, 14, 25, 27, 38, 40, 51, 53, 103, 105]
        .map(|length| case((3, 0), &plain, cut(&plain, length)))
        .into_iter()
        .collect();
    for (groups, meant) in [(1, (7, 1)), (2, (7, 2)), (3, (7, 3)), (4, (0, 0)), (5, (0, 0)), (8, (0, 0))] {
        cases.push(case(meant, &plain, cut(&plain, 13 * groups)));
    }
    for (length, meant) in [(0, (3, 0)), (12, (3, 0)), (13, (7, 1)), (247, (7, 19)), (259, (3, 0)), (261, (3, 0))] {
        cases.push(case(meant, &text, cut(&text, length)));
    }
    cases
}

pub fn small_sheets() -> Vec<Case> {
    let keys = keys(3);
    let three = sheet_of(&keys);
    let mut cases = Vec::new();
    // No length of a sheet: no exercise is there.
    for length in [0, 1, 79, 81, 159, 161, 239] {
        for exercise in [0, 255] {
            cases.push(case_on((1, 0), &three[..length], exercise, bytes(&passing(&keys[0]))));
        }
    }
    // Exercises that are there, and past the end.
    for records in 1..4 {
        for exercise in [0, 1, 2, 3, 255] {
            let there = exercise < records;
            let key = &keys[if there { exercise } else { 0 }];
            let meant = if there { (0, 0) } else { (1, 0) };
            cases.push(case_on(meant, &three[..80 * records], exercise as u8, bytes(&passing(key))));
        }
    }
    // The submission of another exercise.
    cases.push(case_on((5, 0), &three, 0, bytes(&passing(&keys[1]))));
    cases.push(case_on((5, 0), &three, 2, bytes(&passing(&keys[1]))));
    cases
}

/// 1,024 groups are the most.
pub fn great_submissions() -> Vec<Case> {
    let text = text_key();
    let most = cut(&text, 13_312);
    let groups: Vec<[u16; 4]> = passing(&text).into_iter().cycle().take(257).collect();
    vec![
        case((0, 0), &text, most.clone()),
        case((4, 4_095), &text, turned(&most, 4_095, 1)),
        case((3, 0), &text, cut(&text, 13_325)),
        // The 257th group wrong.
        case_of((6, 256), &text, &changed(&groups, 256, 3, 0x0001)),
    ]
}

/// 256 records are the most.
pub fn great_sheets() -> Vec<Case> {
    let keys = keys(257);
    let sheet = sheet_of(&keys);
    vec![
        case_on((0, 0), &sheet[..20_480], 0, bytes(&passing(&keys[0]))),
        case_on((0, 0), &sheet[..20_480], 255, bytes(&passing(&keys[255]))),
        case_on((1, 0), &sheet[..20_560], 0, bytes(&passing(&keys[0]))),
        case_on((1, 0), &sheet[..20_560], 255, bytes(&passing(&keys[255]))),
    ]
}
