//! Bytes without meaning: submissions, the ends of submissions, and sheets.

use super::build::*;
use crate::draws::Draws;

fn unmeant(sheet: Vec<u8>, exercise: u8, submission: Vec<u8>) -> Case {
    Case { sheet, exercise, submission, meant: None }
}

pub fn submissions() -> Vec<Case> {
    let plain = record(&plain_key());
    let text = record(&text_key());
    let mut draws = Draws::from(6);
    let mut cases = Vec::new();
    for length in [1, 12, 13, 14, 26, 39, 40, 52, 65, 104, 130, 259, 260, 261, 650] {
        cases.push(unmeant(plain.clone(), 0, draws.bytes(length)));
    }
    for byte in [0x00, 0x55, 0xAA, 0xFF, b'A'] {
        cases.push(case_on((4, 0), &plain, 0, vec![byte; 13]));
        cases.push(case_on((4, 0), &text, 0, vec![byte; 52]));
        cases.push(case_on((3, 0), &plain, 0, vec![byte; 60]));
    }
    // Good groups first.
    for groups in 1..6 {
        let good = bytes(&passing(&text_key())[..groups]);
        cases.push(unmeant(text.clone(), 0, [&good[..], &draws.bytes(13)].concat()));
        cases.push(unmeant(text.clone(), 0, [&good[..], &draws.bytes(26)].concat()));
        cases.push(unmeant(text.clone(), 0, [&good[..], &draws.bytes(7)].concat()));
    }
    // The key sheet itself, and a submission with its bytes backwards.
    cases.push(case_on((4, 0), &plain, 0, plain[..78].to_vec()));
    let backwards: Vec<u8> = bytes(&passing(&plain_key())).into_iter().rev().collect();
    cases.push(case_on((4, 0), &plain, 0, backwards));
    // A passing submission that begins one bit late.
    let mut late = crate::second::bits::bits_of_bytes(&bytes(&passing(&plain_key())));
    late.rotate_right(1);
    cases.push(case_on((4, 0), &plain, 0, crate::second::bits::bytes_of_bits(&late)));
    cases
}

pub fn sheets() -> Vec<Case> {
    let passes = bytes(&passing(&plain_key()));
    let mut draws = Draws::from(7);
    let mut cases = Vec::new();
    for length in [1, 40, 79, 80, 81, 160, 160, 240, 400] {
        let exercise = draws.below(4) as u8;
        cases.push(unmeant(draws.bytes(length), exercise, passes.clone()));
    }
    for byte in [0x01, 0x20, 0x41, 0xFF] {
        cases.push(case_on((2, 0), &[byte; 80], 0, passes.clone()));
    }
    // The submission and the sheet exchanged.
    cases.push(case_on((1, 0), &passes, 0, record(&plain_key())));
    cases
}
