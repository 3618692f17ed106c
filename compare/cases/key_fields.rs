//! Keys with each field at its edge, each with the submission that would pass if the key were taken as it is.

use super::build::*;
use crate::second::keys::Key;

/// The key in a record, good or not.
fn key_in(record: &[u8]) -> Key {
    Key {
        pi: u16::from_be_bytes([record[0], record[1]]),
        pty: record[2],
        tp: record[3] & 1 == 1,
        text_wanted: record[3] & 2 == 2,
        name: record[4..12].try_into().unwrap(),
        text: record[12..76].try_into().unwrap(),
    }
}

/// A record with one byte set, made for answer 0 or 2.
fn with_byte(answer: u8, key: &Key, at: usize, byte: u8) -> Case {
    let mut record = record(key);
    record[at] = byte;
    let submission = bytes(&passing(&key_in(&record)));
    case_on((answer, 0), &record, 0, submission)
}

/// PTY at most 31, flag bits 2 to 7 zero.
pub fn pty_and_flags() -> Vec<Case> {
    let plain = plain_key();
    let text = text_key();
    let mut cases = vec![
        with_byte(0, &plain, 2, 1),
        with_byte(0, &plain, 2, 31),
        with_byte(2, &plain, 2, 32),
        with_byte(2, &plain, 2, 64),
        with_byte(2, &plain, 2, 128),
        with_byte(2, &plain, 2, 255),
        with_byte(2, &text, 2, 32),
        with_byte(0, &plain, 3, 0),
        with_byte(0, &plain, 3, 1),
        with_byte(0, &text, 3, 2),
        with_byte(0, &text, 3, 3),
        // Text wanted that is not there, and text there that is not wanted.
        with_byte(2, &plain, 3, 2),
        with_byte(2, &plain, 3, 3),
        with_byte(2, &text, 3, 0),
        with_byte(2, &text, 3, 1),
    ];
    for flags in [4, 5, 8, 16, 32, 64, 128, 252] {
        cases.push(with_byte(2, &plain, 3, flags));
    }
    for flags in [6, 7, 11, 131, 255] {
        cases.push(with_byte(2, &text, 3, flags));
    }
    cases
}

/// Name bytes 32 or more; text bytes 32 or more if text is wanted, else all zero.
pub fn name_and_text() -> Vec<Case> {
    let plain = plain_key();
    let text = text_key();
    let mut cases = Vec::new();
    for at in [4, 7, 11] {
        cases.extend([0, 13, 31].map(|byte| with_byte(2, &plain, at, byte)));
        cases.extend([32, 127, 128, 255].map(|byte| with_byte(0, &plain, at, byte)));
    }
    for at in [12, 75] {
        cases.extend([0, 13, 31].map(|byte| with_byte(2, &text, at, byte)));
        cases.extend([32, 128, 255].map(|byte| with_byte(0, &text, at, byte)));
        cases.extend([1, 31, 32, 255].map(|byte| with_byte(2, &plain, at, byte)));
    }
    let mut spaces = plain_key();
    spaces.text = [b' '; 64];
    cases.push(case_of((2, 0), &spaces, &passing(&spaces)));
    cases
}

/// The last four bytes zero; any PI; only the asked record must be good.
pub fn rest_and_other_records() -> Vec<Case> {
    let plain = plain_key();
    let text = text_key();
    let mut cases = Vec::new();
    for at in 76..80 {
        cases.extend([1, 32, 128].map(|byte| with_byte(2, &plain, at, byte)));
        cases.push(with_byte(2, &text, at, 1));
    }
    for pi in [0x0000, 0x0001, 0x00FF, 0xFF00, 0xFFFF] {
        let key = Key { pi, ..plain_key() };
        cases.push(case_of((0, 0), &key, &passing(&key)));
    }
    let good = record(&plain);
    let mut not_good = good.clone();
    not_good[79] = 1;
    let passes = bytes(&passing(&plain));
    cases.extend([
        case_on((2, 0), &[&not_good[..], &good].concat(), 0, passes.clone()),
        case_on((0, 0), &[&not_good[..], &good].concat(), 1, passes.clone()),
        case_on((0, 0), &[&good[..], &not_good].concat(), 0, passes.clone()),
        case_on((2, 0), &[&good[..], &not_good].concat(), 1, passes.clone()),
        case_on((0, 0), &[&[0; 80][..], &good, &[255; 80]].concat(), 1, passes),
    ]);
    cases
}
