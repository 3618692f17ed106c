//! The encoder: buffers of all lengths, and sheets and keys of every kind.

use super::Kind as Cases;
use crate::cases::build::{plain_key, record, sheet, text_key};
use crate::draws::Draws;
use crate::library;
use crate::second::encoder::encode;
use crate::second::keys::{RECORD_BYTES, SHEET_LIMIT};

/// The answer and the whole buffer.
fn try_encode(cases: &mut Cases, sheet: &[u8], exercise: usize, buffer: &[u8]) {
    let (mut one, mut other) = (buffer.to_vec(), buffer.to_vec());
    let found = library::encode(sheet, exercise, &mut one);
    let second = encode(sheet, exercise, &mut other).unwrap_or_else(usize::from);
    let input = || format!("sheet of {}, exercise {exercise}, room {}", sheet.len(), buffer.len());
    cases.equal(input, (found, one), (second, other));
}

/// Keys with a text and without one, into buffers of 0 to 300 bytes.
pub fn buffers() -> Cases {
    let mut cases = Cases::new("encoder, buffers of all lengths");
    let mut draws = Draws::from(181);
    for number in 0..20 {
        let sheet = match number {
            0 => sheet(&[&plain_key()]),
            1 => sheet(&[&text_key()]),
            _ => record(&draws.key(number % 2 == 0)),
        };
        for room in 0..=300 {
            try_encode(&mut cases, &sheet, 0, &draws.bytes(room));
        }
    }
    cases
}

/// A sheet of so many bytes, of good keys.
fn sheet_of(draws: &mut Draws, length: usize) -> Vec<u8> {
    let mut sheet = Vec::new();
    while sheet.len() < length {
        let text_wanted = draws.below(2) == 1;
        sheet.extend(record(&draws.key(text_wanted)));
    }
    sheet.truncate(length);
    sheet
}

/// Sheets of many lengths, exercises in them and past them, and a key with each byte changed.
pub fn sheets() -> Cases {
    let mut cases = Cases::new("encoder, sheets and keys");
    let mut draws = Draws::from(182);
    let buffer = draws.bytes(270);
    for length in [0, 1, 79, 80, 81, 159, 160, 240, 800, SHEET_LIMIT - 1, SHEET_LIMIT, SHEET_LIMIT + 1, 20_560] {
        let sheet = sheet_of(&mut draws, length);
        for exercise in (0..=257).chain([65_536, usize::MAX / 80, usize::MAX]) {
            try_encode(&mut cases, &sheet, exercise, &buffer);
        }
    }
    for place in 0..RECORD_BYTES {
        for value in [0, 1, 2, 3, 4, 31, 32, 33, 128, 255] {
            for key in [plain_key(), text_key()] {
                let mut sheet = record(&key);
                sheet[place] = value;
                try_encode(&mut cases, &sheet, 0, &buffer);
            }
        }
    }
    for _ in 0..500 {
        try_encode(&mut cases, &draws.bytes(RECORD_BYTES), 0, &buffer);
    }
    cases
}
