//! The key sheet: records of 80 bytes, and what makes a key good.

use super::answers::{KEY_NOT_GOOD, NO_KEY};

pub const RECORD_BYTES: usize = 80;
pub const SHEET_LIMIT: usize = 20_480;

/// A good key.
#[derive(Clone, PartialEq, Debug)]
pub struct Key {
    pub pi: u16,
    pub pty: u8,
    pub tp: bool,
    pub text_wanted: bool,
    pub name: [u8; 8],
    pub text: [u8; 64],
}

/// The key of an exercise, or the refusal: no such key, or not a good one.
pub fn key_of(sheet: &[u8], exercise: usize) -> Result<Key, u8> {
    let record = record(sheet, exercise).ok_or(NO_KEY)?;
    if !good(record) {
        return Err(KEY_NOT_GOOD);
    }
    Ok(Key {
        pi: 256 * u16::from(record[0]) + u16::from(record[1]),
        pty: record[2],
        tp: record[3] & 1 == 1,
        text_wanted: text_wanted(record),
        name: record[4..12].try_into().unwrap(),
        text: record[12..76].try_into().unwrap(),
    })
}

fn record(sheet: &[u8], exercise: usize) -> Option<&[u8]> {
    if sheet.is_empty() || sheet.len() % RECORD_BYTES != 0 || sheet.len() > SHEET_LIMIT {
        return None;
    }
    sheet.chunks(RECORD_BYTES).nth(exercise)
}

fn text_wanted(record: &[u8]) -> bool {
    record[3] & 2 == 2
}

fn good(record: &[u8]) -> bool {
    let text = &record[12..76];
    let pty_good = record[2] <= 31;
    let flags_good = record[3] < 4;
    let name_good = record[4..12].iter().all(|&byte| byte >= 32);
    let text_good =
        if text_wanted(record) { text.iter().all(|&byte| byte >= 32) } else { text.iter().all(|&byte| byte == 0) };
    let rest_good = record[76..80].iter().all(|&byte| byte == 0);
    pty_good && flags_good && name_good && text_good && rest_good
}
