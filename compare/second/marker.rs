//! The marker: a submission against a key, answers 0 to 7 with their place.

use super::answers::{ADDRESS_MISSING, BLOCK_NOT_VALID, CONTENT_WRONG, HEADER_WRONG, PASSED, SUBMISSION_LENGTH};
use super::bits::bits_of_bytes;
use super::blocks::{valid, BLOCK_BITS};
use super::groups::{fields, header, kinds, words_of_bytes, Fields, GROUP_BYTES};
use super::keys::{key_of, Key};

pub const SUBMISSION_LIMIT: usize = 13_312;

#[derive(Clone, Copy, PartialEq, Debug)]
pub struct Mark {
    pub answer: u8,
    pub place: usize,
}

/// The mark of a submission, the table's rows in their order.
pub fn mark(sheet: &[u8], exercise: usize, submission: &[u8]) -> Mark {
    let key = match key_of(sheet, exercise) {
        Ok(key) => key,
        Err(refusal) => return Mark { answer: refusal, place: 0 },
    };
    let length = submission.len();
    if length == 0 || length % GROUP_BYTES != 0 || length > SUBMISSION_LIMIT {
        return Mark { answer: SUBMISSION_LENGTH, place: 0 };
    }
    let groups: Vec<[u16; 4]> = submission.chunks(GROUP_BYTES).map(words_of_bytes).collect();
    if let Some(place) = first_block_not_valid(submission, &groups) {
        return Mark { answer: BLOCK_NOT_VALID, place };
    }
    if let Some(mark) = first_group_wrong(&key, &groups) {
        return mark;
    }
    if let Some(place) = wanted(&key).into_iter().find(|&address| !came(&groups, address)) {
        return Mark { answer: ADDRESS_MISSING, place };
    }
    Mark { answer: PASSED, place: 0 }
}

/// The first block, from 0, that is not valid as its kind.
fn first_block_not_valid(submission: &[u8], groups: &[[u16; 4]]) -> Option<usize> {
    let bits = bits_of_bytes(submission);
    let blocks: Vec<&[bool]> = bits.chunks(BLOCK_BITS).collect();
    (0..blocks.len()).find(|&number| {
        let kinds = kinds(groups[number / 4][1]);
        !valid(blocks[number], kinds[number % 4])
    })
}

/// Answer 5 or 6 for the first group that is wrong; within a group the header comes first.
fn first_group_wrong(key: &Key, groups: &[[u16; 4]]) -> Option<Mark> {
    let flag = first_flag(groups);
    for (place, &words) in groups.iter().enumerate() {
        if header_wrong(key, words) {
            return Some(Mark { answer: HEADER_WRONG, place });
        }
        if content_wrong(key, flag, words) {
            return Some(Mark { answer: CONTENT_WRONG, place });
        }
    }
    None
}

/// The flag of the first 2A.
fn first_flag(groups: &[[u16; 4]]) -> Option<bool> {
    groups.iter().find_map(|&words| match fields(words) {
        Fields::Text2A { flag, .. } => Some(flag),
        _ => None,
    })
}

fn header_wrong(key: &Key, words: [u16; 4]) -> bool {
    let header = header(words);
    let third_wrong = header.version == 1 && words[2] != key.pi;
    header.pi != key.pi || header.tp != key.tp || header.pty != key.pty || third_wrong
}

fn content_wrong(key: &Key, first_flag: Option<bool>, words: [u16; 4]) -> bool {
    match fields(words) {
        Fields::Name0A { address, name, .. } | Fields::Name0B { address, name, .. } => {
            let at = 2 * usize::from(address);
            name != key.name[at..at + 2]
        }
        Fields::Text2A { flag, address, text } => {
            let at = 4 * usize::from(address);
            !key.text_wanted || Some(flag) != first_flag || text != key.text[at..at + 4]
        }
        Fields::Text2B { .. } => true,
        Fields::Clock4A(_) | Fields::Other => false,
    }
}

/// The addresses that must come: 0 to 3 of the name, 4 to 19 of a wanted text.
fn wanted(key: &Key) -> Vec<usize> {
    (0..if key.text_wanted { 20 } else { 4 }).collect()
}

/// Did any group bring an address?
fn came(groups: &[[u16; 4]], asked: usize) -> bool {
    groups.iter().any(|&words| match fields(words) {
        Fields::Name0A { address, .. } | Fields::Name0B { address, .. } => usize::from(address) == asked,
        Fields::Text2A { address, .. } => usize::from(address) + 4 == asked,
        _ => false,
    })
}
