//! The programs `mark` and `encode` without their files: what they write for the bytes of the file `key` (none if
//! absent or unreadable) and of standard input.

use super::encoder::encode;
use super::marker::mark;

/// The most bytes that an encoding has.
const ENCODING_LIMIT: usize = 260;

/// The line of `mark`.
pub fn line(key_file: Option<&[u8]>, input: &[u8]) -> String {
    let exercise = exercise(input);
    let submission = input.get(1..).unwrap_or(&[]);
    let mark = mark(key_file.unwrap_or(&[]), exercise, submission);
    format!("exercise {} answer {} place {}\n", exercise, mark.answer, mark.place)
}

/// The encoding that `encode` writes; nothing on a refusal.
pub fn encoding(key_file: Option<&[u8]>, input: &[u8]) -> Vec<u8> {
    let mut buffer = [0; ENCODING_LIMIT];
    match encode(key_file.unwrap_or(&[]), exercise(input), &mut buffer) {
        Ok(length) => buffer[..length].to_vec(),
        Err(_) => Vec::new(),
    }
}

/// The first byte; nothing at all counts as exercise 0.
fn exercise(input: &[u8]) -> usize {
    usize::from(input.first().copied().unwrap_or(0))
}
