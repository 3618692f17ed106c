//! Groups: four words into buffers of all lengths, thirteen bytes back, and the switches.

use super::Kind as Cases;
use crate::cases::build::turned;
use crate::draws::Draws;
use crate::codes::{group_codes, switches_code};
use crate::library;
use crate::second::answers::BUFFER_TOO_SHORT;
use crate::second::groups::{write_bytes, GROUP_BYTES};

fn words(draws: &mut Draws) -> [u16; 4] {
    [0; 4].map(|_| draws.word())
}

/// The answer and the whole buffer.
fn put_second(words: [u16; 4], buffer: &[u8], at: usize) -> (u8, Vec<u8>) {
    let mut buffer = buffer.to_vec();
    if at.checked_add(GROUP_BYTES).is_none_or(|end| end > buffer.len()) {
        return (BUFFER_TOO_SHORT, buffer);
    }
    buffer[at..at + GROUP_BYTES].copy_from_slice(&write_bytes(words));
    (0, buffer)
}

fn put_library(words: [u16; 4], buffer: &[u8], at: usize) -> (u8, Vec<u8>) {
    let mut buffer = buffer.to_vec();
    let answer = library::put_group(words, &mut buffer, at);
    (answer, buffer)
}

/// Buffers of 0 to 40 bytes, each place in them and some past their end.
pub fn put() -> Cases {
    let mut cases = Cases::new("groups put into buffers");
    let mut draws = Draws::from(111);
    for length in 0..=40 {
        let buffer = draws.bytes(length);
        for at in (0..=42).chain([usize::MAX - 13, usize::MAX - 12, usize::MAX]) {
            for _ in 0..8 {
                let words = words(&mut draws);
                let second = put_second(words, &buffer, at);
                cases.equal(|| format!("{words:x?} at {at} of {length}"), put_library(words, &buffer, at), second);
            }
        }
    }
    cases
}

fn try_read(cases: &mut Cases, bytes: &[u8]) {
    let found = [0, 1, 2, 3].map(|place| library::read_word(bytes, place));
    cases.equal(|| format!("{bytes:x?}"), found, group_codes(bytes));
}

/// Written groups, whole and damaged in one block or more, and drawn bytes.
pub fn read() -> Cases {
    let mut cases = Cases::new("groups read from bytes");
    let mut draws = Draws::from(112);
    for _ in 0..10_000 {
        let whole = write_bytes(words(&mut draws));
        try_read(&mut cases, &whole);
        let mut damaged = whole;
        for _ in 0..1 + draws.below(3) {
            damaged = turned(&damaged, draws.below(4) as usize, draws.below(1 << 26));
            try_read(&mut cases, &damaged);
        }
        try_read(&mut cases, &draws.bytes(GROUP_BYTES));
    }
    cases
}

/// All words 2.
pub fn switches() -> Cases {
    let mut cases = Cases::new("switches of a group");
    for word2 in 0..=u16::MAX {
        cases.equal(|| format!("{word2:04x}"), library::switches(word2), switches_code(word2));
    }
    cases
}
