//! What the second implementation answers, as the numbers that `crates/capi` answers with.

use crate::second::blocks::{judge_number, read_number, Kind, KINDS};
use crate::second::clock::{in_range, read, write, Clock, Date};
use crate::second::frequencies::{self, AfList};
use crate::second::groups::{fields, read_bytes, Fields, Switches};

/// The number of a kind, from 1.
pub fn kind_number(kind: Kind) -> u8 {
    1 + KINDS.iter().position(|&other| other == kind).unwrap() as u8
}

/// The kind above the word; 0 for none; the refusal.
pub fn read_code(block: u32) -> u32 {
    match read_number(block) {
        Ok(Some((word, kind))) => u32::from(kind_number(kind)) << 16 | u32::from(word),
        Ok(None) => 0,
        Err(refusal) => u32::from(refusal),
    }
}

/// 1 above the word; 0 for bad; the refusal.
pub fn judge_code(block: u32, kind: Kind) -> u32 {
    match judge_number(block, kind) {
        Ok(Some(word)) => 1 << 16 | u32::from(word),
        Ok(None) => 0,
        Err(refusal) => u32::from(refusal),
    }
}

/// Each word of thirteen bytes, with 1 above it where it was good.
pub fn group_codes(bytes: &[u8]) -> [u32; 4] {
    let group = read_bytes(bytes);
    [0, 1, 2, 3].map(|place| u32::from(group.good[place]) << 16 | u32::from(group.words[place]))
}

/// TA, M/S and DI under bit 3; 0 for none.
pub fn switches_code(word2: u16) -> u8 {
    match fields([0, word2, 0, 0]) {
        Fields::Name0A { switches, .. } | Fields::Name0B { switches, .. } => {
            let Switches { ta, ms, di } = switches;
            8 + 4 * u8::from(ta) + 2 * u8::from(ms) + u8::from(di)
        }
        _ => 0,
    }
}

/// A clock's fields one above the other, under bit 57; 0 for none.
pub fn clock_code(held: Option<Clock>) -> u64 {
    held.map_or(0, |clock| {
        let sign = u64::from(clock.negative);
        let time = u64::from(clock.hour) << 17 | u64::from(clock.minute) << 9 | sign << 8 | u64::from(clock.offset);
        1 << 57 | u64::from(clock.day) << 25 | time
    })
}

/// The clock that the words of a 4A give to a record.
pub fn read_clock_code(words: [u16; 4]) -> u64 {
    clock_code(Some(read(words)).filter(|&clock| in_range(clock)))
}

/// Four words, the first highest; the refusal.
pub fn write_clock_code(pi: u16, tp: bool, pty: u8, clock: Clock) -> u64 {
    match write(pi, tp, pty, clock) {
        Ok(words) => words.into_iter().fold(0, |all, word| all << 16 | u64::from(word)),
        Err(refusal) => u64::from(refusal),
    }
}

/// A date's fields one above the other, under bit 56; the refusal.
pub fn date_code(local: Result<Date, u8>) -> u64 {
    match local {
        Ok(date) => {
            let fields = [date.month, date.day, date.weekday, date.hour, date.minute];
            fields.into_iter().fold(1 << 16 | u64::from(date.year), |all, field| all << 8 | u64::from(field))
        }
        Err(refusal) => u64::from(refusal),
    }
}

/// The kHz of a code; the refusal.
pub fn frequency_code(code: u8) -> u32 {
    frequencies::frequency(code).unwrap_or_else(u32::from)
}

/// 256 more than the code of some kHz; the refusal.
pub fn code_code(khz: u32) -> u32 {
    frequencies::code(khz).map_or_else(u32::from, |code| 256 + u32::from(code))
}

/// A list has so many slots.
pub const SLOTS: usize = 25;

/// How many are expected, how many are held, and the slots.
pub fn list_numbers(list: &AfList) -> Vec<u32> {
    let mut numbers = vec![list.expected as u32, list.held.len() as u32];
    numbers.extend(&list.held);
    numbers.resize(2 + SLOTS, 0);
    numbers
}
