//! The proved library: the functions that `crates/capi_c` and `crates/capi_states_c` export, each behind a safe one. A
//! byte slice is passed as a pointer and a length.

mod exported {
    extern "C" {
        pub fn bench_write_block(word: u16, kind: u8) -> u32;
        pub fn bench_read_block(bits: u32) -> u32;
        pub fn bench_judge_block(bits: u32, kind: u8) -> u32;
        pub fn bench_put_group(one: u16, two: u16, three: u16, four: u16, out: *mut u8, room: usize, at: usize) -> u8;
        pub fn bench_read_word(bytes: *const u8, length: usize, place: usize) -> u32;
        pub fn bench_switches(word2: u16) -> u8;
        pub fn bench_read_clock(word2: u16, word3: u16, word4: u16) -> u64;
        pub fn bench_write_clock(
            pi: u16,
            tp: bool,
            pty: u8,
            day: u32,
            hour: u8,
            minute: u8,
            negative: bool,
            half: u8,
        ) -> u64;
        pub fn bench_local_date(held: bool, day: u32, hour: u8, minute: u8, negative: bool, half: u8) -> u64;
        pub fn bench_frequency(code: u8) -> u32;
        pub fn bench_code(khz: u32) -> u32;
        pub fn bench_af_list(bytes: *const u8, length: usize, asked: usize) -> u32;
        pub fn bench_fresh(state: *mut u8, room: usize) -> u8;
        pub fn bench_take_bit(state: *mut u8, room: usize, bit: u8, told: *mut u8, told_room: usize) -> u8;
        pub fn bench_feed(
            state: *mut u8,
            room: usize,
            bytes: *const u8,
            length: usize,
            byte: usize,
            bit: u8,
            told: *mut u8,
            told_room: usize,
        ) -> usize;
        pub fn bench_record(bytes: *const u8, length: usize, out: *mut u8, room: usize) -> u8;
        pub fn bench_encode(sheet: *const u8, length: usize, exercise: usize, out: *mut u8, room: usize) -> usize;
        pub fn bench_mark(sheet: *const u8, length: usize, exercise: usize, bytes: *const u8, count: usize) -> u8;
        pub fn bench_mark_place(
            sheet: *const u8,
            length: usize,
            exercise: usize,
            bytes: *const u8,
            count: usize,
        ) -> usize;
    }
}

use exported::*;

/// The bytes of a receiver's state, of what it tells, and of a record's numbers.
pub const STATE_BYTES: usize = 25;
pub const TOLD_BYTES: usize = 14;
pub const RECORD_BYTES: usize = 1128;

pub fn write_block(word: u16, kind: u8) -> u32 {
    unsafe { bench_write_block(word, kind) }
}

pub fn read_block(bits: u32) -> u32 {
    unsafe { bench_read_block(bits) }
}

pub fn judge_block(bits: u32, kind: u8) -> u32 {
    unsafe { bench_judge_block(bits, kind) }
}

pub fn put_group(words: [u16; 4], out: &mut [u8], at: usize) -> u8 {
    unsafe { bench_put_group(words[0], words[1], words[2], words[3], out.as_mut_ptr(), out.len(), at) }
}

pub fn read_word(bytes: &[u8], place: usize) -> u32 {
    unsafe { bench_read_word(bytes.as_ptr(), bytes.len(), place) }
}

pub fn switches(word2: u16) -> u8 {
    unsafe { bench_switches(word2) }
}

pub fn read_clock(words: [u16; 4]) -> u64 {
    unsafe { bench_read_clock(words[1], words[2], words[3]) }
}

pub fn write_clock(pi: u16, tp: bool, pty: u8, clock: &crate::second::clock::Clock) -> u64 {
    unsafe { bench_write_clock(pi, tp, pty, clock.day, clock.hour, clock.minute, clock.negative, clock.offset) }
}

pub fn local_date(held: bool, clock: &crate::second::clock::Clock) -> u64 {
    unsafe { bench_local_date(held, clock.day, clock.hour, clock.minute, clock.negative, clock.offset) }
}

pub fn frequency(code: u8) -> u32 {
    unsafe { bench_frequency(code) }
}

pub fn code(khz: u32) -> u32 {
    unsafe { bench_code(khz) }
}

pub fn af_list(bytes: &[u8], asked: usize) -> u32 {
    unsafe { bench_af_list(bytes.as_ptr(), bytes.len(), asked) }
}

pub fn fresh(state: &mut [u8]) -> u8 {
    unsafe { bench_fresh(state.as_mut_ptr(), state.len()) }
}

pub fn take_bit(state: &mut [u8], bit: u8, told: &mut [u8]) -> u8 {
    unsafe { bench_take_bit(state.as_mut_ptr(), state.len(), bit, told.as_mut_ptr(), told.len()) }
}

pub fn feed(state: &mut [u8], bytes: &[u8], byte: usize, bit: u8, told: &mut [u8]) -> usize {
    let (to, room) = (told.as_mut_ptr(), told.len());
    unsafe { bench_feed(state.as_mut_ptr(), state.len(), bytes.as_ptr(), bytes.len(), byte, bit, to, room) }
}

pub fn record(groups: &[u8], out: &mut [u8]) -> u8 {
    unsafe { bench_record(groups.as_ptr(), groups.len(), out.as_mut_ptr(), out.len()) }
}

pub fn encode(sheet: &[u8], exercise: usize, out: &mut [u8]) -> usize {
    unsafe { bench_encode(sheet.as_ptr(), sheet.len(), exercise, out.as_mut_ptr(), out.len()) }
}

pub fn mark(sheet: &[u8], exercise: usize, submission: &[u8]) -> u8 {
    unsafe { bench_mark(sheet.as_ptr(), sheet.len(), exercise, submission.as_ptr(), submission.len()) }
}

pub fn mark_place(sheet: &[u8], exercise: usize, submission: &[u8]) -> usize {
    unsafe { bench_mark_place(sheet.as_ptr(), sheet.len(), exercise, submission.as_ptr(), submission.len()) }
}
