//! The proved library's speed beside plain Rust, in one run of interleaved rounds: the receiver on noise and on valid
//! groups, fed through a buffer, and the marker on a full submission. Prints times and ratios, best and median.

#[allow(dead_code)]
#[path = "cases/all.rs"]
mod cases;
#[allow(dead_code)]
mod library;
mod plain {
    pub mod divide;
    pub mod marker;
    pub mod receiver;
}
#[allow(dead_code)]
mod draws;
#[allow(dead_code)]
mod second;

use cases::build::{bytes, passing, sheet, text_key};
use draws::Draws;
use library::{STATE_BYTES, TOLD_BYTES};
use plain::receiver::{Answer, Receiver};
use second::groups::write_bytes;
use std::time::Instant;

const STREAM_BYTES: usize = 2_000_000;
const BUFFER_BYTES: usize = 65_536;
const ROUNDS: usize = 9;
const MARKS: usize = 50;

/// A sum over all answers and groups, by which both are held to the same.
fn added(sum: u64, answer: u8, words: [u16; 4], good: [bool; 4]) -> u64 {
    let all = words.into_iter().fold(u64::from(answer), |all, word| all.wrapping_mul(65_599) + u64::from(word));
    good.into_iter().fold(sum.wrapping_mul(31).wrapping_add(all), |all, good| all.wrapping_mul(3) + u64::from(good))
}

/// A stream through a buffer, piece by piece.
fn through_buffer(stream: &[u8], mut each: impl FnMut(&[u8])) {
    let mut buffer = vec![0; BUFFER_BYTES];
    for piece in stream.chunks(BUFFER_BYTES) {
        buffer[..piece.len()].copy_from_slice(piece);
        each(&buffer[..piece.len()]);
    }
}

fn library_hears(stream: &[u8]) -> u64 {
    let mut state = [0; STATE_BYTES];
    library::fresh(&mut state);
    let mut sum = 0;
    through_buffer(stream, |piece| {
        let mut told = [0; TOLD_BYTES];
        let mut byte = 0;
        loop {
            byte = library::feed(&mut state, piece, byte, told[1], &mut told);
            if told[0] == 0 {
                break;
            }
            let words = [6, 8, 10, 12].map(|at| u16::from_be_bytes([told[at], told[at + 1]]));
            sum = added(sum, told[0], words, [2, 3, 4, 5].map(|at| told[at] == 1));
        }
    });
    sum
}

fn plain_hears(stream: &[u8]) -> u64 {
    let mut receiver = Receiver::default();
    let mut sum = 0;
    through_buffer(stream, |piece| {
        for &byte in piece {
            for bit in (0..8).rev() {
                sum = match receiver.take(byte >> bit & 1) {
                    Answer::Nothing => sum,
                    Answer::Locked => added(sum, 1, [0; 4], [false; 4]),
                    Answer::Group(words, good) => added(sum, 2, words, good),
                    Answer::Lost => added(sum, 3, [0; 4], [false; 4]),
                    Answer::GroupAndLost(words, good) => added(sum, 4, words, good),
                };
            }
        }
    });
    sum
}

/// What is measured: its name, how many bits it takes and how often they are taken, the library's way and plain Rust's,
/// each giving a number to hold them to.
struct Measured<'a> {
    name: &'static str,
    bits: usize,
    count: usize,
    library: Box<dyn Fn() -> u64 + 'a>,
    plain: Box<dyn Fn() -> u64 + 'a>,
    times: [Vec<f64>; 2],
}

/// The milliseconds that it took once, of so many times, and what all gave together.
fn timed(count: usize, work: &dyn Fn() -> u64) -> (f64, u64) {
    let start = Instant::now();
    let found = (0..count).fold(0, |all, _| work().wrapping_add(all));
    (start.elapsed().as_secs_f64() * 1_000.0 / count as f64, found)
}

impl Measured<'_> {
    fn round(&mut self) {
        let (library, found) = timed(self.count, &self.library);
        let (plain, expected) = timed(self.count, &self.plain);
        assert_eq!(found, expected, "{}: the two do not answer the same", self.name);
        self.times[0].push(library);
        self.times[1].push(plain);
    }

    fn print(&mut self) {
        for times in &mut self.times {
            times.sort_by(f64::total_cmp);
        }
        let [library, plain] = &self.times;
        for (what, at) in [("best", 0), ("median", ROUNDS / 2)] {
            let (one, other) = (library[at], plain[at]);
            let (ratio, speed) = (one / other, self.bits as f64 / one / 1_000.0);
            println!("| {} | {what} | {one:.3} | {other:.3} | {ratio:.2} | {speed:.0} |", self.name);
        }
    }
}

fn main() {
    let mut draws = Draws::from(301);
    let noise = draws.bytes(STREAM_BYTES);
    let mut groups = Vec::new();
    while groups.len() < STREAM_BYTES {
        groups.extend(write_bytes([0; 4].map(|_| draws.word())));
    }
    groups.truncate(STREAM_BYTES);
    let key = text_key();
    let sheet = sheet(&[&key]);
    let full: Vec<[u16; 4]> = passing(&key).into_iter().cycle().take(1_024).collect();
    let full = bytes(&full);
    let marked = || u64::from(library::mark(&sheet, 0, &full));
    let plainly_marked = || u64::from(plain::marker::mark(&key, &full).0);
    let bits = 8 * STREAM_BYTES;
    let mut all = [
        measured("16,000,000 bits of noise", bits, 1, || library_hears(&noise), || plain_hears(&noise)),
        measured("16,000,000 bits of valid groups", bits, 1, || library_hears(&groups), || plain_hears(&groups)),
        measured("a full submission marked", 8 * full.len(), MARKS, marked, plainly_marked),
    ];
    for _ in 0..ROUNDS {
        all.iter_mut().for_each(Measured::round);
    }
    println!("| What | Of {ROUNDS} rounds | Library, ms | Plain Rust, ms | Library / Rust | Library, million bits/s |");
    println!("|---|---|---|---|---|---|");
    all.iter_mut().for_each(Measured::print);
}

fn measured<'a>(
    name: &'static str,
    bits: usize,
    count: usize,
    library: impl Fn() -> u64 + 'a,
    plain: impl Fn() -> u64 + 'a,
) -> Measured<'a> {
    Measured { name, bits, count, library: Box::new(library), plain: Box::new(plain), times: [Vec::new(), Vec::new()] }
}
