//! Writes the files that the guide's commands are run on: `class FOLDER`.
//!
//! A key sheet, submissions with the slips seen in class, and two recordings. Each submission is made for an answer
//! and a place, and the second implementation must give them.

#[allow(dead_code)]
mod draws;
#[allow(dead_code)]
mod second;
#[allow(dead_code)]
mod cases {
    pub mod build;
}

use cases::build::{bytes, changed, name_0b, passing, plain_key, sheet, text_2a, text_key, turned, without};
use draws::Draws;
use second::blocks::{offset, Kind};
use second::clock::{write as clock_words, Clock};
use second::keys::Key;
use second::marker::mark;
use std::path::Path;

/// A file, and where it is a submission for exercise 0, the answer and place that it was made for.
struct File {
    name: &'static str,
    bytes: Vec<u8>,
    meant: Option<(u8, usize)>,
}

fn submission(name: &'static str, bytes: Vec<u8>, meant: (u8, usize)) -> File {
    File { name, bytes, meant: Some(meant) }
}

fn other(name: &'static str, bytes: Vec<u8>) -> File {
    File { name, bytes, meant: None }
}

/// Exercise 0 wants text, exercise 1 does not, and exercise 2 is not good: its PTY is over 31.
fn keys() -> Vec<u8> {
    sheet(&[&text_key(), &plain_key(), &Key { pty: 40, ..plain_key() }])
}

/// The check of one kind where another's must be.
fn kind_for(submission: &[u8], block: usize, sent: Kind, meant: Kind) -> Vec<u8> {
    turned(submission, block, u32::from(offset(sent) ^ offset(meant)))
}

/// A 0B in front of what passes, its third block sent as C.
fn c_for_c_prime(key: &Key) -> Vec<u8> {
    let groups = [vec![name_0b(key, 0)], passing(key)].concat();
    kind_for(&bytes(&groups), 2, Kind::C, Kind::CPrime)
}

fn submissions() -> Vec<File> {
    let key = text_key();
    let groups = passing(&key);
    let sent = bytes(&groups);
    let neighbour = bytes(&passing(&Key { pi: 0xD3C3, ..key }));
    vec![
        submission("nonsense", Draws::from(10).bytes(260), (4, 0)),
        submission("cut_short", sent[..sent.len() - 1].to_vec(), (3, 0)),
        submission("any_kind", kind_for(&sent, 0, Kind::B, Kind::A), (4, 0)),
        submission("c_for_c_prime", c_for_c_prime(&key), (4, 2)),
        submission("neighbour", neighbour, (5, 0)),
        submission("wrong_letter", bytes(&changed(&groups, 1, 3, 1)), (6, 1)),
        submission("no_last_pair", bytes(&without(&groups, 3)), (7, 3)),
    ]
}

/// Text in two parts with flag 0, then one part of another text with flag 1.
fn two_texts() -> Vec<u8> {
    let key = text_key();
    bytes(&[text_2a(&key, 0, 0), text_2a(&key, 0, 1), text_2a(&key, 1, 2)])
}

/// A clock of 23:30 UTC with one hour more: the next day has begun.
fn midnight() -> Vec<u8> {
    let key = text_key();
    let clock = Clock { day: 61359, hour: 23, minute: 30, negative: false, offset: 2 };
    bytes(&[clock_words(key.pi, key.tp, key.pty, clock).expect("a clock in range")])
}

fn main() {
    let folder = std::env::args().nth(1).expect("a folder to write to");
    std::fs::create_dir_all(&folder).expect("a folder");
    let sheet = keys();
    for file in &submissions() {
        let given = mark(&sheet, 0, &file.bytes);
        assert_eq!(Some((given.answer, given.place)), file.meant, "{}", file.name);
    }
    let recordings = [other("keys", sheet), other("two_texts", two_texts()), other("midnight", midnight())];
    for file in submissions().iter().chain(&recordings) {
        std::fs::write(Path::new(&folder).join(file.name), &file.bytes).expect("a file");
    }
}
