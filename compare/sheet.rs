//! Writes the stored runs of the programs `mark` and `encode` into their crates: `sheet CRATESFOLDER`.
//!
//! A run has its sheet as the file `key`, and exercise and submission on standard input; or arguments that name the
//! files `keys` and `submission` and say the exercise. What it must write is the second implementation's.

#[allow(dead_code)]
mod draws;
#[allow(dead_code)]
mod second;
mod stored;
#[allow(dead_code)]
mod cases {
    pub mod build;
}

use cases::build::{bytes, cut, keys, passing, plain_key, sheet, sheet_of, text_key, turned};
use draws::Draws;
use second::groups::GROUP_BYTES;
use second::keys::Key;
use second::marker::SUBMISSION_LIMIT;
use second::program::{encoding, line};
use std::path::Path;
use stored::Stored;

/// A run by the file `key`, where there is one, and standard input.
fn by_input(name: &'static str, key: Option<&[u8]>, input: &[u8], output: Vec<u8>) -> Stored {
    let files = key.map(|key| ("key", key.to_vec())).into_iter().collect();
    Stored { name, arguments: Vec::new(), input: Some(input.to_vec()), files, output }
}

/// The line of `mark`, which must be the one that the run was made for.
fn marked(name: &str, key: Option<&[u8]>, input: &[u8], meant: &str) -> Vec<u8> {
    let found = line(key, input);
    assert_eq!(found, format!("{meant}\n"), "{name} is not what it was meant to be");
    found.into_bytes()
}

/// The encoding by `encode`, which must have the length that the run was made for.
fn encoded(name: &str, key: &[u8], input: &[u8], meant: usize) -> Vec<u8> {
    let found = encoding(Some(key), input);
    assert_eq!(found.len(), meant, "{name} is not what it was meant to be");
    found
}

/// Standard input: the exercise as one byte, then the submission.
fn input(exercise: u8, submission: &[u8]) -> Vec<u8> {
    [&[exercise], submission].concat()
}

/// An exercise as an argument says it.
fn exercise(argument: &str) -> u8 {
    argument.parse().expect("a number from 0 to 255")
}

fn mark_input(name: &'static str, key: Option<&[u8]>, input: &[u8], meant: &str) -> Stored {
    by_input(name, key, input, marked(name, key, input, meant))
}

fn mark_files(name: &'static str, keys: &[u8], number: &'static str, submission: &[u8], meant: &str) -> Stored {
    let output = marked(name, Some(keys), &input(exercise(number), submission), meant);
    let files = vec![("keys", keys.to_vec()), ("submission", submission.to_vec())];
    Stored { name, arguments: vec!["keys", number, "submission"], input: None, files, output }
}

fn encode_input(name: &'static str, key: &[u8], input: &[u8], meant: usize) -> Stored {
    by_input(name, Some(key), input, encoded(name, key, input, meant))
}

fn encode_files(name: &'static str, keys: &[u8], number: &'static str, meant: usize) -> Stored {
    let output = encoded(name, keys, &[exercise(number)], meant);
    Stored { name, arguments: vec!["keys", number], input: None, files: vec![("keys", keys.to_vec())], output }
}

/// What must never pass, and what passes.
fn verdicts() -> Vec<Stored> {
    let good = sheet(&[&plain_key(), &text_key()]);
    let nonsense = input(1, &Draws::from(10).bytes(260));
    // What would pass if 80 zero bytes were a good key.
    let zero_key = Key { pi: 0, name: [0; 8], ..plain_key() };
    let zeros = input(0, &bytes(&passing(&zero_key)));
    let passes = input(1, &bytes(&passing(&text_key())));
    vec![
        mark_input("mark_nonsense", Some(&good), &nonsense, "exercise 1 answer 4 place 0"),
        mark_input("mark_no_key", None, &nonsense, "exercise 1 answer 1 place 0"),
        mark_input("mark_empty", Some(&good), &input(1, &[]), "exercise 1 answer 3 place 0"),
        mark_input("mark_nothing", Some(&good), &[], "exercise 0 answer 3 place 0"),
        mark_input("mark_zero_sheet", Some(&[0; 80]), &zeros, "exercise 0 answer 2 place 0"),
        mark_input("mark_passes", Some(&good), &passes, "exercise 1 answer 0 place 0"),
    ]
}

/// Exercises past the first, whose submissions pass for no other. For an exercise of the longest sheet that is named with
/// a leading zero, the longest submission; for the last exercise of that sheet, one with a group more; the longest
/// submission with a key more on the sheet; and one for the third exercise of three with a bit turned in its last group.
fn exercises() -> Vec<Stored> {
    let keys = keys(257);
    let first = |count: usize| sheet_of(&keys[..count]);
    let long = |exercise: u8, length: usize| input(exercise, &cut(&keys[usize::from(exercise)], length));
    let full = long(255, SUBMISSION_LIMIT);
    let over = long(255, SUBMISSION_LIMIT + GROUP_BYTES);
    let damaged = input(2, &turned(&long(2, SUBMISSION_LIMIT)[1..], 4_093, 1));
    let eighth = cut(&keys[8], SUBMISSION_LIMIT);
    vec![
        mark_files("mark_zeros", &first(256), "08", &eighth, "exercise 8 answer 0 place 0"),
        mark_input("mark_over", Some(&first(256)), &over, "exercise 255 answer 3 place 0"),
        mark_input("mark_long_sheet", Some(&first(257)), &full, "exercise 255 answer 1 place 0"),
        mark_input("mark_third", Some(&first(3)), &damaged, "exercise 2 answer 4 place 4093"),
    ]
}

fn encodings() -> Vec<Stored> {
    let text_wanted_but_zero = Key { text_wanted: true, ..plain_key() };
    let two = sheet(&[&text_key(), &plain_key()]);
    let third_not_good = sheet(&[&text_key(), &plain_key(), &text_wanted_but_zero]);
    vec![
        encode_files("encode_second", &two, "01", 52),
        encode_input("encode_refused", &third_not_good, &[2], 0),
    ]
}

fn main() {
    let folder = std::env::args().nth(1).expect("usage: sheet CRATESFOLDER");
    for run in [verdicts(), exercises(), encodings()].into_iter().flatten() {
        run.write(Path::new(&folder)).expect("run");
    }
}
