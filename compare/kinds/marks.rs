//! The marker: the cases of the case files, damage of each kind, and groups drawn for a key.

use super::Kind as Cases;
use crate::cases::build::{bytes, in_word, passing, sheet, turned};
use crate::draws::Draws;
use crate::cases::{self, mixtures};
use crate::library;
use crate::second::blocks::{offset, KINDS};
use crate::second::keys::Key;
use crate::second::marker::{mark, SUBMISSION_LIMIT};

fn try_mark(cases: &mut Cases, sheet: &[u8], exercise: usize, submission: &[u8]) {
    let number = library::mark(sheet, exercise, submission);
    let place = library::mark_place(sheet, exercise, submission);
    let second = mark(sheet, exercise, submission);
    let input = || format!("sheet {sheet:x?}, exercise {exercise}, submission {submission:x?}");
    cases.equal(input, (number, place), (second.answer, second.place));
}

/// The cases of the case files: each answer, their order, lengths, fields, slips seen in class.
pub fn of_cases() -> Cases {
    let mut cases = Cases::new("marker, cases of the case files");
    for case in cases::all() {
        try_mark(&mut cases, &case.sheet, usize::from(case.exercise), &case.submission);
    }
    cases
}

/// A key, and a submission that passes for it, a full one now and then.
fn submission(draws: &mut Draws, number: usize) -> (Key, Vec<u8>) {
    let key = draws.key(number % 3 == 0);
    let mut groups = passing(&key);
    if number % 100 == 0 {
        groups = groups.iter().cycle().take(SUBMISSION_LIMIT / 13).copied().collect();
    }
    let groups = draws.shuffled(groups);
    (key, bytes(&groups))
}

/// The pattern of a kind of damage: one bit, two bits, up to ten neighbouring bits, more, one kind's offset for
/// another's, the word alone.
fn pattern(draws: &mut Draws, damage: usize) -> u32 {
    match damage % 6 {
        0 => 1 << draws.below(26),
        1 => 1 << draws.below(26) | 1 << draws.below(26),
        2 => (1 + draws.below(1_023)) << draws.below(17),
        3 => 1 + draws.below((1 << 26) - 1),
        4 => {
            let mut offset = || u32::from(offset(KINDS[draws.below(5) as usize]));
            offset() ^ offset()
        }
        _ => in_word(draws.word()),
    }
}

/// One block damaged in each of six ways, now and then a second one; and lengths that are no groups.
pub fn damaged() -> Cases {
    let mut cases = Cases::new("marker, damaged submissions");
    let mut draws = Draws::from(191);
    for number in 0..4_000 {
        let (key, mut bytes) = submission(&mut draws, number);
        let sheet = sheet(&[&key]);
        try_mark(&mut cases, &sheet, 0, &bytes);
        for damage in 0..1 + number % 2 {
            let block = draws.below(bytes.len() as u32 * 8 / 26) as usize;
            let pattern = pattern(&mut draws, number + damage);
            bytes = turned(&bytes, block, pattern);
            try_mark(&mut cases, &sheet, 0, &bytes);
        }
        bytes.truncate(bytes.len() - draws.below(27) as usize);
        try_mark(&mut cases, &sheet, 0, &bytes);
    }
    cases
}

/// Groups drawn for a drawn key, with a few missing, wrong or damaged.
pub fn drawn() -> Cases {
    let mut cases = Cases::new("marker, drawn submissions");
    for case in mixtures::drawn_from(192, 10_000) {
        try_mark(&mut cases, &case.sheet, usize::from(case.exercise), &case.submission);
    }
    cases
}
