//! AF: all codes, all kHz up to 200,000, and lists of drawn words.

use super::Kind as Cases;
use crate::draws::Draws;
use crate::codes::{code_code, frequency_code, list_numbers, SLOTS};
use crate::library;
use crate::second::frequencies::{fresh, take};

fn try_code(cases: &mut Cases, khz: u32) {
    cases.equal(|| format!("{khz} kHz"), library::code(khz), code_code(khz));
}

/// Each code's frequency, and each frequency's code.
pub fn codes() -> Cases {
    let mut cases = Cases::new("AF codes and kHz");
    for code in 0..=u8::MAX {
        cases.equal(|| format!("code {code}"), library::frequency(code), frequency_code(code));
    }
    for khz in (0..=200_000).chain([u32::MAX - 1, u32::MAX]) {
        try_code(&mut cases, khz);
    }
    cases
}

/// A code: a count, a frequency of few or of all, or any.
fn drawn_code(draws: &mut Draws, few: u32) -> u8 {
    let code = match draws.below(12) {
        0 => 224 + draws.below(26),
        1 => draws.below(256),
        2 => 1 + draws.below(204),
        _ => 1 + draws.below(few),
    };
    code as u8
}

/// Lists of up to 80 words, most of them few frequencies again and again.
pub fn lists() -> Cases {
    let mut cases = Cases::new("AF lists");
    let mut draws = Draws::from(141);
    for number in 0..10_000 {
        let few = 1 + draws.below(60);
        let codes: Vec<u8> = (0..2 * (number % 81)).map(|_| drawn_code(&mut draws, few)).collect();
        let second = list_numbers(&codes.iter().fold(fresh(), |list, &code| take(list, code)));
        let found: Vec<u32> = (0..2 + SLOTS).map(|asked| library::af_list(&codes, asked)).collect();
        cases.equal(|| format!("{codes:?}"), found, second);
    }
    cases
}
