//! AF codes, kHz and lists of eight words.

use super::{one, several, Case};
use crate::draws::Draws;
use crate::codes::{code_code, frequency_code, list_numbers};
use crate::second::frequencies::{fresh, take};

/// All codes; kHz of codes, between them, and past them.
pub fn codes() -> Vec<Case> {
    let mut cases: Vec<Case> = (0..=u8::MAX).map(|code| one(8, &[&[code]], frequency_code(code))).collect();
    let mut khz: Vec<u32> = (87_400..=108_100).step_by(50).collect();
    khz.extend([0, 87_599, 87_601, 107_899, 107_901, u32::MAX]);
    cases.extend(khz.into_iter().map(|khz| one(9, &[&khz.to_be_bytes()], code_code(khz))));
    cases
}

/// Lists of sixteen codes: counts, frequencies that come again, fillers.
pub fn lists() -> Vec<Case> {
    let mut draws = Draws::from(231);
    let mut code = |few: u32| match draws.below(8) {
        0 => 224 + draws.below(26),
        1 => draws.below(256),
        _ => 1 + draws.below(few),
    };
    let mut cases = Vec::new();
    for few in 1..=60 {
        let codes: Vec<u8> = (0..16).map(|_| code(few) as u8).collect();
        let numbers = list_numbers(&codes.iter().fold(fresh(), |list, &code| take(list, code)));
        cases.push(several(12, &[&codes], numbers.into_iter().take(18).map(u64::from).collect()));
    }
    cases
}
