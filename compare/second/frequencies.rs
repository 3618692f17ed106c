//! AF codes and their frequencies, and the list that codes build.

use super::answers::NO_FREQUENCY;

/// The frequency of a code in kHz.
pub fn frequency(code: u8) -> Result<u32, u8> {
    match code {
        1..=204 => Ok(87_500 + 100 * u32::from(code)),
        _ => Err(NO_FREQUENCY),
    }
}

/// The code of a frequency in kHz: the one code that has it, by trying all.
pub fn code(frequency_asked: u32) -> Result<u8, u8> {
    (1..=204).find(|&code| frequency(code) == Ok(frequency_asked)).ok_or(NO_FREQUENCY)
}

/// How many frequencies are expected, and those held, in order.
#[derive(Clone, PartialEq, Debug)]
pub struct AfList {
    pub expected: usize,
    pub held: Vec<u32>,
}

pub fn fresh() -> AfList {
    AfList { expected: 0, held: Vec::new() }
}

/// The list after one more code.
pub fn take(list: AfList, code: u8) -> AfList {
    match code {
        224..=249 => AfList { expected: usize::from(code) - 224, held: Vec::new() },
        1..=204 => append(list, 87_500 + 100 * u32::from(code)),
        _ => list,
    }
}

fn append(mut list: AfList, frequency: u32) -> AfList {
    if !list.held.contains(&frequency) && list.held.len() < list.expected {
        list.held.push(frequency);
    }
    list
}
