//! All small cases: blocks, groups, clocks, dates and AF.

pub mod af;
pub mod blocks;
pub mod clocks;
pub mod groups;

/// What is asked, its kind first, and the answers.
pub struct Case {
    pub bytes: Vec<u8>,
    pub answers: Vec<u64>,
}

/// A case of one answer.
pub fn one(kind: u8, asked: &[&[u8]], answer: impl Into<u64>) -> Case {
    several(kind, asked, vec![answer.into()])
}

pub fn several(kind: u8, asked: &[&[u8]], answers: Vec<u64>) -> Case {
    Case { bytes: [&[kind], &asked.concat()[..]].concat(), answers }
}

pub fn all() -> Vec<Case> {
    let sets = [
        // Words as each kind; valid, damaged, drawn and too long blocks, read and judged.
        blocks::written(),
        blocks::read(),
        blocks::judged(),
        // Groups as bytes and back, whole and damaged; switches.
        groups::written(),
        groups::read(),
        groups::switches(),
        // Clocks read and written, in range and out of it; local dates.
        clocks::read(),
        clocks::written(),
        clocks::dates(),
        // Codes, kHz and lists.
        af::codes(),
        af::lists(),
    ];
    sets.into_iter().flatten().collect()
}
