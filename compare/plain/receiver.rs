//! A receiver as one would write it in Rust: two windows of 26 bits, both divided anew after every bit.

use super::divide::{left, third, A, B, C, C_PRIME, D};
use std::hint::black_box;

const BLOCK: u32 = (1 << 26) - 1;
const PAIR: u64 = (1 << 52) - 1;

/// What is answered, with the words and the mask of a group.
#[derive(Clone, Copy, PartialEq, Debug)]
pub enum Answer {
    Nothing,
    Locked,
    Group([u16; 4], [bool; 4]),
    Lost,
    GroupAndLost([u16; 4], [bool; 4]),
}

/// The last 52 bits; how many came since hunting, or the block, began; while locked the place of the block that is
/// coming, the group in hand if there is one, and the run.
#[derive(Default)]
pub struct Receiver {
    window: u64,
    count: u32,
    place: Option<usize>,
    held: bool,
    words: [u16; 4],
    good: [bool; 4],
    run: u32,
    bad: u32,
}

impl Receiver {
    pub fn take(&mut self, bit: u8) -> Answer {
        self.window = (self.window << 1 | u64::from(bit)) & PAIR;
        self.count += 1;
        // Divided whether the answer is asked for or not.
        let [older, newer] = black_box([left((self.window >> 26) as u32), left(self.window as u32 & BLOCK)]);
        match self.place {
            None => self.hunt(older, newer),
            Some(place) => self.follow(newer, place),
        }
    }

    fn hunt(&mut self, older: u32, newer: u32) -> Answer {
        if self.count < 52 {
            return Answer::Nothing;
        }
        let older_word = (self.window >> 36) as u16;
        let newer_word = (self.window >> 10) as u16;
        let place = match older {
            A if newer == B => 2,
            B if newer == third(u32::from(older_word)) => 3,
            C | C_PRIME if newer == D => 0,
            D if newer == A => 1,
            _ => return Answer::Nothing,
        };
        *self = Receiver { window: self.window, place: Some(place), held: place != 3, ..Receiver::default() };
        if place == 2 {
            self.put(0, older_word);
            self.put(1, newer_word);
        }
        if place == 1 {
            self.put(0, newer_word);
        }
        Answer::Locked
    }

    fn put(&mut self, place: usize, word: u16) {
        self.words[place] = word;
        self.good[place] = true;
    }

    /// The offset that a place expects; none where the second block was bad.
    fn expected(&self, place: usize) -> Option<u32> {
        match place {
            0 => Some(A),
            1 => Some(B),
            2 => self.good[1].then(|| third(u32::from(self.words[1]))),
            _ => Some(D),
        }
    }

    fn follow(&mut self, newer: u32, place: usize) -> Answer {
        if self.count < 26 {
            return Answer::Nothing;
        }
        self.count = 0;
        let good = self.expected(place) == Some(newer);
        self.words[place] = if good { (self.window >> 10) as u16 } else { 0 };
        self.good[place] = good;
        self.run += 1;
        self.bad += u32::from(!good);
        let lost = self.run == 50 && self.bad > 45;
        if self.run == 50 {
            self.run = 0;
            self.bad = 0;
        }
        let group = (place == 3 && self.held).then_some((self.words, self.good));
        self.place = Some((place + 1) % 4);
        if place == 3 {
            self.held = true;
            self.words = [0; 4];
            self.good = [false; 4];
        }
        if lost {
            *self = Receiver::default();
        }
        match (group, lost) {
            (None, false) => Answer::Nothing,
            (None, true) => Answer::Lost,
            (Some((words, good)), false) => Answer::Group(words, good),
            (Some((words, good)), true) => Answer::GroupAndLost(words, good),
        }
    }
}
