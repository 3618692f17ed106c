//! The receiver, told over the list of all bits so far: each time the whole story is told again from its first bit.

use super::answers::NOT_A_BIT;
use super::blocks::{judge, read, Kind, BLOCK_BITS};
use super::groups::{group_of, third_kind, Group};

#[derive(Clone, Copy, PartialEq, Debug)]
pub enum Answer {
    Nothing,
    Locked,
    Group(Group),
    Lost,
    GroupAndLost(Group),
    Refused(u8),
}

const RUN_BLOCKS: usize = 50;
const BAD_LIMIT: usize = 45;

/// All bits that came.
#[derive(Clone, PartialEq, Debug)]
pub struct Receiver {
    pub bits: Vec<bool>,
}

pub fn fresh() -> Receiver {
    Receiver { bits: Vec::new() }
}

impl Receiver {
    /// One more bit, and the answer to it.
    pub fn take(mut self, bit: u8) -> (Receiver, Answer) {
        if bit > 1 {
            return (self, Answer::Refused(NOT_A_BIT));
        }
        self.bits.push(bit == 1);
        let answer = answers(&self.bits)[self.bits.len() - 1];
        (self, answer)
    }
}

/// The answer to each bit of a stream that begins with a fresh receiver.
pub fn answers(bits: &[bool]) -> Vec<Answer> {
    let mut answers = vec![Answer::Nothing; bits.len()];
    let mut hunting_began = 0;
    while let Some(lock) = first_lock(bits, hunting_began) {
        answers[lock.end - 1] = Answer::Locked;
        match follow(bits, &lock, &mut answers) {
            Some(lost) => hunting_began = lost,
            None => break,
        }
    }
    answers
}

/// A lock: the place behind its last bit, the place in a group (from 0) of its older block, and its two words.
struct Lock {
    end: usize,
    older_place: usize,
    words: [u16; 2],
}

/// The first lock on the bits from where hunting began.
fn first_lock(bits: &[bool], hunting_began: usize) -> Option<Lock> {
    (hunting_began + 2 * BLOCK_BITS..=bits.len()).find_map(|end| lock_at(bits, end))
}

/// The lock on the 52 bits in front of a place, if they are a block and its follower.
fn lock_at(bits: &[bool], end: usize) -> Option<Lock> {
    let (older_word, older_kind) = read(&bits[end - 2 * BLOCK_BITS..end - BLOCK_BITS])?;
    let newer_word = judge(&bits[end - BLOCK_BITS..end], follower(older_word, older_kind))?;
    Some(Lock { end, older_place: place_of(older_kind), words: [older_word, newer_word] })
}

fn follower(word: u16, kind: Kind) -> Kind {
    match kind {
        Kind::A => Kind::B,
        Kind::B => third_kind(word),
        Kind::C | Kind::CPrime => Kind::D,
        Kind::D => Kind::A,
    }
}

fn place_of(kind: Kind) -> usize {
    match kind {
        Kind::A => 0,
        Kind::B => 1,
        Kind::C | Kind::CPrime => 2,
        Kind::D => 3,
    }
}

/// Writes the answers from a lock on; answers the place behind the bit of its loss, if it is lost.
fn follow(bits: &[bool], lock: &Lock, answers: &mut [Answer]) -> Option<usize> {
    let mut blocks: Vec<Option<u16>> = lock.words.map(Some).to_vec();
    for block in bits[lock.end..].chunks_exact(BLOCK_BITS) {
        let place = (lock.older_place + blocks.len()) % 4;
        blocks.push(judge_at(place, block, blocks[blocks.len() - 1]));
        let end = lock.end + BLOCK_BITS * (blocks.len() - 2);
        let lost = run_lost(&blocks[2..]);
        answers[end - 1] = answer(group_ended(place, &blocks), lost);
        if lost {
            return Some(end);
        }
    }
    None
}

/// The word of a block if it is good at its place, after the block before it.
fn judge_at(place: usize, block: &[bool], before: Option<u16>) -> Option<u16> {
    match place {
        0 => judge(block, Kind::A),
        1 => judge(block, Kind::B),
        2 => judge(block, third_kind(before?)),
        _ => judge(block, Kind::D),
    }
}

/// The group that a fourth block ends, if all four of its blocks came since the lock, the locking pair included.
fn group_ended(place: usize, blocks: &[Option<u16>]) -> Option<Group> {
    if place != 3 || blocks.len() < 4 {
        return None;
    }
    let last = &blocks[blocks.len() - 4..];
    Some(group_of([last[0], last[1], last[2], last[3]]))
}

/// Does the last of these blocks, all that came after the locking pair, end a run with too many bad ones?
fn run_lost(blocks: &[Option<u16>]) -> bool {
    if blocks.len() % RUN_BLOCKS != 0 {
        return false;
    }
    let run = &blocks[blocks.len() - RUN_BLOCKS..];
    run.iter().filter(|block| block.is_none()).count() > BAD_LIMIT
}

fn answer(group: Option<Group>, lost: bool) -> Answer {
    match (group, lost) {
        (None, false) => Answer::Nothing,
        (Some(group), false) => Answer::Group(group),
        (None, true) => Answer::Lost,
        (Some(group), true) => Answer::GroupAndLost(group),
    }
}
