//! The receiver: locks, groups, loss, and the stream that locks falsely.

use crate::second::bits::bits_of_bytes;
use crate::second::blocks::{write, Kind};
use crate::second::groups::{write_bits, Group};
use crate::second::receiver::{answers, fresh, Answer};
use crate::Tally;

pub fn run(tally: &mut Tally) {
    first_locks(tally);
    losses(tally);
    runs(tally);
    one_bit_at_a_time(tally);
    false_locks(tally);
}

const WORDS: [u16; 4] = [0x1001, 0x0000, 0xE0CD, 0x4142];
const BLOCK: usize = 26;
const GROUP: usize = 4 * BLOCK;

/// A block valid as no kind, whichever is expected.
fn bad_block() -> Vec<bool> {
    vec![false; BLOCK]
}

fn good_groups(count: usize) -> Vec<bool> {
    vec![write_bits(WORDS); count].concat()
}

fn is_group(answer: &Answer) -> bool {
    matches!(answer, Answer::Group(_) | Answer::GroupAndLost(_))
}

fn is_lost(answer: &Answer) -> bool {
    matches!(answer, Answer::Lost | Answer::GroupAndLost(_))
}

/// A stream that begins with the second, third or fourth block of a group locks on its first pair.
fn first_locks(tally: &mut Tally) {
    let group = Group { words: WORDS, good: [true; 4] };
    for (skipped, first_group_ends) in [(0, 4), (1, 7), (2, 6), (3, 5)] {
        let answered = answers(&good_groups(4)[BLOCK * skipped..]);
        tally.equal("locked at bit 51", answered.iter().position(|a| *a == Answer::Locked), Some(51));
        tally.equal("first group", answered.iter().position(is_group), Some(BLOCK * first_group_ends - 1));
        tally.equal("its words", answered[BLOCK * first_group_ends - 1], Answer::Group(group));
    }
    let crossed = [write(0x0800, Kind::B), write(0x1001, Kind::C)].concat();
    tally.equal("B of version 1 is not followed by C", answers(&crossed)[51], Answer::Nothing);
    let followed = [write(0x0800, Kind::B), write(0x1001, Kind::CPrime)].concat();
    tally.equal("B of version 1 is followed by C'", answers(&followed)[51], Answer::Locked);
}

/// Locks on two blocks from some place in a group on, then bad blocks only.
fn losses(tally: &mut Tally) {
    for (first, groups) in [(0, 13), (1, 12), (2, 12), (3, 12)] {
        let pair = good_groups(2)[BLOCK * first..BLOCK * (first + 2)].to_vec();
        let answered = answers(&[pair, bad_block().repeat(60)].concat());
        tally.equal("groups till the loss", answered.iter().filter(|a| is_group(a)).count(), groups);
        tally.equal("lost at bit 1351", answered.iter().position(is_lost), Some(1_351));
        let together = matches!(answered[1_351], Answer::GroupAndLost(_));
        tally.equal("group and lost only after A and B", together, first == 0);
    }
    let nothing_good = Group { words: [0; 4], good: [false; 4] };
    let answered = answers(&[good_groups(1), bad_block().repeat(50)].concat());
    tally.equal("four bad blocks are a group", answered[2 * GROUP - 1], Answer::Group(nothing_good));
}

/// After an A, B lock: bad blocks, then good ones. Where 45 or 46 are bad, the last bad one is a third or fourth block,
/// so that no bad second block makes a later third bad.
fn run_of(bad: usize) -> Vec<bool> {
    let mut blocks: Vec<Vec<bool>> = good_groups(20).chunks(BLOCK).map(|block| block.to_vec()).collect();
    for block in &mut blocks[2..2 + bad] {
        *block = bad_block();
    }
    blocks.concat()
}

fn runs(tally: &mut Tally) {
    tally.equal("45 bad of 50 are kept", answers(&run_of(45)).iter().position(is_lost), None);
    tally.equal("46 bad of 50 are lost", answers(&run_of(46)).iter().position(is_lost), Some(1_351));
    let again = answers(&run_of(46));
    let second_lock = again.iter().rposition(|answer| *answer == Answer::Locked);
    tally.equal("hunting begins with no bits", second_lock, Some(1_351 + 52));
    let mut second_turned = good_groups(2);
    second_turned[GROUP + BLOCK] ^= true;
    let expected = Group { words: [0x1001, 0, 0, 0x4142], good: [true, false, false, true] };
    tally.equal("after a bad second the third is bad", answers(&second_turned)[2 * GROUP - 1], Answer::Group(expected));
}

fn one_bit_at_a_time(tally: &mut Tally) {
    let stream = good_groups(3);
    let mut receiver = fresh();
    for (place, expected) in answers(&stream).into_iter().enumerate() {
        let before = receiver.clone();
        let (kept, refused) = receiver.take(2);
        tally.that("2 is refused and nothing changes", refused == Answer::Refused(9) && kept == before);
        let (next, answer) = kept.take(u8::from(stream[place]));
        tally.equal("one bit at a time", answer, expected);
        receiver = next;
    }
}

/// The group 1400 0000 CF80 4142 for ever, cut before its bits 1 to 9: locks falsely and stays so.
fn false_locks(tally: &mut Tally) {
    let bytes = [0x14, 0x00, 0x21, 0xC0, 0x00, 0x19, 0x8C, 0xF8, 0x0B, 0x6D, 0x05, 0x08, 0xCA];
    let group = bits_of_bytes(&bytes);
    tally.equal("the group's bytes", &group, &write_bits([0x1400, 0x0000, 0xCF80, 0x4142]));
    let stream = group.repeat(80);
    for cut in 0..=10 {
        let answered = answers(&stream[cut..]);
        let locked = answered.iter().position(|answer| *answer == Answer::Locked).unwrap();
        let falsely = (cut + locked + 1) % BLOCK != 0;
        tally.equal("locked falsely", falsely, (1..=9).contains(&cut));
        tally.equal("never lost", answered.iter().position(is_lost), None);
    }
}
