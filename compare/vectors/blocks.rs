//! Blocks: checks, rows, kinds, and what damage can look like.

use crate::second::bits::{bits_of, number_of};
use crate::second::blocks::*;
use crate::Tally;

pub fn run(tally: &mut Tally) {
    checks(tally);
    remainders(tally);
    kinds(tally);
    neighbours(tally);
    damage(tally);
    refusals(tally);
}

fn checks(tally: &mut Tally) {
    tally.equal("check of 0000 as A", check(0x0000, Kind::A), 0x0FC);
    tally.equal("check of 0001 as A", check(0x0001, Kind::A), 0x145);
    tally.equal("check of FFFF as A", check(0xFFFF, Kind::A), 0x031);
    tally.equal("check of 0001 as B", check(0x0001, Kind::B), 0x021);
    tally.equal("check of FFFF as B", check(0xFFFF, Kind::B), 0x155);
    tally.equal("checks of 1234", KINDS.map(|kind| check(0x1234, kind)), [0x06A, 0x10E, 0x1FE, 0x3C6, 0x122]);
    tally.equal("checks of 54A8", KINDS.map(|kind| check(0x54A8, kind)), [0x3CA, 0x2AE, 0x25E, 0x066, 0x282]);
}

/// The remainder of a word times x^10.
fn remainder_of_word(word: u16) -> u64 {
    number_of(&remainder(&bits_of(u64::from(word) << 10, BLOCK_BITS)))
}

fn remainders(tally: &mut Tally) {
    tally.equal("remainder of 0001", remainder_of_word(0x0001), 0x1B9);
    tally.equal("remainder of FFFF", remainder_of_word(0xFFFF), 0x0CD);
    let rows = [
        0x077, 0x2E7, 0x3AF, 0x30B, 0x359, 0x370, 0x1B8, 0x0DC, 0x06E, 0x037, 0x2C7, 0x3BF, 0x303, 0x35D, 0x372, 0x1B9,
    ];
    for (place, row) in rows.into_iter().enumerate() {
        tally.equal("row", remainder_of_word(1 << (15 - place)), row);
    }
    let sum_of_rows = |word: u16| (0..16).filter(|&bit| word >> bit & 1 == 1).fold(0, |sum, bit| sum ^ rows[15 - bit]);
    tally.that(
        "every word's remainder is the sum of its rows",
        (0..=0xFFFF).all(|w| remainder_of_word(w) == sum_of_rows(w)),
    );
}

fn kinds(tally: &mut Tally) {
    for kind in KINDS {
        let read_back = |word: u16| read(&write(word, kind)) == Some((word, kind));
        tally.that("every word reads back", (0..=0xFFFF).all(read_back));
    }
    let zero_as_b = bits_of(0x198, BLOCK_BITS);
    tally.that("0000/198 is valid as B", valid(&zero_as_b, Kind::B));
    tally.that("0000/198 is not valid as A", !valid(&zero_as_b, Kind::A));
    tally.equal("0000/198 reads as B", read(&zero_as_b), Some((0, Kind::B)));
    tally.equal("remainder 0 reads as none", read(&[false; BLOCK_BITS]), None);
    tally.equal("0FC and 198 differ within seven bits", span(0x0FC ^ 0x198), 7);
    let fitting = |block: u64| KINDS.into_iter().filter(|&kind| valid(&bits_of(block, BLOCK_BITS), kind)).count();
    tally.that("at most one kind fits", (0..1024).all(|check| fitting(check) <= 1));
}

/// How many neighbouring bits it takes to hold all ones of a pattern.
fn span(pattern: u64) -> u32 {
    64 - pattern.leading_zeros() - pattern.trailing_zeros()
}

/// All patterns of one or more bits within some neighbouring bits of a block.
fn bursts(longest: u32) -> Vec<u64> {
    let shapes = || (1u64..1 << longest).filter(|shape| shape % 2 == 1);
    (0..BLOCK_BITS)
        .flat_map(|shift| shapes().map(move |shape| shape << shift))
        .filter(|b| b >> BLOCK_BITS == 0)
        .collect()
}

fn remainder_of(pattern: u64) -> u64 {
    number_of(&remainder(&bits_of(pattern, BLOCK_BITS)))
}

/// Which patterns turn one kind into another.
fn neighbours(tally: &mut Tally) {
    let between = |one: Kind, other: Kind| u64::from(offset(one) ^ offset(other));
    let word_bit = |bit: u32| 1u64 << (10 + bit);
    tally.equal("word bit 8 turns C into D", remainder_of(word_bit(8)), between(Kind::C, Kind::D));
    tally.equal("word bits 9 and 8 turn A into B", remainder_of(word_bit(9) | word_bit(8)), between(Kind::A, Kind::B));
    let short: Vec<u64> = bursts(5).into_iter().map(remainder_of).collect();
    for (place, one) in KINDS.into_iter().enumerate() {
        for other in KINDS.into_iter().skip(place + 1) {
            let near = short.contains(&between(one, other));
            tally.equal(
                "a burst of five turns any kind into any other but A into C",
                near,
                (one, other) != (Kind::A, Kind::C),
            );
        }
    }
}

fn damage(tally: &mut Tally) {
    let ten = bursts(10);
    tally.equal("bursts of up to ten bits", ten.len(), 9_215);
    tally.that("no burst of up to ten bits is a multiple", ten.iter().all(|&burst| remainder_of(burst) != 0));
    let ones = |count: u32| (0u64..1 << BLOCK_BITS).filter(move |pattern| pattern.count_ones() == count);
    tally.equal("two-bit patterns", ones(2).count(), 325);
    tally.that("no two bits are a multiple", ones(2).all(|pattern| remainder_of(pattern) != 0));
    tally.equal("three-bit patterns", ones(3).count(), 2_600);
    let multiples: Vec<u64> = ones(3).filter(|&pattern| remainder_of(pattern) == 0).collect();
    tally.equal("three-bit multiples", multiples, (0..7).map(|shift| 0x0080401 << shift).collect());
}

fn refusals(tally: &mut Tally) {
    tally.equal("2^26 is refused", read_number(1 << 26), Err(12));
    tally.equal("2^26 is refused when judged", judge_number(1 << 26, Kind::A), Err(12));
    tally.equal("2^26 - 1 is not refused", read_number((1 << 26) - 1).is_ok(), true);
    tally.equal("a number reads back", read_number(write_number(0x1234, Kind::D)), Ok(Some((0x1234, Kind::D))));
    tally.equal("a number judged", judge_number(write_number(0x1234, Kind::D), Kind::D), Ok(Some(0x1234)));
    tally.equal("a number judged as another", judge_number(write_number(0x1234, Kind::D), Kind::C), Ok(None));
}
