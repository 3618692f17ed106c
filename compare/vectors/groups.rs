//! Groups, clock, dates and frequencies.

use crate::second::answers::{CLOCK_OR_DATE, NO_FREQUENCY};
use crate::second::blocks::{check, Kind};
use crate::second::clock::{self, Clock, Date};
use crate::second::frequencies::{code, frequency};
use crate::second::groups::*;
use crate::Tally;

pub fn run(tally: &mut Tally) {
    groups(tally);
    clocks(tally);
    dates(tally);
    frequencies(tally);
}

const FIRST_GROUP: [u16; 4] = [0x1001, 0x0000, 0xE0CD, 0x4142];

fn groups(tally: &mut Tally) {
    let kinds = kinds(FIRST_GROUP[1]);
    tally.equal("kinds of version 0", kinds, [Kind::A, Kind::B, Kind::C, Kind::D]);
    let checks = [0, 1, 2, 3].map(|place| check(FIRST_GROUP[place], kinds[place]));
    tally.equal("checks of the first group", checks, [0x24E, 0x198, 0x1E9, 0x0CA]);
    let switches = Switches { ta: false, ms: false, di: false };
    let expected = Fields::Name0A { switches, address: 0, name: *b"AB", af: [0xE0, 0xCD] };
    tally.equal("fields of the first group", fields(FIRST_GROUP), expected);
    tally.equal("PI of the first group", header(FIRST_GROUP).pi, 0x1001);
    let read_back = Group { words: FIRST_GROUP, good: [true; 4] };
    tally.equal("13 bytes read back", read_bytes(&write_bytes(FIRST_GROUP)), read_back);
    let version_1 = [0x1001, 0x0800, 0x1234, 0x4142];
    tally.equal("a third word that is not PI is written as given", words_of_bytes(&write_bytes(version_1)), version_1);
    tally.equal("version 1 reads back", read_bytes(&write_bytes(version_1)).good, [true; 4]);
    let mut second_bad = write_bytes(FIRST_GROUP);
    second_bad[4] ^= 1;
    let expected = Group { words: [0x1001, 0, 0xE0CD, 0x4142], good: [true, false, true, true] };
    tally.equal("the third block is judged by word 2 as it stands", read_bytes(&second_bad), expected);
}

const EXAMPLE: Clock = Clock { day: 45_218, hour: 23, minute: 59, negative: true, offset: 10 };

fn clocks(tally: &mut Tally) {
    let words = [0x1001, 0x4001, 0x6145, 0x7EEA];
    tally.equal("4001 6145 7EEA is read", fields(words), Fields::Clock4A(EXAMPLE));
    tally.equal("4001 6145 7EEA is written", clock::write(0x1001, false, 0, EXAMPLE), Ok(words));
    let minus_zero = Clock { offset: 0, ..EXAMPLE };
    let written = clock::write(0x1001, false, 0, minus_zero);
    tally.equal("minus 0 is written with sign 0", written, Ok([0x1001, 0x4001, 0x6145, 0x7EC0]));
    tally.equal("minus 0 reads as 0", clock::read([0x1001, 0x4001, 0x6145, 0x7EE0]).negative, false);
    tally.equal("bits 4 to 2 of word 2 are not read", clock::read([0x1001, 0x401D, 0x6145, 0x7EEA]), EXAMPLE);
    tally.equal("4B is no clock", fields([0x1001, 0x4801, 0x6145, 0x7EEA]), Fields::Other);
    let refused = |clock: Clock| clock::write(0x1001, false, 0, clock) == Err(CLOCK_OR_DATE);
    tally.that("day 15,078 is refused", refused(Clock { day: 15_078, ..EXAMPLE }));
    tally.that("day 15,079 is written", !refused(Clock { day: 15_079, ..EXAMPLE }));
    tally.that("day 88,127 is written", !refused(Clock { day: 88_127, ..EXAMPLE }));
    tally.that("day 88,128 is refused", refused(Clock { day: 88_128, ..EXAMPLE }));
    tally.that("hour 24 is refused", refused(Clock { hour: 24, ..EXAMPLE }));
    tally.that("minute 60 is refused", refused(Clock { minute: 60, ..EXAMPLE }));
    tally.that("offset 24 is written", !refused(Clock { offset: 24, ..EXAMPLE }));
    tally.that("offset 25 is refused", refused(Clock { offset: 25, ..EXAMPLE }));
    tally.that("PTY 31 is written", clock::write(0x1001, false, 31, EXAMPLE).is_ok());
    tally.equal("PTY 32 is refused", clock::write(0x1001, false, 32, EXAMPLE), Err(CLOCK_OR_DATE));
}

/// Year, month, day, weekday, hour and minute of a clock.
fn date(day: u32, hour: u8, minute: u8, half_hours: i8) -> Result<[u32; 6], u8> {
    let clock = Clock { day, hour, minute, negative: half_hours < 0, offset: half_hours.unsigned_abs() };
    let Date { year, month, day, weekday, hour, minute } = clock::date(Some(clock))?;
    Ok([year, month, day, weekday, hour, minute])
}

fn dates(tally: &mut Tally) {
    tally.equal("local date of the example", date(45_218, 23, 59, -10), Ok([1982, 9, 6, 1, 18, 59]));
    tally.equal("day 15,079", date(15_079, 0, 0, 0), Ok([1900, 3, 1, 4, 0, 0]));
    tally.equal("day 88,127", date(88_127, 0, 0, 0), Ok([2100, 2, 28, 7, 0, 0]));
    tally.equal("day 15,078", date(15_078, 12, 0, 0), Err(CLOCK_OR_DATE));
    tally.equal("day 88,128", date(88_128, 12, 0, 0), Err(CLOCK_OR_DATE));
    tally.equal("UTC in range, local day too late", date(88_127, 23, 30, 1), Err(CLOCK_OR_DATE));
    tally.equal("UTC in range, local day too early", date(15_079, 0, 0, -1), Err(CLOCK_OR_DATE));
    tally.equal("local day in range, UTC too early", date(15_078, 23, 30, 1), Err(CLOCK_OR_DATE));
    tally.equal("local day in range, UTC too late", date(88_128, 0, 0, -1), Err(CLOCK_OR_DATE));
    tally.equal("last minute of the last day", date(88_127, 23, 29, 1), Ok([2100, 2, 28, 7, 23, 59]));
    tally.equal("the offset takes the day along", date(45_218, 23, 59, 24), Ok([1982, 9, 7, 2, 11, 59]));
    tally.equal("the offset takes the day back", date(45_218, 0, 0, -24), Ok([1982, 9, 5, 7, 12, 0]));
    tally.equal("a leap day of 2000", date(51_603, 0, 0, 0), Ok([2000, 2, 29, 2, 0, 0]));
    tally.equal("no clock held", clock::date(None), Err(CLOCK_OR_DATE));
}

fn frequencies(tally: &mut Tally) {
    tally.equal("code 1", frequency(1), Ok(87_600));
    tally.equal("code 204", frequency(204), Ok(107_900));
    tally.equal("code 205", frequency(205), Err(NO_FREQUENCY));
    tally.equal("code 0", frequency(0), Err(NO_FREQUENCY));
    tally.that("every code comes back", (1..=204).all(|number| frequency(number).and_then(code) == Ok(number)));
    tally.equal("87,500 kHz", code(87_500), Err(NO_FREQUENCY));
    tally.equal("87,650 kHz", code(87_650), Err(NO_FREQUENCY));
    tally.equal("108,000 kHz", code(108_000), Err(NO_FREQUENCY));
}
