//! The clock of a 4A, and the local date by walking the calendar day by day.

use super::answers::CLOCK_OR_DATE;
use super::bits::{bits_of, number_of};

/// UTC day number and time, and the local offset in half hours with its sign.
#[derive(Clone, Copy, PartialEq, Debug)]
pub struct Clock {
    pub day: u32,
    pub hour: u8,
    pub minute: u8,
    pub negative: bool,
    pub offset: u8,
}

/// Local date and time; Monday is weekday 1.
#[derive(Clone, Copy, PartialEq, Debug)]
pub struct Date {
    pub year: u32,
    pub month: u32,
    pub day: u32,
    pub weekday: u32,
    pub hour: u32,
    pub minute: u32,
}

/// 1900-03-01 and 2100-02-28.
pub const FIRST_DAY: u32 = 15_079;
pub const LAST_DAY: u32 = 88_127;
const FIRST_DATE: (u32, u32, u32) = (1900, 3, 1);

const DAY_MINUTES: i64 = 24 * 60;

fn day_in_range(day: i64) -> bool {
    i64::from(FIRST_DAY) <= day && day <= i64::from(LAST_DAY)
}

pub fn in_range(clock: Clock) -> bool {
    day_in_range(i64::from(clock.day)) && clock.hour <= 23 && clock.minute <= 59 && clock.offset <= 24
}

/// The clock in the four words of a 4A, as sent; sign 1 with offset 0 reads as 0.
pub fn read(words: [u16; 4]) -> Clock {
    let bits: Vec<bool> = words[1..].iter().flat_map(|&word| bits_of(u64::from(word), 16)).collect();
    let offset = number_of(&bits[43..48]) as u8;
    Clock {
        day: number_of(&bits[14..31]) as u32,
        hour: number_of(&bits[31..36]) as u8,
        minute: number_of(&bits[36..42]) as u8,
        negative: bits[42] && offset != 0,
        offset,
    }
}

/// A clock as the four words of a 4A.
pub fn write(pi: u16, tp: bool, pty: u8, clock: Clock) -> Result<[u16; 4], u8> {
    if !in_range(clock) || pty > 31 {
        return Err(CLOCK_OR_DATE);
    }
    let group_type_and_version = bits_of(0b0100_0, 5);
    let sign = clock.negative && clock.offset != 0;
    let bits = [
        group_type_and_version,
        vec![tp],
        bits_of(u64::from(pty), 5),
        vec![false; 3],
        bits_of(u64::from(clock.day), 17),
        bits_of(u64::from(clock.hour), 5),
        bits_of(u64::from(clock.minute), 6),
        vec![sign],
        bits_of(u64::from(clock.offset), 5),
    ]
    .concat();
    let word = |place: usize| number_of(&bits[16 * place..16 * place + 16]) as u16;
    Ok([pi, word(0), word(1), word(2)])
}

/// The local day number and the minute in that day: UTC plus 30 minutes times the offset.
fn local(clock: Clock) -> (i64, i64) {
    let shift = 30 * i64::from(clock.offset);
    let utc_minute = 60 * i64::from(clock.hour) + i64::from(clock.minute);
    let mut minute = if clock.negative { utc_minute - shift } else { utc_minute + shift };
    let mut day = i64::from(clock.day);
    while minute < 0 {
        minute += DAY_MINUTES;
        day -= 1;
    }
    while minute >= DAY_MINUTES {
        minute -= DAY_MINUTES;
        day += 1;
    }
    (day, minute)
}

/// The local date and time of the clock held, if one is held and both days are in range.
pub fn date(held: Option<Clock>) -> Result<Date, u8> {
    date_by(held, calendar)
}

/// The same, with a calendar: year, month and day of a day number in range.
pub fn date_by(held: Option<Clock>, calendar: impl Fn(u32) -> (u32, u32, u32)) -> Result<Date, u8> {
    let clock = held.ok_or(CLOCK_OR_DATE)?;
    let (local_day, minute) = local(clock);
    if !day_in_range(i64::from(clock.day)) || !day_in_range(local_day) {
        return Err(CLOCK_OR_DATE);
    }
    let (year, month, day) = calendar(local_day as u32);
    let weekday = (local_day as u32 + 2) % 7 + 1;
    Ok(Date { year, month, day, weekday, hour: (minute / 60) as u32, minute: (minute % 60) as u32 })
}

/// Year, month and day of a day number in range, walked to from the first day.
pub fn calendar(day_number: u32) -> (u32, u32, u32) {
    let mut date = FIRST_DATE;
    for _ in FIRST_DAY..day_number {
        date = next_day(date);
    }
    date
}

/// The dates of all days in range, walked through once.
pub fn all_dates() -> Vec<(u32, u32, u32)> {
    let mut dates = vec![FIRST_DATE];
    for _ in FIRST_DAY..LAST_DAY {
        dates.push(next_day(dates[dates.len() - 1]));
    }
    dates
}

fn next_day((year, month, day): (u32, u32, u32)) -> (u32, u32, u32) {
    if day < days_in_month(year, month) {
        (year, month, day + 1)
    } else if month < 12 {
        (year, month + 1, 1)
    } else {
        (year + 1, 1, 1)
    }
}

fn days_in_month(year: u32, month: u32) -> u32 {
    match month {
        4 | 6 | 9 | 11 => 30,
        2 if leap(year) => 29,
        2 => 28,
        _ => 31,
    }
}

fn leap(year: u32) -> bool {
    year % 4 == 0 && (year % 100 != 0 || year % 400 == 0)
}
