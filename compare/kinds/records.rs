//! Station records: streams of groups, each into a fresh record.

use super::dates::Calendar;
use super::Kind as Cases;
use crate::codes::{clock_code, date_code, list_numbers};
use crate::library::{self, RECORD_BYTES};
use crate::second::answers::BUFFER_TOO_SHORT;
use crate::second::groups::Group;
use crate::second::station::{record_of, Record};
use crate::station_cases::build::group_bytes;
use crate::draws::Draws;
use crate::station_cases::{self, drawn::drawn as drawn_groups};

/// The numbers of a record, in the library's order.
fn numbers(record: &Record, calendar: &Calendar) -> Vec<u64> {
    let mut numbers = vec![
        record.pi.map_or(0, |pi| 1 << 16 | u64::from(pi)),
        u64::from(record.pty),
        u64::from(record.tp),
        record.text_flag.map_or(0, |flag| 2 + u64::from(flag)),
        clock_code(record.clock),
        date_code(calendar.date(record.clock)),
    ];
    numbers.extend(record.name.map(u64::from));
    numbers.extend(record.name_seen.map(u64::from));
    numbers.extend(record.text.map(u64::from));
    numbers.extend(record.text_seen.map(u64::from));
    numbers.extend(list_numbers(&record.af).into_iter().map(u64::from));
    numbers
}

/// The answer and the whole buffer; bytes beyond the record stay.
fn second(groups: &[Group], calendar: &Calendar, buffer: &[u8]) -> (u8, Vec<u8>) {
    if buffer.len() < RECORD_BYTES {
        return (BUFFER_TOO_SHORT, buffer.to_vec());
    }
    let numbers = numbers(&record_of(groups), calendar);
    let mut bytes: Vec<u8> = numbers.into_iter().flat_map(u64::to_be_bytes).collect();
    bytes.extend(&buffer[RECORD_BYTES..]);
    (0, bytes)
}

fn try_groups(cases: &mut Cases, groups: &[Group], calendar: &Calendar, room: usize) {
    let bytes: Vec<u8> = groups.iter().flat_map(group_bytes).collect();
    let mut buffer = vec![0x55; room];
    let expected = second(groups, calendar, &buffer);
    let answer = library::record(&bytes, &mut buffer);
    cases.equal(|| format!("{groups:x?}"), (answer, buffer), expected);
}

/// The streams of the case files, each up to every group of it.
pub fn of_cases() -> Cases {
    let mut cases = Cases::new("records, streams of the case files");
    let calendar = Calendar::walked();
    for stream in station_cases::all() {
        for count in 0..=stream.groups.len() {
            try_groups(&mut cases, &stream.groups[..count], &calendar, RECORD_BYTES);
        }
    }
    cases
}

/// Drawn groups of few stations, and buffers of other lengths.
pub fn drawn() -> Cases {
    let mut cases = Cases::new("records, drawn groups");
    let calendar = Calendar::walked();
    let mut draws = Draws::from(171);
    for number in 0..3_000 {
        let groups = drawn_groups(&mut draws, number % 120);
        try_groups(&mut cases, &groups, &calendar, RECORD_BYTES + number % 5);
    }
    let groups = drawn_groups(&mut draws, 8);
    for room in [0, 1, 8, 1_000, RECORD_BYTES - 1] {
        try_groups(&mut cases, &groups, &calendar, room);
    }
    cases
}
