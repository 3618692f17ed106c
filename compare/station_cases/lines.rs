//! A station record in lines, one for each of its parts.

use crate::second::clock::{date, Clock};
use crate::second::station::Record;

pub fn record_lines(number: usize, record: &Record) -> String {
    let lines = [
        format!("stream {number} pi {}", record.pi.map_or("none".to_string(), |pi| format!("{pi:04x}"))),
        format!("pty {} tp {}", record.pty, u8::from(record.tp)),
        format!("name {} {}", bytes(&record.name), marks(&record.name_seen)),
        format!("text {} {}", bytes(&record.text), marks(&record.text_seen)),
        format!("flag {}", record.text_flag.map_or("none".to_string(), |flag| u8::from(flag).to_string())),
        frequency_line(record),
        record.clock.map_or("clock none".to_string(), clock_line),
        date_line(record),
    ];
    lines.map(|line| line + "\n").concat()
}

/// Each byte in two digits.
fn bytes(bytes: &[u8]) -> String {
    bytes.iter().map(|byte| format!("{byte:02x}")).collect()
}

fn marks(marks: &[bool]) -> String {
    marks.iter().map(|&mark| if mark { '1' } else { '0' }).collect()
}

fn frequency_line(record: &Record) -> String {
    let held: String = record.af.held.iter().map(|frequency| format!(" {frequency}")).collect();
    format!("af held {} of {}{held}", record.af.held.len(), record.af.expected)
}

/// Day, hour, minute, sign (1 negative) and half hours.
fn clock_line(clock: Clock) -> String {
    let sign = u8::from(clock.negative);
    format!("clock {} {} {} {sign} {}", clock.day, clock.hour, clock.minute, clock.offset)
}

/// The local date and time; none where it is refused.
fn date_line(record: &Record) -> String {
    match date(record.clock) {
        Ok(d) => format!("date {} {} {} weekday {} {}:{}", d.year, d.month, d.day, d.weekday, d.hour, d.minute),
        Err(_) => "date none".to_string(),
    }
}
