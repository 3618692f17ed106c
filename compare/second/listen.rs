//! What the program `listen` writes of a recording: a line for each lock, loss and group as they come, and the summary.

use super::bits::bits_of_bytes;
use super::clock::{self, Clock};
use super::frequencies::{frequency, AfList};
use super::groups::{fields, header, Fields, Group};
use super::receiver::{answers, Answer};
use super::station::{self, Record};

/// All that is written; of the lines only the summary where `short` is asked for.
pub fn text(recording: &[u8], short: bool) -> String {
    let answered = answers(&bits_of_bytes(recording));
    let lines = if short { String::new() } else { lines(&answered) };
    lines + &summary(&answered)
}

/// The lines in order of their bits, which count from 0, as groups do.
fn lines(answered: &[Answer]) -> String {
    let mut lines = String::new();
    let mut number = 0;
    for (bit, answer) in answered.iter().enumerate() {
        if *answer == Answer::Locked {
            lines += &format!("lock {bit}\n");
        }
        if let Some(group) = group_in(answer) {
            lines += &group_line(number, &group);
            number += 1;
        }
        if loses(answer) {
            lines += &format!("lost {bit}\n");
        }
    }
    lines
}

fn group_in(answer: &Answer) -> Option<Group> {
    match answer {
        Answer::Group(group) | Answer::GroupAndLost(group) => Some(*group),
        _ => None,
    }
}

fn loses(answer: &Answer) -> bool {
    matches!(answer, Answer::Lost | Answer::GroupAndLost(_))
}

fn group_line(number: usize, group: &Group) -> String {
    let bad = "----".to_string();
    let word = |place: usize| if group.good[place] { format!("{:04X}", group.words[place]) } else { bad.clone() };
    let words = [0, 1, 2, 3].map(word).join(" ");
    let carried = if group.good == [true; 4] { carried(group) } else { String::new() };
    format!("group {number} {} {words}{carried}\n", kind(group))
}

/// Type and version by word 2, where it is good.
fn kind(group: &Group) -> String {
    if !group.good[1] {
        return "--".to_string();
    }
    let header = header(group.words);
    format!("{}{}", header.group_type, ["A", "B"][usize::from(header.version)])
}

fn carried(group: &Group) -> String {
    match fields(group.words) {
        Fields::Name0A { address, name, af, .. } => {
            format!(" name {address} \"{}\" AF{}{}", characters(&name), af_code(af[0]), af_code(af[1]))
        }
        Fields::Name0B { address, name, .. } => format!(" name {address} \"{}\"", characters(&name)),
        Fields::Text2A { flag, address, text } => text_part(address, flag, &text),
        Fields::Text2B { flag, address, text } => text_part(address, flag, &text),
        Fields::Clock4A(sent) => {
            let held = Some(sent).filter(|&sent| clock::in_range(sent));
            format!(" clock {} local {}", clock_words(held), local_words(held))
        }
        Fields::Other => String::new(),
    }
}

fn text_part(address: u8, flag: bool, text: &[u8]) -> String {
    format!(" text {address} flag {} \"{}\"", u8::from(flag), characters(text))
}

/// A code's frequency in kHz, or the code where it has none.
fn af_code(code: u8) -> String {
    match frequency(code) {
        Ok(khz) => format!(" {khz}"),
        Err(_) => format!(" code {code}"),
    }
}

/// Printable ASCII as it is; all else, and the backslash, as \xNN.
fn characters(bytes: &[u8]) -> String {
    let shown = |byte: &u8| match byte {
        b'\\' => "\\x5C".to_string(),
        0x20..=0x7E => char::from(*byte).to_string(),
        _ => format!("\\x{byte:02X}"),
    };
    bytes.iter().map(shown).collect()
}

/// UTC day and time, and the offset in half hours.
fn clock_words(held: Option<Clock>) -> String {
    let Some(clock) = held else { return "none".to_string() };
    let sign = if clock.negative { '-' } else { '+' };
    format!("{} {:02}:{:02} {sign}{}", clock.day, clock.hour, clock.minute, clock.offset)
}

fn local_words(held: Option<Clock>) -> String {
    match clock::date(held) {
        Ok(date) => {
            format!("{:04}-{:02}-{:02} {:02}:{:02}", date.year, date.month, date.day, date.hour, date.minute)
        }
        Err(_) => "none".to_string(),
    }
}

/// The station record, and the counts.
fn summary(answered: &[Answer]) -> String {
    let groups: Vec<Group> = answered.iter().filter_map(group_in).collect();
    let bad = groups.iter().filter(|group| group.good != [true; 4]).count();
    let locks = answered.iter().filter(|answer| **answer == Answer::Locked).count();
    let losses = answered.iter().filter(|answer| loses(answer)).count();
    let held = record_lines(&station::record_of(&groups));
    format!("{held}groups {}\nbad groups {bad}\nlocks {locks}\nlosses {losses}\n", groups.len())
}

fn record_lines(record: &Record) -> String {
    let pi = record.pi.map_or("none".to_string(), |pi| format!("{pi:04X}"));
    let flag = record.text_flag.map_or("none".to_string(), |flag| u8::from(flag).to_string());
    [
        format!("PI {pi}"),
        format!("PTY {}", record.pty),
        format!("TP {}", u8::from(record.tp)),
        format!("name \"{}\" seen {}", characters(&record.name), marks(&record.name_seen)),
        format!("text \"{}\" seen {}", characters(&record.text), marks(&record.text_seen)),
        format!("flag {flag}"),
        format!("AF {}", af_words(&record.af)),
        format!("clock {}", clock_words(record.clock)),
        format!("local {}", local_words(record.clock)),
    ]
    .map(|line| line + "\n")
    .concat()
}

/// + for a pair that was seen, - for one that was not.
fn marks(seen: &[bool]) -> String {
    seen.iter().map(|&seen| if seen { '+' } else { '-' }).collect()
}

/// How many are held of those expected, and the frequencies in kHz.
fn af_words(list: &AfList) -> String {
    let held: String = list.held.iter().map(|khz| format!(" {khz}")).collect();
    format!("{} of {}{held}", list.held.len(), list.expected)
}
