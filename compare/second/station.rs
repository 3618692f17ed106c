//! The station record: what the groups so far say of the station.

use super::clock::{in_range, Clock};
use super::frequencies::{self, AfList};
use super::groups::{fields, header, Fields, Group};

/// Characters are marked seen by pairs.
#[derive(Clone, PartialEq, Debug)]
pub struct Record {
    pub pi: Option<u16>,
    pub pty: u8,
    pub tp: bool,
    pub name: [u8; 8],
    pub name_seen: [bool; 4],
    pub text: [u8; 64],
    pub text_seen: [bool; 32],
    pub text_flag: Option<bool>,
    pub af: AfList,
    pub clock: Option<Clock>,
}

pub fn fresh() -> Record {
    Record {
        pi: None,
        pty: 0,
        tp: false,
        name: [b' '; 8],
        name_seen: [false; 4],
        text: [b' '; 64],
        text_seen: [false; 32],
        text_flag: None,
        af: frequencies::fresh(),
        clock: None,
    }
}

/// The record of all groups that came.
pub fn record_of(groups: &[Group]) -> Record {
    groups.iter().fold(fresh(), take)
}

/// The record after one more group.
pub fn take(record: Record, group: &Group) -> Record {
    if group.good != [true; 4] {
        return record;
    }
    let header = header(group.words);
    let mut next = if record.pi == Some(header.pi) { record } else { Record { pi: Some(header.pi), ..fresh() } };
    next.pty = header.pty;
    next.tp = header.tp;
    take_fields(next, fields(group.words))
}

fn take_fields(mut record: Record, fields: Fields) -> Record {
    match fields {
        Fields::Name0A { address, name, af, .. } => {
            record.af = frequencies::take(frequencies::take(record.af, af[0]), af[1]);
            take_name(record, usize::from(address), name)
        }
        Fields::Name0B { address, name, .. } => take_name(record, usize::from(address), name),
        Fields::Text2A { flag, address, text } => {
            let pair = 2 * usize::from(address);
            let first = take_text(take_flag(record, flag), pair, [text[0], text[1]]);
            take_text(first, pair + 1, [text[2], text[3]])
        }
        Fields::Text2B { flag, address, text } => take_text(take_flag(record, flag), usize::from(address), text),
        Fields::Clock4A(clock) => take_clock(record, clock),
        Fields::Other => record,
    }
}

fn take_name(mut record: Record, pair: usize, characters: [u8; 2]) -> Record {
    record.name[2 * pair] = characters[0];
    record.name[2 * pair + 1] = characters[1];
    record.name_seen[pair] = true;
    record
}

/// The flag held is the latest; a flag unlike the one held clears the text and its marks.
fn take_flag(mut record: Record, flag: bool) -> Record {
    if record.text_flag.is_some_and(|held| held != flag) {
        record.text = [b' '; 64];
        record.text_seen = [false; 32];
    }
    record.text_flag = Some(flag);
    record
}

fn take_text(mut record: Record, pair: usize, characters: [u8; 2]) -> Record {
    record.text[2 * pair] = characters[0];
    record.text[2 * pair + 1] = characters[1];
    record.text_seen[pair] = true;
    record
}

fn take_clock(mut record: Record, clock: Clock) -> Record {
    if in_range(clock) {
        record.clock = Some(clock);
    }
    record
}
