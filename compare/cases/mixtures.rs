//! What the encoder writes for several keys, and groups drawn for a key with a few of them made wrong.

use super::build::*;
use crate::draws::Draws;
use crate::second::encoder::encode;
use crate::second::keys::Key;

/// What the encoder writes passes.
pub fn encoded() -> Vec<Case> {
    let mut draws = Draws::from(8);
    let mut keys = vec![plain_key(), text_key()];
    keys.push(Key { pi: 0x0000, pty: 31, tp: true, name: [b' '; 8], ..plain_key() });
    keys.push(Key { pi: 0xFFFF, pty: 31, tp: true, name: [255; 8], text: [255; 64], ..text_key() });
    keys.push(Key { pi: 0x0800, pty: 1, tp: false, name: [b' '; 8], text: [b' '; 64], ..text_key() });
    keys.extend((0..12).map(|number| draws.key(number % 2 == 0)));
    let mut cases: Vec<Case> = keys.iter().map(|key| encoded_case(&sheet(&[key]), 0)).collect();
    // A sheet of several keys.
    let several = sheet(&keys[..3].iter().collect::<Vec<_>>());
    cases.extend((0..3).map(|exercise| encoded_case(&several, exercise)));
    cases
}

fn encoded_case(sheet: &[u8], exercise: u8) -> Case {
    let mut buffer = [0; 260];
    let length = encode(sheet, usize::from(exercise), &mut buffer).expect("a good key");
    case_on((0, 0), sheet, exercise, buffer[..length].to_vec())
}

/// Groups drawn for a drawn key: often all that is wanted, now and then some missing, wrong or damaged.
pub fn drawn() -> Vec<Case> {
    drawn_from(9, 60)
}

/// So many of them, from a start of the generator.
pub fn drawn_from(start: u64, count: usize) -> Vec<Case> {
    let mut draws = Draws::from(start);
    (0..count).map(|number| drawn_case(&mut draws, number % 3 == 0)).collect()
}

fn drawn_case(draws: &mut Draws, text_wanted: bool) -> Case {
    let key = draws.key(text_wanted);
    let flag = draws.below(2) as u8;
    let mut groups = wanted_groups(draws, &key, flag);
    for _ in 0..draws.below(4) {
        let more = drawn_group(draws, &key, flag);
        groups.push(more);
    }
    groups = draws.shuffled(groups);
    if draws.below(4) == 0 {
        groups.pop();
    }
    for _ in 0..draws.below(3) {
        let place = draws.below(groups.len() as u32) as usize;
        let word = draws.below(4) as usize;
        groups[place][word] ^= 1 << draws.below(16);
    }
    let mut submission = bytes(&groups);
    if draws.below(8) == 0 {
        submission = turned(&submission, draws.below(4 * groups.len() as u32) as usize, 1 << draws.below(26));
    }
    Case { sheet: sheet(&[&key]), exercise: 0, submission, meant: None }
}

/// Every address once, names as 0A or 0B.
fn wanted_groups(draws: &mut Draws, key: &Key, flag: u8) -> Vec<[u16; 4]> {
    let mut groups: Vec<[u16; 4]> = (0..4).map(|address| drawn_name(draws, key, address)).collect();
    if key.text_wanted {
        groups.extend((0..16).map(|address| text_2a(key, flag, address)));
    }
    groups
}

fn drawn_name(draws: &mut Draws, key: &Key, address: u8) -> [u16; 4] {
    if draws.below(2) == 0 {
        return name_0b(key, address);
    }
    let mut group = name_0a(key, address);
    group[2] = draws.word();
    group
}

/// A group more: a name or text again, or another type.
fn drawn_group(draws: &mut Draws, key: &Key, flag: u8) -> [u16; 4] {
    let address = draws.below(16) as u8;
    match draws.below(4) {
        0 => drawn_name(draws, key, address % 4),
        1 if key.text_wanted => text_2a(key, flag, address),
        2 => words(key, 3 + address % 13, 1, draws.below(32) as u8, key.pi, draws.word()),
        _ => words(key, 3 + address % 13, 0, draws.below(32) as u8, draws.word(), draws.word()),
    }
}
