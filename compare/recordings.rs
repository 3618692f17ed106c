//! Writes the stored runs of the program `listen`: `recordings CRATESFOLDER`; and `recordings FILE SEED` writes a
//! recording drawn at random.
//!
//! A run has the recording on standard input or as a file that an argument names; what it must write is the second
//! implementation's.

#[allow(dead_code)]
mod second;
mod stored;
#[allow(dead_code)]
mod receiver_cases {
    pub mod build;
}

use receiver_cases::build::{spoiled, Noise};
use second::bits::bytes_of_bits;
use second::blocks::BLOCK_BITS;
use second::clock::{write, Clock};
use second::groups::write_bits;
use std::path::Path;
use stored::Stored;

const PI: u16 = 0xD3C2;

/// The blocks of the last stretch of `roof` that are bad.
const HIT: [usize; 8] = [7, 21, 34, 36, 47, 53, 57, 58];

/// A text of 64 characters with a backslash, and with bytes that are not shown as they are.
const ESCAPED: &[u8; 64] =
    b"A \\ as it is, caf\x82, na\x9Bve, \x00 \x1F \x20 \x7E \x7F \x80 \xFF and \"\\x41\\\\\", at last.\x0D";

/// Word 2: type and version, TP 1, PTY 10, five bits.
fn second_word(kind: u16, version: u16, five: u16) -> u16 {
    kind * 4096 + version * 2048 + 1024 + 10 * 32 + five
}

/// Two characters as a word.
fn pair(text: &[u8], at: usize) -> u16 {
    u16::from(text[at]) * 256 + u16::from(text[at + 1])
}

/// 0A for the four pairs of a name, with the AF words given.
fn name_0a(name: &[u8; 8], af: [u16; 4]) -> Vec<[u16; 4]> {
    (0..4).map(|a| [PI, second_word(0, 0, a as u16), af[a], pair(name, 2 * a)]).collect()
}

/// 0B for the four pairs of a name.
fn name_0b(name: &[u8; 8]) -> Vec<[u16; 4]> {
    (0..4).map(|a| [PI, second_word(0, 1, a as u16), PI, pair(name, 2 * a)]).collect()
}

/// 2A for a text, four characters each.
fn text_2a(text: &[u8], flag: u16) -> Vec<[u16; 4]> {
    (0..text.len() / 4)
        .map(|a| [PI, second_word(2, 0, 16 * flag + a as u16), pair(text, 4 * a), pair(text, 4 * a + 2)])
        .collect()
}

/// 2B for a text, two characters each.
fn text_2b(text: &[u8], flag: u16) -> Vec<[u16; 4]> {
    (0..text.len() / 2).map(|a| [PI, second_word(2, 1, 16 * flag + a as u16), PI, pair(text, 2 * a)]).collect()
}

fn clock_4a(day: u32, hour: u8, minute: u8, negative: bool, offset: u8) -> [u16; 4] {
    write(PI, true, 10, Clock { day, hour, minute, negative, offset }).expect("a clock in range")
}

fn bits(groups: &[[u16; 4]]) -> Vec<bool> {
    groups.iter().flat_map(|&words| write_bits(words)).collect()
}

/// A recording of whole bytes; bits 0 fill the last.
fn bytes(mut bits: Vec<bool>) -> Vec<u8> {
    bits.resize(bits.len().next_multiple_of(8), false);
    bytes_of_bits(&bits)
}

/// All that the record holds, group by group.
fn clean_groups() -> Vec<[u16; 4]> {
    [
        name_0a(b"RADIO-UM", [0xE50A, 0x0B0C, 0x0DCC, 0x01CD]),
        text_2a(b"What the marker passes goes on the campus transmitter.\x0D ", 0),
        vec![clock_4a(45_218, 23, 59, true, 10), clock_4a(60_000, 12, 5, false, 24)],
        name_0b(b"RADIO-UM"),
        vec![[PI, second_word(15, 1, 7), PI, 0x1234], [PI, second_word(4, 1, 0), PI, 0x0000]],
    ]
    .concat()
}

/// A recording of groups, with nothing bad.
fn clean(groups: &[[u16; 4]]) -> Vec<u8> {
    bytes(bits(groups))
}

/// Another station, characters that are not shown as they are, another flag, and clocks at the edges.
fn odd_groups() -> Vec<[u16; 4]> {
    let other = |words: [u16; 4]| [0x1001, words[1], words[2], words[3]];
    [
        name_0b(b"OTHER PI").into_iter().map(other).collect(),
        name_0a(b"a\\\"\x00\x1F\x7E\x7F\xFF", [0xE310, 0x10FA, 0xCC01, 0x02CD]),
        text_2b(b"two by two \\x41", 1),
        text_2a(b"and \xE9t\xE9 ", 0),
        vec![clock_4a(88_127, 23, 30, false, 1), clock_4a(15_079, 0, 0, true, 1), clock_4a(88_127, 23, 30, false, 0)],
        // Days 15,078 and 88,128, hour 24, offset 25: no clock.
        vec![
            [PI, 0x4540, 0x75CC, 0x0000],
            [PI, 0x4542, 0xB080, 0x0000],
            [PI, 0x4541, 0x6145, 0x8000],
            [PI, 0x4541, 0x6144, 0x0019],
        ],
    ]
    .concat()
}

/// Noise, groups, a damaged stretch that loses the lock, a bit slip that loses it again, and single bad blocks.
fn roof() -> Vec<u8> {
    let mut noise = Noise { state: 20_261_115 };
    let name = name_0a(b"RADIO-UM", [0xE202, 0x03CD, 0xE0CD, 0xE0CD]);
    let steady = bits(&[name.clone(), text_2a(b"On the roof, in the wind", 0), name].concat());
    let mut all = noise.bits(333);
    all.extend(&steady);
    all.extend(noise.bits(70 * BLOCK_BITS + 11));
    all.extend(&steady);
    all.remove(all.len() - 700);
    all.extend(steady.repeat(2));
    let tail = bits(&odd_groups());
    for (index, block) in tail.chunks(BLOCK_BITS).enumerate() {
        all.extend(if HIT.contains(&index) { spoiled(index % 4, block, index) } else { block.to_vec() });
    }
    bytes(all)
}

/// The AF list that holds the most, 25 of 25, then a code that is held and one too many.
fn full_af() -> Vec<[u16; 4]> {
    let listed = (0..25).map(|place| 204 - 8 * place).collect();
    let codes: Vec<u8> = [vec![249], listed, vec![204, 1], vec![205; 4]].concat();
    codes.chunks(8).flat_map(|eight| name_0a(b"RADIO-UM", [0, 2, 4, 6].map(|at| pair(eight, at)))).collect()
}

/// Three stretches of groups with bits 0, which never lock, between. The second begins at an odd bit, and byte 65,536
/// comes in the midst of its AF list, of a group and of a block; the third lies behind and has group 256.
fn long() -> Vec<u8> {
    let across = bits(&[full_af(), text_2a(ESCAPED, 1)].concat());
    let last = [name_0b(b"caf\x82 \\\x00\xFF"), text_2b(b"over 64 KiB ", 1), vec![clock_4a(61_360, 7, 8, true, 3)]];
    let behind = bits(&last.concat());
    let mut all = bits(&clean_groups().repeat(7));
    all.resize(8 * 65_536 - 601, false);
    all.extend(across);
    all.resize(8 * 70_000 - 3 - behind.len(), false);
    all.extend(behind);
    bytes(all)
}

/// Groups of any words, with noise, slips and bad blocks between.
fn drawn(seed: u64) -> Vec<u8> {
    let mut noise = Noise { state: seed };
    let mut all = Vec::new();
    while all.len() < 40_000 {
        for _ in 0..noise.draw(60) {
            let kind = [0, 0, 1, 4, 4, 5, 8, noise.draw(32) as u16][noise.draw(8) as usize];
            let five = noise.draw(32) as u16;
            let word = |noise: &mut Noise| noise.draw(65_536) as u16;
            let third = if noise.draw(2) == 0 { 0xE000 + word(&mut noise) % 0x1FFF } else { word(&mut noise) };
            let group = write_bits([PI + (noise.draw(30) / 29) as u16, kind * 2048 + five, third, word(&mut noise)]);
            let place = noise.draw(40) as usize;
            let way = noise.draw(4) as usize;
            for (at, block) in group.chunks(BLOCK_BITS).enumerate() {
                all.extend(if at == place { spoiled(at, block, way) } else { block.to_vec() });
            }
        }
        match noise.draw(3) {
            0 => all.extend(noise.bits(2_000)),
            1 => all.truncate(all.len().saturating_sub(1)),
            _ => all.push(true),
        }
    }
    bytes(all)
}

/// A run with some arguments: a first `-s` asks for the summary alone, and any other names the file of the recording.
fn run(name: &'static str, arguments: &[&'static str], recording: Vec<u8>) -> Stored {
    let short = arguments.first() == Some(&"-s");
    let named = arguments.get(usize::from(short));
    let output = second::listen::text(&recording, short);
    println!("{name}: {} bytes, {} lines", recording.len(), output.lines().count());
    let (input, files) = match named {
        Some(file) => (None, vec![(*file, recording)]),
        None => (Some(recording), Vec::new()),
    };
    Stored { name, arguments: arguments.to_vec(), input, files, output: output.into_bytes() }
}

fn runs() -> Vec<Stored> {
    vec![
        run("listen", &[], clean(&clean_groups())),
        run("listen_roof", &["-x"], roof()),
        run("listen_empty", &[], Vec::new()),
        run("listen_summary", &["-s"], roof()),
        run("listen_long", &[], long()),
    ]
}

fn main() {
    let arguments: Vec<String> = std::env::args().skip(1).collect();
    match &arguments[..] {
        [crates] => runs().iter().for_each(|run| run.write(Path::new(crates)).expect("run")),
        [file, seed] => std::fs::write(file, drawn(seed.parse().expect("a number"))).expect("file"),
        _ => panic!("usage: recordings CRATESFOLDER, or recordings FILE SEED"),
    }
}
