//! The encoder, the marker and the program.

use crate::second::encoder::encode;
use crate::second::marker::{mark, Mark};
use crate::second::program::line;
use crate::Tally;

pub fn run(tally: &mut Tally) {
    encoded_keys(tally);
    refusals(tally);
    lengths(tally);
    lines(tally);
}

fn sheet(pi: [u8; 2], pty: u8, flags: u8, name: &[u8; 8], text: &[u8; 64]) -> Vec<u8> {
    [&pi[..], &[pty, flags], name, text, &[0; 4]].concat()
}

fn plain_sheet() -> Vec<u8> {
    sheet([0x10, 0x01], 0, 0, b"ABCDEFGH", &[0; 64])
}

fn text_sheet() -> Vec<u8> {
    sheet([0x10, 0x01], 0, 2, b"ABCDEFGH", &[b'x'; 64])
}

fn encoded(sheet: &[u8]) -> Vec<u8> {
    let mut buffer = [0; 260];
    let length = encode(sheet, 0, &mut buffer).unwrap();
    buffer[..length].to_vec()
}

fn hex(bytes: &[u8]) -> String {
    bytes.iter().map(|byte| format!("{byte:02X}")).collect()
}

fn encoded_keys(tally: &mut Tally) {
    let expected = [
        "1001938000198E0CD7A50508CA",
        "1001938000421E0CD7A50D115D",
        "1001938000AEAE0CD7A51518E7",
        "1001938000F53E0CD7A51D2273",
    ];
    tally.equal("ABCDEFGH encoded", hex(&encoded(&plain_sheet())), expected.concat());
    let expected = [
        "D3C2CA0150203E0CD7A549046E",
        "D3C2CA01507BAE0CD7A51126AE",
        "D3C2CA0150971E0CD7A53CB53E",
        "D3C2CA0150CC8E0CD7A5553624",
    ];
    let radio = sheet([0xD3, 0xC2], 10, 1, b"RADIO-UM", &[0; 64]);
    tally.equal("RADIO-UM encoded", hex(&encoded(&radio)), expected.concat());
    tally.equal("with text 260 bytes", encoded(&text_sheet()).len(), 260);
}

fn refusals(tally: &mut Tally) {
    let mut buffer = [7; 53];
    tally.equal("buffer one too short", encode(&plain_sheet(), 0, &mut buffer[..51]), Err(8));
    tally.equal("no such exercise", encode(&plain_sheet(), 1, &mut buffer), Err(1));
    tally.equal("the greatest exercise", encode(&plain_sheet(), usize::MAX, &mut buffer), Err(1));
    tally.equal("key not good", encode(&[0; 80], 0, &mut buffer), Err(2));
    tally.equal("refusals leave the buffer", buffer, [7; 53]);
    tally.equal("buffer just long enough", encode(&plain_sheet(), 0, &mut buffer[..52]), Ok(52));
    tally.equal("bytes beyond stay", buffer[52], 7);
}

fn lengths(tally: &mut Tally) {
    let passed = Mark { answer: 0, place: 0 };
    let refused = Mark { answer: 3, place: 0 };
    let groups: Vec<u8> = encoded(&text_sheet()).into_iter().cycle().take(13_325).collect();
    for (length, expected) in [
        (0, refused),
        (12, refused),
        (13, Mark { answer: 7, place: 1 }),
        (260, passed),
        (13_312, passed),
        (13_325, refused),
    ] {
        tally.equal("submission length", mark(&text_sheet(), 0, &groups[..length]), expected);
    }
    let sheets = text_sheet().repeat(257);
    for (length, expected) in [(0, 1), (79, 1), (80, 0), (20_480, 0), (20_560, 1)] {
        let found = mark(&sheets[..length], 0, &groups[..260]);
        tally.equal("sheet length", found, Mark { answer: expected, place: 0 });
    }
}

fn lines(tally: &mut Tally) {
    tally.equal("no file, no input", line(None, &[]), "exercise 0 answer 1 place 0\n".to_string());
    tally.equal("no input", line(Some(&plain_sheet()), &[]), "exercise 0 answer 3 place 0\n".to_string());
    let input = [vec![0], encoded(&plain_sheet())].concat();
    tally.equal("passed", line(Some(&plain_sheet()), &input), "exercise 0 answer 0 place 0\n".to_string());
    let input = [vec![255], encoded(&plain_sheet())].concat();
    tally.equal("exercise 255", line(Some(&plain_sheet()), &input), "exercise 255 answer 1 place 0\n".to_string());
}
