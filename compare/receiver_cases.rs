//! Writes streams for the receiver and the lines expected for them: `receiver_cases INPUTFILE OUTPUTFILE`.
//!
//! A stream in the input file: its length in bytes (3 bytes, high first), then the bytes, first bit highest. Its lines
//! in the output file: one for each answer other than nothing, `stream N bit B` with `locked`, `lost`,
//! `group W1 W2 W3 W4 good M`, or `group W1 W2 W3 W4 good M lost`; and at the end `stream N end`. N and B count from 0.

#[path = "receiver_cases/all.rs"]
mod receiver_cases;
#[allow(dead_code)]
mod second;

use receiver_cases::build::Stream;
use second::bits::bytes_of_bits;
use second::groups::Group;
use second::receiver::{answers, Answer};

fn stream_bytes(bits: &[bool]) -> Vec<u8> {
    let bytes = bytes_of_bits(bits);
    [&(bytes.len() as u32).to_be_bytes()[1..], &bytes[..]].concat()
}

fn group_text(group: &Group) -> String {
    let [one, two, three, four] = group.words;
    let good: String = group.good.iter().map(|&good| if good { '1' } else { '0' }).collect();
    format!(" group {one:04x} {two:04x} {three:04x} {four:04x} good {good}")
}

/// The words of an answer; none for nothing.
fn answer_text(answer: &Answer) -> Option<String> {
    match answer {
        Answer::Nothing => None,
        Answer::Locked => Some(" locked".to_string()),
        Answer::Group(group) => Some(group_text(group)),
        Answer::Lost => Some(" lost".to_string()),
        Answer::GroupAndLost(group) => Some(group_text(group) + " lost"),
        Answer::Refused(_) => panic!("a stream has only bits"),
    }
}

/// Stops where the locks and losses are not those that the stream was made for.
fn hold_to_meaning(number: usize, stream: &Stream, answered: &[Answer]) {
    let Some(meant) = &stream.meant else { return };
    let mut found = Vec::new();
    for (bit, answer) in answered.iter().enumerate() {
        match answer {
            Answer::Locked => found.push((bit, "locked")),
            Answer::Lost => found.push((bit, "lost")),
            Answer::GroupAndLost(_) => found.push((bit, "group and lost")),
            _ => {}
        }
    }
    assert_eq!(&found, meant, "stream {number} is not what it was meant to be");
}

fn main() {
    let files: Vec<String> = std::env::args().skip(1).collect();
    let [input_file, output_file] = &files[..] else { panic!("usage: receiver_cases INPUTFILE OUTPUTFILE") };
    let mut input = Vec::new();
    let mut output = String::new();
    let streams = receiver_cases::all();
    for (number, stream) in streams.iter().enumerate() {
        let answered = answers(&stream.bits);
        hold_to_meaning(number, stream, &answered);
        for (bit, answer) in answered.iter().enumerate() {
            if let Some(text) = answer_text(answer) {
                output += &format!("stream {number} bit {bit}{text}\n");
            }
        }
        output += &format!("stream {number} end\n");
        input.extend(stream_bytes(&stream.bits));
    }
    std::fs::write(input_file, &input).expect("input file");
    std::fs::write(output_file, &output).expect("output file");
    println!("{} streams in {} bytes, {} lines", streams.len(), input.len(), output.lines().count());
}
