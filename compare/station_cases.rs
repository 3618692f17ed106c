//! Writes streams of groups and the station records expected of them: `station_cases INPUTFILE OUTPUTFILE`.
//!
//! A stream in the input file: the number of its groups (2 bytes, high first), then 9 bytes for each: four words,
//! high byte first, and a byte whose low four bits say which words were good, bit 3 for word 1. In the output file: the
//! lines of its record, the first `stream N pi ..`, N from 0.

#[allow(dead_code)]
mod draws;
#[allow(dead_code)]
mod second;
#[path = "station_cases/all.rs"]
mod station_cases;

use second::station::record_of;
use station_cases::build::{group_bytes, Stream};
use station_cases::lines;

fn stream_bytes(stream: &Stream) -> Vec<u8> {
    let count = (stream.groups.len() as u16).to_be_bytes();
    count.into_iter().chain(stream.groups.iter().flat_map(group_bytes)).collect()
}

/// Stops where a line that the stream was made for is not among its lines.
fn hold_to_meaning(number: usize, stream: &Stream, written: &str) {
    for meant in &stream.meant {
        assert!(written.lines().any(|line| line.ends_with(meant)), "stream {number}: no '{meant}' in\n{written}");
    }
}

fn main() {
    let files: Vec<String> = std::env::args().skip(1).collect();
    let [input_file, output_file] = &files[..] else { panic!("usage: station_cases INPUTFILE OUTPUTFILE") };
    let mut input = Vec::new();
    let mut output = String::new();
    let streams = station_cases::all();
    for (number, stream) in streams.iter().enumerate() {
        let written = lines::record_lines(number, &record_of(&stream.groups));
        hold_to_meaning(number, stream, &written);
        input.extend(stream_bytes(stream));
        output += &written;
    }
    std::fs::write(input_file, &input).expect("input file");
    std::fs::write(output_file, &output).expect("output file");
    println!("{} streams in {} bytes, {} bytes of lines", streams.len(), input.len(), output.len());
}
