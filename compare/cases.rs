//! Writes the cases for the marker and the lines expected for them: `cases INPUTFILE OUTPUTFILE`.
//!
//! A case in the input file: sheet length (2 bytes, high first), exercise (1 byte), submission length (2 bytes, high
//! first), the sheet, the submission. Its line in the output file: `case N exercise E answer A place P`, N from 0.

#[path = "cases/all.rs"]
mod cases;
#[allow(dead_code)]
mod draws;
#[allow(dead_code)]
mod second;

use cases::build::Case;
use second::marker::{mark, Mark};

fn case_bytes(case: &Case) -> Vec<u8> {
    let length = |bytes: &[u8]| (bytes.len() as u16).to_be_bytes();
    [&length(&case.sheet)[..], &[case.exercise], &length(&case.submission), &case.sheet, &case.submission].concat()
}

/// Stops where the mark is not the one that the case was made for.
fn hold_to_meaning(number: usize, case: &Case, found: Mark) {
    if let Some((answer, place)) = case.meant {
        assert_eq!(found, Mark { answer, place }, "case {number} is not what it was meant to be");
    }
}

fn main() {
    let files: Vec<String> = std::env::args().skip(1).collect();
    let [input_file, output_file] = &files[..] else { panic!("usage: cases INPUTFILE OUTPUTFILE") };
    let mut input = Vec::new();
    let mut output = String::new();
    let mut counts = [0; 8];
    for (number, case) in cases::all().iter().enumerate() {
        let found = mark(&case.sheet, usize::from(case.exercise), &case.submission);
        hold_to_meaning(number, case, found);
        counts[usize::from(found.answer)] += 1;
        input.extend(case_bytes(case));
        let Mark { answer, place } = found;
        output += &format!("case {number} exercise {} answer {answer} place {place}\n", case.exercise);
    }
    std::fs::write(input_file, &input).expect("input file");
    std::fs::write(output_file, &output).expect("output file");
    println!("{} cases in {} bytes; by answer from 0: {counts:?}", counts.iter().sum::<usize>(), input.len());
}
