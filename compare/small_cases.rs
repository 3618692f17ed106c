//! Writes cases of blocks, groups, clocks, dates and AF and the lines expected for them:
//! `small_cases INPUTFILE OUTPUTFILE`.
//!
//! A case in the input file is 17 bytes: its kind, and what is asked, numbers with the high byte first, zeros behind
//! them. Its line in the output file: `case N`, N from 0, and the answers in hex.

#[allow(dead_code)]
#[path = "cases/all.rs"]
mod cases;
mod codes;
#[allow(dead_code)]
mod draws;
#[allow(dead_code)]
mod second;
#[path = "small_cases/all.rs"]
mod small_cases;

const CASE_BYTES: usize = 17;

fn main() {
    let files: Vec<String> = std::env::args().skip(1).collect();
    let [input_file, output_file] = &files[..] else { panic!("usage: small_cases INPUTFILE OUTPUTFILE") };
    let mut input = Vec::new();
    let mut output = String::new();
    let cases = small_cases::all();
    for (number, case) in cases.iter().enumerate() {
        let mut bytes = case.bytes.clone();
        bytes.resize(CASE_BYTES, 0);
        input.extend(bytes);
        let answers: String = case.answers.iter().map(|answer| format!(" {answer:x}")).collect();
        output += &format!("case {number}{answers}\n");
    }
    std::fs::write(input_file, &input).expect("input file");
    std::fs::write(output_file, &output).expect("output file");
    println!("{} cases in {} bytes", cases.len(), input.len());
}
