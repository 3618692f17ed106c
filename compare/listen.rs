//! The program `listen`, by the second implementation: a recording on standard input, its lines out; with `-s` the
//! summary alone.

#[allow(dead_code)]
mod second;

use std::io::Read;

fn main() {
    let mut recording = Vec::new();
    std::io::stdin().read_to_end(&mut recording).expect("standard input");
    let short = std::env::args().nth(1).is_some_and(|argument| argument == "-s");
    print!("{}", second::listen::text(&recording, short));
}
