//! The marking program, by the second implementation: the file `key` and standard input in, one line out.

#[allow(dead_code)]
mod second;

use std::io::Read;

fn main() {
    let key_file = std::fs::read("key").ok();
    let mut input = Vec::new();
    std::io::stdin().read_to_end(&mut input).expect("standard input");
    print!("{}", second::program::line(key_file.as_deref(), &input));
}
