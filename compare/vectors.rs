//! Known values, edges and worked examples tried on the second implementation: prints `N passed, M failed`.

#[allow(dead_code)]
mod second;
mod vectors {
    pub mod blocks;
    pub mod groups;
    pub mod marking;
    pub mod receiver;
    pub mod station;
}

/// How many trials passed and failed; a failed one is named.
pub struct Tally {
    passed: usize,
    failed: usize,
}

impl Tally {
    pub fn that(&mut self, name: &str, holds: bool) {
        if holds {
            self.passed += 1;
        } else {
            self.failed += 1;
            println!("failed: {name}");
        }
    }

    pub fn equal<T: PartialEq + std::fmt::Debug>(&mut self, name: &str, found: T, expected: T) {
        let holds = found == expected;
        if !holds {
            println!("found {found:?}, expected {expected:?}");
        }
        self.that(name, holds);
    }
}

fn main() {
    let mut tally = Tally { passed: 0, failed: 0 };
    vectors::blocks::run(&mut tally);
    vectors::groups::run(&mut tally);
    vectors::receiver::run(&mut tally);
    vectors::station::run(&mut tally);
    vectors::marking::run(&mut tally);
    println!("{} passed, {} failed", tally.passed, tally.failed);
    if tally.failed > 0 {
        std::process::exit(1);
    }
}
