//! All kinds of input, and what came of each.

pub mod af;
pub mod blocks;
pub mod clocks;
pub mod dates;
pub mod encoders;
pub mod groups;
pub mod marks;
pub mod receivers;
pub mod records;
pub mod streams;

/// A kind of input: how many of its cases passed and failed.
pub struct Kind {
    pub name: &'static str,
    pub passed: usize,
    pub failed: usize,
}

/// So many failed cases of a kind are shown.
const SHOWN: usize = 3;

impl Kind {
    pub fn new(name: &'static str) -> Kind {
        Kind { name, passed: 0, failed: 0 }
    }

    /// One case: what the library answers and what the second implementation does; `input` names it.
    pub fn equal<T: PartialEq + std::fmt::Debug>(&mut self, input: impl Fn() -> String, library: T, second: T) {
        if library == second {
            self.passed += 1;
            return;
        }
        self.failed += 1;
        if self.failed <= SHOWN {
            println!("{}: {}: the library {library:x?}, the second {second:x?}", self.name, input());
        }
    }

    /// The failures, of which having no case is one.
    pub fn failures(&self) -> usize {
        self.failed + usize::from(self.passed + self.failed == 0)
    }

    pub fn print(&self) {
        println!("{}: {} passed, {} failed", self.name, self.passed, self.failures());
    }
}

/// Every kind, run.
pub fn all() -> Vec<Kind> {
    vec![
        blocks::written(),
        blocks::read(),
        blocks::judged(),
        blocks::over(),
        groups::put(),
        groups::read(),
        groups::switches(),
        clocks::read(),
        clocks::written(),
        dates::each_day(),
        dates::refused(),
        af::codes(),
        af::lists(),
        receivers::bits(),
        receivers::refused(),
        receivers::bytes(),
        records::of_cases(),
        records::drawn(),
        encoders::buffers(),
        encoders::sheets(),
        marks::of_cases(),
        marks::damaged(),
        marks::drawn(),
    ]
}
