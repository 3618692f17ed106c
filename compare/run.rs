//! Holds the proved library (`crates/capi`) to the second implementation on many inputs, kind by kind. Prints what came
//! of each kind, and ends in `N passed, M failed`; a kind without cases is a failure.

#[allow(dead_code)]
#[path = "cases/all.rs"]
mod cases;
mod codes;
#[path = "kinds/all.rs"]
mod kinds;
#[allow(dead_code)]
mod library;
#[allow(dead_code)]
#[path = "receiver_cases/all.rs"]
mod receiver_cases;
#[allow(dead_code)]
mod draws;
#[allow(dead_code)]
mod second;
#[allow(dead_code)]
#[path = "station_cases/all.rs"]
mod station_cases;

fn main() {
    let kinds = kinds::all();
    let mut passed = 0;
    let mut failed = 0;
    for kind in &kinds {
        kind.print();
        passed += kind.passed;
        failed += kind.failures();
    }
    println!("{passed} passed, {failed} failed");
    if failed > 0 {
        std::process::exit(1);
    }
}
