//! All streams for the receiver, one set after the other.

pub mod build;
pub mod hunts;
pub mod locks;
pub mod runs;
pub mod slips;

use build::Stream;

pub fn all() -> Vec<Stream> {
    let sets = [
        // No bits, too few, each pair of kinds, and clean groups from each block on.
        locks::short(),
        locks::pairs(),
        locks::clean(),
        locks::late(),
        // 45 and 46 bad of 50 after each lock, alone and run after run; all bad; drawn at random.
        runs::one_run(),
        runs::two_runs(),
        runs::all_bad(),
        runs::drawn(),
        // Bad seconds, slips of bits, and data that locks falsely.
        slips::bad_seconds(),
        slips::slips(),
        slips::false_locks(),
        // A hunt of 100,000 bits.
        hunts::long_hunt(),
    ];
    sets.into_iter().flatten().collect()
}
