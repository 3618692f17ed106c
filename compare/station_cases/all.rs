//! All streams of groups for the record, part by part.

pub mod build;
pub mod clocks;
pub mod drawn;
pub mod frequencies;
pub mod lines;
pub mod stations;
pub mod texts;

use build::Stream;

pub fn all() -> Vec<Stream> {
    let parts = [
        // No group, one station, another station and back, bad blocks, types that hold nothing.
        stations::none_and_one(),
        stations::other_pi_and_back(),
        stations::bad_blocks(),
        stations::third_words(),
        stations::other_types(),
        // AF lists: the examples of both methods, fillers, doubles, counts.
        frequencies::examples(),
        frequencies::counts(),
        frequencies::no_change(),
        // Text by 2A and 2B, and changes of the text flag.
        texts::whole(),
        texts::flags(),
        texts::flag_changes(),
        // Clocks in range and out of it, and their local dates.
        clocks::held(),
        clocks::refused(),
        clocks::dates(),
        // Groups drawn from few stations.
        drawn::mixtures(),
    ];
    parts.into_iter().flatten().collect()
}
