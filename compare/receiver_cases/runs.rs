//! Runs of 50 blocks: 45 bad ones keep the lock, 46 lose it.

use super::build::{good_blocks, joined, open_stream, run_end, spoiled, stream, Noise, Phase, Stream};
use super::build::{FIRST_LOCK, PHASES};

const RUN: usize = 50;
const PAIR: usize = 2;

/// Where the good blocks of a run stand: first, last, or here and there.
type Order = fn(usize) -> usize;
const ORDERS: [Order; 3] = [|turn| turn, |turn| RUN - 1 - turn, |turn| turn * 7 % RUN];

/// The good blocks of a run that follows a good block or a bad one. A third block is good only after a good second.
fn good_of_run(places: &[usize], after_good: bool, count: usize, order: Order) -> [bool; RUN] {
    let mut good = [false; RUN];
    for index in (0..RUN).map(order) {
        let before = if index == 0 { after_good } else { good[index - 1] };
        let chosen = good.iter().filter(|&&chosen| chosen).count();
        good[index] = chosen < count && (places[index] != 2 || before);
    }
    assert_eq!(good.iter().filter(|&&chosen| chosen).count(), count);
    good
}

/// A pair, runs with so many bad blocks each, and eight good groups. The third after a bad second is left as it is, or
/// spoiled, by turns.
fn runs(phase: Phase, bad: &[usize], orders: &[Order]) -> Vec<bool> {
    let mut blocks = good_blocks(phase, PAIR + RUN * bad.len() + 32);
    let places: Vec<usize> = blocks.iter().map(|(place, _)| *place).collect();
    for run in 0..bad.len() {
        let begin = PAIR + RUN * run;
        let good = good_of_run(&places[begin..begin + RUN], run == 0, RUN - bad[run], orders[run]);
        for index in begin..begin + RUN {
            let left = places[index] == 2 && index % 8 < 4 && index > begin && !good[index - begin - 1];
            if !good[index - begin] && !left {
                blocks[index].1 = spoiled(places[index], &blocks[index].1, index);
            }
        }
    }
    joined(&blocks)
}

/// The 50th block is a fourth after A,B only.
fn loss(phase: Phase, run: usize) -> &'static str {
    match (phase.older_place + 1 + RUN * run) % 4 {
        3 => "group and lost",
        _ => "lost",
    }
}

/// The lock, the loss at the end of a run, and the new lock on the next two blocks: hunting begins with no bits.
fn lost_after(phase: Phase, run: usize) -> Vec<(usize, &'static str)> {
    let end = run_end(run);
    vec![(FIRST_LOCK, "locked"), (end, loss(phase, run)), (end + 52, "locked")]
}

/// After each lock, with the good blocks in each order: 45 bad of the first 50, and 46.
pub fn one_run() -> Vec<Stream> {
    let mut streams = Vec::new();
    for phase in PHASES {
        for order in ORDERS {
            streams.push(stream(runs(phase, &[45], &[order]), &[(FIRST_LOCK, "locked")]));
            streams.push(stream(runs(phase, &[46], &[order]), &lost_after(phase, 1)));
        }
    }
    streams
}

/// A run of 45 bad, and then another of 45 (90 bad ones in a row, where the good stand outside) or of 46.
pub fn two_runs() -> Vec<Stream> {
    let mut streams = Vec::new();
    for phase in PHASES {
        let [first, last, spread] = ORDERS;
        streams.push(stream(runs(phase, &[45, 45], &[first, last]), &[(FIRST_LOCK, "locked")]));
        streams.push(stream(runs(phase, &[45, 45, 46], &[last, first, spread]), &lost_after(phase, 3)));
        streams.push(stream(runs(phase, &[45, 46], &[spread, last]), &lost_after(phase, 2)));
    }
    streams
}

/// Only bad blocks after each lock; and after the loss more of them, and good groups behind.
pub fn all_bad() -> Vec<Stream> {
    let mut streams = Vec::new();
    for phase in PHASES {
        let bits = runs(phase, &[50], &[ORDERS[0]]);
        streams.push(stream(bits.clone(), &lost_after(phase, 1)));
        let end = run_end(1) + 1;
        let zeros = vec![false; 1_000];
        streams.push(open_stream([&bits[..end], &zeros, &bits[end..]].concat()));
    }
    streams
}

/// 400 blocks, nine of ten of them spoiled by a fixed generator.
pub fn drawn() -> Vec<Stream> {
    let mut noise = Noise { state: 11 };
    let mut drawn_stream = |phase: Phase| {
        let mut blocks = good_blocks(phase, 402);
        for (place, block) in &mut blocks[PAIR..] {
            if noise.draw(10) > 0 {
                *block = spoiled(*place, block, noise.draw(4) as usize);
            }
        }
        open_stream(joined(&blocks))
    };
    PHASES.into_iter().map(&mut drawn_stream).collect()
}
