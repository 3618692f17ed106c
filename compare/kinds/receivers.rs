//! The receiver: streams bit by bit, with refused bits between, and as bytes in pieces of drawn lengths.

use super::streams;
use super::Kind as Cases;
use crate::draws::Draws;
use crate::library::{self, STATE_BYTES, TOLD_BYTES};
use crate::second::answers::{BUFFER_TOO_SHORT, NOT_A_BIT};
use crate::second::bits::bytes_of_bits;
use crate::second::groups::Group;
use crate::second::receiver::{answers, Answer};

/// The bit of an answer, the answer's number, and the group beside it.
type Told = (usize, u8, [u8; 12]);

/// The mask and the words, as the library tells them.
fn group_bytes(group: Group) -> [u8; 12] {
    let mut bytes = [0; 12];
    for place in 0..4 {
        bytes[place] = u8::from(group.good[place]);
        bytes[4 + 2 * place..6 + 2 * place].copy_from_slice(&group.words[place].to_be_bytes());
    }
    bytes
}

/// The answers other than nothing.
fn told_second(bits: &[bool]) -> Vec<Told> {
    let told = |(bit, answer): (usize, Answer)| match answer {
        Answer::Nothing => None,
        Answer::Locked => Some((bit, 1, [0; 12])),
        Answer::Group(group) => Some((bit, 2, group_bytes(group))),
        Answer::Lost => Some((bit, 3, [0; 12])),
        Answer::GroupAndLost(group) => Some((bit, 4, group_bytes(group))),
        Answer::Refused(_) => panic!("a stream has only bits"),
    };
    answers(bits).into_iter().enumerate().filter_map(told).collect()
}

fn told_library(bit: usize, told: &[u8]) -> Option<Told> {
    (told[0] != 0).then(|| (bit, told[0], told[2..14].try_into().unwrap()))
}

fn fresh() -> [u8; STATE_BYTES] {
    let mut state = [0xAA; STATE_BYTES];
    library::fresh(&mut state);
    state
}

/// The first answer that differs, to name a stream by.
fn shown(found: &[Told], second: &[Told]) -> String {
    let place = found.iter().zip(second).position(|(one, other)| one != other);
    format!("first unlike: {:x?}", place.map(|place| (found[place], second[place])))
}

fn bit_by_bit(bits: &[bool]) -> Vec<Told> {
    let mut state = fresh();
    let mut told = [0; TOLD_BYTES];
    let mut all = Vec::new();
    for (place, &bit) in bits.iter().enumerate() {
        library::take_bit(&mut state, u8::from(bit), &mut told);
        all.extend(told_library(place, &told));
    }
    all
}

/// All streams, bit by bit.
pub fn bits() -> Cases {
    let mut cases = Cases::new("receiver, streams bit by bit");
    for (number, bits) in streams::all().iter().enumerate() {
        let (found, second) = (bit_by_bit(bits), told_second(bits));
        cases.equal(|| format!("stream {number}, {}", shown(&found, &second)), &found, &second);
    }
    cases
}

/// Whether a call is refused with a number and leaves both buffers as they are.
fn refuses(state: &mut [u8], bit: u8, told: &mut [u8]) -> (u8, bool) {
    let (state_before, told_before) = (state.to_vec(), told.to_vec());
    let answer = library::take_bit(state, bit, told);
    (answer, *state == state_before[..] && *told == told_before[..])
}

/// No bits between the bits of streams, and buffers that are too short.
pub fn refused() -> Cases {
    let mut cases = Cases::new("receiver, refused bits and short buffers");
    let mut draws = Draws::from(161);
    for bits in streams::all().iter().step_by(5) {
        let mut state = fresh();
        let mut told = [0; TOLD_BYTES];
        let mut found = Vec::new();
        for (place, &bit) in bits.iter().enumerate() {
            if draws.below(40) == 0 {
                let no_bit = 2 + draws.below(254) as u8;
                let answer = refuses(&mut state, no_bit, &mut told);
                cases.equal(|| format!("bit {no_bit}"), answer, (NOT_A_BIT, true));
            }
            library::take_bit(&mut state, u8::from(bit), &mut told);
            found.extend(told_library(place, &told));
        }
        let second = told_second(bits);
        cases.equal(|| shown(&found, &second), &found, &second);
    }
    for room in 0..STATE_BYTES {
        let answer = refuses(&mut fresh()[..room], 1, &mut [7; TOLD_BYTES]);
        cases.equal(|| format!("state of {room}"), answer, (BUFFER_TOO_SHORT, true));
    }
    for room in 0..TOLD_BYTES {
        let answer = refuses(&mut fresh(), 1, &mut [7; TOLD_BYTES][..room]);
        cases.equal(|| format!("told of {room}"), answer, (BUFFER_TOO_SHORT, true));
    }
    cases
}

/// A piece fed up to its end; `before` bits came before it.
fn feed_piece(state: &mut [u8], piece: &[u8], before: usize, all: &mut Vec<Told>) {
    let mut told = [0; TOLD_BYTES];
    let mut byte = 0;
    loop {
        byte = library::feed(state, piece, byte, told[1], &mut told);
        match told_library(before + 8 * byte + usize::from(told[1]) - 1, &told) {
            Some(answer) => all.push(answer),
            None => return,
        }
    }
}

fn in_pieces(draws: &mut Draws, bytes: &[u8]) -> Vec<Told> {
    let mut state = fresh();
    let mut all = Vec::new();
    let mut from = 0;
    while from < bytes.len() {
        let to = bytes.len().min(from + 1 + draws.below(400) as usize);
        feed_piece(&mut state, &bytes[from..to], 8 * from, &mut all);
        from = to;
    }
    all
}

/// All streams as bytes, whole and in pieces.
pub fn bytes() -> Cases {
    let mut cases = Cases::new("receiver, streams as bytes");
    let mut draws = Draws::from(162);
    for (number, stream) in streams::all().iter().enumerate() {
        let bits = &stream[..stream.len() / 8 * 8];
        let bytes = bytes_of_bits(bits);
        let second = told_second(bits);
        let found = in_pieces(&mut draws, &bytes);
        cases.equal(|| format!("stream {number} in pieces, {}", shown(&found, &second)), &found, &second);
        if !bytes.is_empty() {
            let mut whole = Vec::new();
            feed_piece(&mut fresh(), &bytes, 0, &mut whole);
            cases.equal(|| format!("stream {number}, {}", shown(&whole, &second)), &whole, &second);
        }
    }
    cases
}
