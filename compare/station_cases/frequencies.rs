//! AF lists: the examples of methods A and B, fillers, doubles, counts, codes that change nothing.

use super::build::{name_0a, name_0b, stream, Stream};
use crate::second::groups::Group;

/// A stream of 0A groups with these pairs of codes.
fn codes(meant: &'static str, pairs: &[[u8; 2]]) -> Stream {
    stream(&[meant], &groups(pairs))
}

fn groups(pairs: &[[u8; 2]]) -> Vec<Group> {
    pairs.iter().enumerate().map(|(place, &pair)| name_0a(place as u8 % 4, pair, b"AF")).collect()
}

pub fn examples() -> Vec<Stream> {
    let method_b = [[235, 18], [18, 142], [14, 18], [18, 150], [120, 18], [18, 16]];
    vec![
        codes("af held 5 of 5 87600 87700 87800 87900 88000", &[[229, 1], [2, 3], [4, 5]]),
        codes("af held 4 of 4 87600 87700 87800 87900", &[[228, 1], [2, 3], [4, 205]]),
        codes("af held 4 of 4 87600 87700 87800 87900", &[[228, 1], [2, 3], [250, 4]]),
        codes("af held 6 of 11 89300 101700 88900 102500 99500 89100", &method_b),
        codes(
            "af held 5 of 9 99500 89300 100900 104700 89100",
            &[[233, 120], [18, 120], [134, 120], [120, 172], [120, 16]],
        ),
    ]
}

pub fn counts() -> Vec<Stream> {
    let pairs_from = |first: u8| (0..13).map(move |pair| [first + 2 * pair, first + 2 * pair + 1]);
    let full: Vec<[u8; 2]> = [[249, 100]].into_iter().chain(pairs_from(1)).collect();
    let doubled: Vec<[u8; 2]> = [[249, 1]].into_iter().chain(pairs_from(1)).chain(pairs_from(1)).collect();
    vec![
        codes("af held 0 of 0", &[[1, 2], [3, 4]]),
        codes("af held 1 of 1 87600", &[[225, 1], [2, 3]]),
        codes("af held 2 of 2 87600 87700", &[[226, 1], [2, 3], [4, 5]]),
        codes("89800 89900", &full),
        codes("89900 90000", &doubled),
        codes("af held 0 of 25", &[[249, 249]]),
        codes("af held 1 of 3 88200", &[[227, 7], [7, 7], [7, 7]]),
        codes("af held 2 of 2 87600 87700", &[[226, 1], [1, 2], [2, 3]]),
        codes("af held 0 of 0", &[[227, 1], [224, 2]]),
        codes("af held 0 of 0", &[[227, 1], [2, 224]]),
        codes("af held 0 of 0", &[[224, 205]]),
        codes("af held 1 of 2 87700", &[[224, 1], [226, 2]]),
        codes("af held 1 of 3 87700", &[[227, 1], [227, 2]]),
        codes("af held 2 of 2 88400 88500", &[[227, 1], [2, 226], [9, 10]]),
        codes("af held 2 of 3 87600 87700", &[[228, 9], [227, 1], [2, 205]]),
        codes("af held 0 of 25", &[[225, 249]]),
    ]
}

pub fn no_change() -> Vec<Stream> {
    let between = |code: u8| codes("af held 2 of 3 87600 87700", &[[227, 1], [code, code], [code, 2]]);
    let others = [0, 205, 206, 223, 250, 251, 255];
    let in_0b = stream(&["af held 1 of 3 87600"], &[name_0a(0, [227, 1], b"AB"), name_0b(1, 0x0203, b"CD")]);
    let edges = codes("af held 4 of 5 87600 107900 107800 87700", &[[229, 1], [204, 205], [203, 0], [2, 223]]);
    others.map(between).into_iter().chain([in_0b, edges]).collect()
}
