//! All cases for the marker, group by group.

pub mod answers;
pub mod build;
pub mod contents;
pub mod damage;
pub mod headers;
pub mod key_fields;
pub mod lengths;
pub mod mixtures;
pub mod nonsense;
pub mod order;
pub mod slips;

use build::Case;

pub fn all() -> Vec<Case> {
    let groups = [
        // Each answer from 0 to 7.
        answers::each_answer(),
        // Each address missing, and the lowest of several missing.
        answers::missing_addresses(),
        // Two things wrong at once: the order of the answers.
        order::sheet_key_and_length(),
        order::blocks_first(),
        order::group_by_group(),
        order::addresses_last(),
        // Slips seen in class: kinds at wrong places, C and C' alike, an absent key, zero groups.
        slips::any_kind_at_any_place(),
        slips::third_kind_by_version(),
        slips::absent_key_or_zero_groups(),
        // Lengths of submissions and of sheets, and exercises from 0 to past the end.
        lengths::small_submissions(),
        lengths::small_sheets(),
        lengths::great_submissions(),
        lengths::great_sheets(),
        // Each field of a key at its edge.
        key_fields::pty_and_flags(),
        key_fields::name_and_text(),
        key_fields::rest_and_other_records(),
        // Headers: PI, TP, PTY, the third word of version 1, in every type of group.
        headers::each_header_field(),
        headers::third_words(),
        headers::other_types(),
        // Contents: name pairs, text, text flags, 2B, 2A unwanted, and what is not marked.
        contents::names(),
        contents::texts(),
        contents::flags(),
        contents::text_groups_refused(),
        contents::not_marked(),
        contents::any_order(),
        // One block damaged.
        damage::one_bit(),
        damage::two_bits(),
        damage::bursts(),
        // Bytes without meaning, from the first or after good groups.
        nonsense::submissions(),
        nonsense::sheets(),
        // What the encoder writes, for several keys.
        mixtures::encoded(),
        // Groups of all types drawn for a key, with a few of them made wrong.
        mixtures::drawn(),
    ];
    groups.into_iter().flatten().collect()
}
