//! The numbers of the answers.

pub const PASSED: u8 = 0;
pub const NO_KEY: u8 = 1;
pub const KEY_NOT_GOOD: u8 = 2;
pub const SUBMISSION_LENGTH: u8 = 3;
pub const BLOCK_NOT_VALID: u8 = 4;
pub const HEADER_WRONG: u8 = 5;
pub const CONTENT_WRONG: u8 = 6;
pub const ADDRESS_MISSING: u8 = 7;
pub const BUFFER_TOO_SHORT: u8 = 8;
pub const NOT_A_BIT: u8 = 9;
pub const CLOCK_OR_DATE: u8 = 10;
pub const NO_FREQUENCY: u8 = 11;
pub const OVER_26_BITS: u8 = 12;
