//! The refusals of documents 01 and 02, by their numbers.

pub const LENGTH: u8 = 1;
pub const NOT_A_BIT: u8 = 2;
pub const OUTPUT_SHORT: u8 = 3;
pub const NO_WORD: u8 = 4;
pub const RESERVED: u8 = 5;
pub const FULL: u8 = 6;
pub const EMPTY: u8 = 7;
pub const INCOMPLETE: u8 = 8;
pub const BAD_LINE: u8 = 9;
pub const OUT_OF_STEP: u8 = 10;
pub const MISMATCH: u8 = 11;
pub const RETIRED: u8 = 12;
