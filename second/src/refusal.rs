//! The refusals by their numbers; document 01's table says when each is given,
//! and order 3 of document 02 when 16 is.

pub const LOG_TOO_LONG: u8 = 1;
pub const HEAP_TOO_SHORT: u8 = 2;
pub const TOO_MANY_FIELDS: u8 = 3;
pub const CUT_SHORT: u8 = 4;
pub const BAD_TAG: u8 = 5;
pub const BAD_LENGTH: u8 = 6;
pub const BAD_THREAD: u8 = 7;
pub const BAD_VARIABLE: u8 = 8;
pub const BAD_SELECTOR: u8 = 9;
pub const BAD_CELL: u8 = 10;
pub const TOO_MANY_MALLOCS: u8 = 11;
pub const UNSET_POINTER: u8 = 12;
pub const CELL_IS_LIVE: u8 = 13;
pub const ASSERTION_FAILS: u8 = 14;
pub const OUTPUT_TOO_SHORT: u8 = 15;
pub const FIELD_NOT_READ: u8 = 16;
