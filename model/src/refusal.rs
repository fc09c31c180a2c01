//! The refusal numbers of document 01, by name.

pub const DONE: usize = 0;
pub const FILE_ENDS: usize = 1;
pub const NOT_A_NUMBER: usize = 2;
pub const CABINETS_OUT_OF_RANGE: usize = 3;
pub const UNKNOWNS_OUT_OF_RANGE: usize = 4;
pub const RECORDS_OUT_OF_RANGE: usize = 5;
pub const TOO_MANY_PARTS: usize = 6;
pub const PART_NOT_AN_UNKNOWN: usize = 7;
pub const STATEMENTS_OUT_OF_RANGE: usize = 8;
pub const NO_SUCH_CABINET: usize = 9;
pub const NO_SUCH_ENTRY: usize = 10;
pub const BYTES_LEFT: usize = 11;
pub const WRONG_LENGTH: usize = 12;
pub const NO_SUCH_PLACE: usize = 13;
pub const WAITS: usize = 14;
pub const CLASHED: usize = 15;
pub const ITEMS_PENDING: usize = 16;
pub const NOT_SOUND: usize = 17;
pub const LIST_FULL: usize = 18;
pub const NOT_AS_LOADED: usize = 19;
