//! The answers.

pub const DONE: u32 = 0;
pub const UNKNOWN: u32 = 1;
pub const BAD_STATE: u32 = 2;
pub const UNDEFINED: u32 = 3;
pub const TRAPPED: u32 = 4;
pub const NO_EFFECT: u32 = 5;
pub const NO_GRANULE: u32 = 6;
pub const UNPREDICTABLE: u32 = 7;
pub const BREAKS_RULE: u32 = 8;
pub const FULL: u32 = 9;
pub const STEP_REFUSED: u32 = 10;
pub const STEP_OUTSIDE: u32 = 11;
pub const GAP: u32 = 12;
pub const BAD_SHAPE: u32 = 13;
pub const NOT_FOUND: u32 = 14;
