//! The paper's refusal numbers.

pub const ACCEPTED: u8 = 0;

pub const GRID: u8 = 1;
pub const SETS: u8 = 2;
pub const MEASURE: u8 = 3;
pub const NO_TILE: u8 = 4;
pub const NOT_A_SOURCE: u8 = 5;
pub const NUMBER_ZERO: u8 = 6;
pub const OUTSIDE: u8 = 7;
pub const STOP_OF_HOPPER: u8 = 8;
pub const IMAGE_ENDS: u8 = 9;
pub const OTHER_KIND: u8 = 10;
pub const RECORD_SHAPE: u8 = 11;
pub const IMAGE_MALFORMED: u8 = 12;
pub const SHORT_BUFFER: u8 = 13;

pub const MALFORMED: u8 = 30;
pub const STOPPED: u8 = 31;
pub const RUNNING: u8 = 32;
pub const NUMBER_USED: u8 = 33;
pub const TOO_CLOSE: u8 = 34;

pub const NO_PLACE: u8 = 40;

pub const COUNT_TOO_HIGH: u8 = 41;

pub const LIST_TOO_LONG: u8 = 42;

pub const SHORT_PAGE: u8 = 43;

pub const BAD_NAME: u8 = 44;
pub const NAME_NOT_HELD: u8 = 45;
pub const LAYOUTS_FULL: u8 = 46;

pub const BAD_LABEL: u8 = 47;
pub const NOT_RELEASED: u8 = 48;

pub const NO_FLOOR: u8 = 49;
pub const OVERLOADED: u8 = 50;
