//! The numbers and the structs of the C interface, as its header has them.

/// Stands where there is no line, cell or byte place.
pub const NONE: usize = usize::MAX;

pub const DONE: u8 = 0;
pub const SHORT: u8 = 1;
pub const COUNT: u8 = 2;
pub const SYMBOL: u8 = 3;
pub const TWICE: u8 = 4;
pub const ORDER: u8 = 5;
pub const EXCESS: u8 = 6;
pub const SCORE: u8 = 7;
pub const NO_LINE: u8 = 8;
pub const GRANT: u8 = 9;
pub const PLACE: u8 = 10;
pub const POSITION: u8 = 11;
pub const TABLE: u8 = 12;
pub const LINE_NUMBER: u8 = 13;
pub const MEMORY: u8 = 100;
pub const UNKNOWN: u8 = 101;

/// Grammars.
pub const DATES: u32 = 1;
pub const POSITIONS: u32 = 2;
pub const ON_SHEET: u32 = 3;

/// Scores.
pub const SUM: u32 = 1;
pub const SHARES: u32 = 2;

/// Calls of a row.
pub const LOAD: u32 = 1;
pub const GRANT_MORE: u32 = 2;
pub const NEXT: u32 = 3;
pub const REPORT: u32 = 4;

/// What came of a row.
pub const NOT_MADE: u32 = 0;
pub const LOADED: u32 = 1;
pub const GRANTED: u32 = 2;
pub const FOUND: u32 = 3;
pub const SPENT: u32 = 4;
pub const EXHAUSTED: u32 = 5;
pub const REPORTED: u32 = 6;
pub const REFUSED: u32 = 7;

#[repr(C)]
#[derive(Clone, Copy, Debug, PartialEq, Eq)]
pub struct Checked {
    pub lines: usize,
    pub place: usize,
    pub line: usize,
    pub cell: usize,
}

#[repr(C)]
#[derive(Clone, Copy, Debug, PartialEq, Eq)]
pub struct Seeking {
    pub grammar: u32,
    pub score: u32,
    pub south: i32,
    pub north: i32,
    pub west: i32,
    pub east: i32,
}

#[repr(C)]
#[derive(Clone, Copy, Debug, PartialEq, Eq)]
pub struct Asked {
    pub call: u32,
    pub start: usize,
    pub length: usize,
    pub number: usize,
}

#[repr(C)]
#[derive(Clone, Copy, Debug, PartialEq, Eq)]
pub struct Came {
    pub outcome: u32,
    pub refused: u32,
    pub place: usize,
    pub line: usize,
    pub cell: usize,
    pub written: usize,
    pub cells: usize,
    pub granted: usize,
    pub looked: usize,
    pub handed: usize,
    pub places: usize,
}

impl Came {
    /// An outcome with nothing beside it.
    pub fn plain(outcome: u32) -> Came {
        Came {
            outcome,
            refused: 0,
            place: NONE,
            line: NONE,
            cell: NONE,
            written: 0,
            cells: 0,
            granted: 0,
            looked: 0,
            handed: 0,
            places: 0,
        }
    }
}

#[repr(C)]
#[derive(Clone, Copy, Debug, PartialEq, Eq)]
pub struct Row {
    pub asked: Asked,
    pub came: Came,
}
