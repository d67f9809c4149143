//! The numbers of requests and replies. Made by tools/layout.py, from the crate `messages`.

// (all of them, whichever are in use)
#![allow(dead_code)]

/// The number of the layout.
pub const LAYOUT: u64 = 1;

/// What a call asks for.
#[derive(Clone, Copy, PartialEq, Eq)]
pub enum Operation {
    Again = 0,
    Line = 1,
    OpenSession = 2,
    CloseSession = 3,
    Prepare = 4,
    Forget = 5,
    Run = 6,
    Execute = 7,
    Begin = 8,
    BeginReadOnly = 9,
    Commit = 10,
    Rollback = 11,
    Report = 12,
    Checkpoint = 13,
    RunAll = 14,
    Transact = 15,
    Image = 16,
    Move = 17,
}

/// What became of a call.
pub mod status {
    pub const DONE: i32 = 0;
    pub const REFUSED: i32 = 1;
    pub const NO_MEMORY: i32 = 2;
    pub const REPLY_WAITS: i32 = 3;
    pub const BAD_REQUEST: i32 = 4;
    pub const NO_SESSION: i32 = 5;
    pub const NO_STATEMENT: i32 = 6;
    pub const WRONG_COUNT: i32 = 7;
    pub const BAD_VALUE: i32 = 8;
    pub const BAD_NAME: i32 = 9;
    pub const NAME_TAKEN: i32 = 10;
    pub const CLOSED: i32 = 11;
    pub const NOT_KEPT: i32 = 12;
    pub const JOURNALED: i32 = 13;
    pub const UNRESTORED: i32 = 14;
}

/// What a reply is of: its first byte.
pub mod kind {
    pub const NOTHING: u8 = 0;
    pub const OPENED: u8 = 1;
    pub const SESSION: u8 = 2;
    pub const STATEMENT: u8 = 3;
    pub const CHANGED: u8 = 4;
    pub const BEGUN: u8 = 5;
    pub const COMMITTED: u8 = 6;
    pub const ROLLED_BACK: u8 = 7;
    pub const INSERTED: u8 = 8;
    pub const UPDATED: u8 = 9;
    pub const DELETED: u8 = 10;
    pub const ROWS: u8 = 11;
    pub const MODES_SET: u8 = 12;
    pub const VERDICT: u8 = 13;
    pub const TEXT: u8 = 14;
    pub const REFUSAL: u8 = 15;
    pub const MISUSED: u8 = 16;
    pub const SEVERAL: u8 = 17;
    pub const UNRESTORED: u8 = 18;
    pub const IMAGE: u8 = 19;
}

/// What a value is: its first byte.
pub mod value_kind {
    pub const NULL: u8 = 0;
    pub const NUMBER: u8 = 1;
    pub const CHARACTERS: u8 = 2;
    pub const ALL: u8 = 3;
    pub const NO_VALUE: u8 = 4;
    pub const NUMERIC: u8 = 5;
}
