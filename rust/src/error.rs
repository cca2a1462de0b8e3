//! Why the engine refused.

use std::fmt;

/// What a refusal is about, by the numbers of `include/ix.h`.
#[derive(Clone, Copy, Debug, PartialEq, Eq, Hash)]
#[non_exhaustive]
pub enum Area {
    /// The documents make no collection text.
    Collection,
    /// A stop word is not exactly one word, or too long.
    Stop,
    /// The text is no query.
    Query,
    /// The text is no pattern of terms.
    Pattern,
    /// The bytes are no index text.
    Index,
    /// The documents make no run: counted from their first number on, they are more than a run holds.
    Run,
    /// The bytes are not the run texts of the parts of one collection, each part once, under the same stop words.
    Merge,
    /// Memory ran out.
    Memory,
}

impl Area {
    pub(crate) fn of(number: u32) -> Area {
        match number {
            1 => Area::Collection,
            2 => Area::Stop,
            3 => Area::Query,
            4 => Area::Pattern,
            5 => Area::Index,
            6 => Area::Run,
            7 => Area::Merge,
            9 => Area::Memory,
            _ => unreachable!("no call of this crate is refused with area {number}"),
        }
    }
}

/// The engine refused. It prints as area, number and name, as in `query 2: Unexpected(4)`.
#[derive(Clone, Debug, PartialEq, Eq)]
pub struct Error {
    pub(crate) area: Area,
    pub(crate) number: u32,
    pub(crate) line: String,
}

impl Error {
    /// What the refusal is about.
    pub fn area(&self) -> Area {
        self.area
    }

    /// The error's place in the list of its area, from 1.
    pub fn number(&self) -> u32 {
        self.number
    }
}

impl fmt::Display for Error {
    fn fmt(&self, f: &mut fmt::Formatter<'_>) -> fmt::Result {
        f.write_str(&self.line)
    }
}

impl std::error::Error for Error {}
