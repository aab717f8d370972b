// The packet reader: what an input is, and its answer.

pub mod expected;
#[cfg(ours)]
pub mod inputs;
#[cfg(ours)]
mod met;
#[cfg(ours)]
mod ours;
#[cfg(not(ours))]
pub mod records;
#[cfg(ours)]
mod shown;
pub mod streams;
mod tables;

use tables::Columns;

/// The numbers are those of the recorded answers.
#[derive(Clone, Copy, PartialEq, Eq, Debug)]
pub enum Call {
    WithMaxChannels = 25,
    ReadBunch,
}

/// 0 or the refusal's number, two words of what it returns, the case (0 bunch, 1 end, 2 malformed), the next cursor, four rises,
/// the live places of both tables, the header's twenty fields, and the payload's window. An opening has the first four.
pub type Words = [u64; 34];

#[derive(Clone)]
pub struct Case {
    pub call: Call,
    pub packet: Vec<u8>,
    pub id: i32,
    pub at: u64,
    pub limit: usize,
    /// How many places of each table count.
    pub live: [usize; 2],
    pub columns: Columns,
}

impl Case {
    /// No packet, and tables of so many places with nothing in them.
    pub fn new(limit: usize, places: usize) -> Self {
        Self {
            call: Call::ReadBunch,
            packet: Vec::new(),
            id: 0,
            at: 0,
            limit,
            live: [0; 2],
            columns: tables::untouched([places; 5]),
        }
    }
}

#[derive(Clone, PartialEq)]
pub struct Answer {
    pub words: Words,
    /// Every place afterwards.
    pub columns: Columns,
    /// Memory that must stay as it was and didn't: the packet, or what stands around a column.
    pub damage: Option<&'static str>,
}

impl Default for Answer {
    fn default() -> Self {
        Self { words: [0; 34], columns: Default::default(), damage: None }
    }
}

/// Which outcome the words tell.
pub const BUNCH: u64 = 0;
pub const END: u64 = 1;
pub const MALFORMED: u64 = 2;
