// The bunch writer: what an input is, and its answer.

pub mod expected;
#[cfg(ours)]
pub mod inputs;
#[cfg(ours)]
mod ours;
mod read;
#[cfg(not(ours))]
pub mod records;
mod rows;
#[cfg(ours)]
mod shown;
mod streams;

/// The numbers are those of the recorded answers.
pub const WRITE_BUNCH: usize = 27;
pub const CLOSE_PACKET: usize = 28;

/// A header's flags, by their places in `Header::flags`, as the call takes them. DORMANCY is the close reason, DORMANT the field.
pub const OPEN: u16 = 1;
pub const CLOSE: u16 = 1 << 1;
pub const DORMANT: u16 = 1 << 2;
pub const DORMANCY: u16 = 1 << 3;
pub const PAUSED: u16 = 1 << 4;
pub const RELIABLE: u16 = 1 << 5;
pub const PARTIAL: u16 = 1 << 6;
pub const INITIAL: u16 = 1 << 7;
pub const FINAL: u16 = 1 << 8;
pub const EXPORTS: u16 = 1 << 9;
pub const MAPPED: u16 = 1 << 10;

#[cfg(ours)]
pub const FLAG_NAMES: [&str; 11] =
    ["open", "close", "dormant", "dormancy", "paused", "reliable", "partial", "initial", "final", "exports", "mapped"];

#[derive(Clone, Copy, Default, PartialEq, Debug)]
pub struct Header {
    pub ch_index: u32,
    pub flags: u16,
}

impl Header {
    pub fn has(self, flags: u16) -> bool {
        self.flags & flags != 0
    }
}

/// The first `count` bits of a payload's bytes under a header.
#[derive(Clone, Default, PartialEq, Debug)]
pub struct Bunch {
    pub header: Header,
    pub payload: Vec<u8>,
    pub count: u64,
}

#[derive(Clone)]
pub struct Case {
    /// None is the closing call.
    pub bunch: Option<Bunch>,
    /// What is lent.
    pub packet: Vec<u8>,
    pub at: u64,
}

/// 0 and up to which bit the packet is written, or the refusal's number and what it returns.
pub type Words = [u64; 3];

#[derive(Clone, Default, PartialEq)]
pub struct Answer {
    pub words: Words,
    /// Every byte of the lent packet afterwards.
    pub packet: Vec<u8>,
    /// Memory that must stay as it was and didn't: the payload, or what stands around the packet.
    pub damage: Option<&'static str>,
}
