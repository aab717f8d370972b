// The record walks: what an input is, and its answer.

pub mod expected;
#[cfg(ours)]
pub mod inputs;
#[cfg(ours)]
mod ours;
#[cfg(not(ours))]
pub mod records;
#[cfg(ours)]
mod shown;
mod streams;

use crate::window::Window;

/// The numbers are those of the recorded answers.
#[derive(Clone, Copy, PartialEq, Eq, Debug)]
pub enum Call {
    RepLayout = 22,
    RepLayoutContentBlock,
    ClassNetCache,
}

pub const CALLS: [(Call, &str); 3] = [
    (Call::RepLayout, "parse_rep_layout"),
    (Call::RepLayoutContentBlock, "parse_rep_layout_content_block"),
    (Call::ClassNetCache, "parse_class_net_cache"),
];

impl Call {
    pub fn name(self) -> &'static str {
        CALLS[self as usize - Call::RepLayout as usize].1
    }
}

/// Handle, bit count, and the payload's start counted from the window's first bit and from the data's.
pub type Record = [u64; 4];

#[derive(Clone)]
pub struct Case {
    pub call: Call,
    pub data: Vec<u8>,
    pub window: Window,
    /// 0 where the call takes none.
    pub function_count: u32,
    pub places: usize,
}

impl Case {
    pub fn new(call: Call, data: &[u8], window: Window, function_count: u32, places: usize) -> Self {
        Self { call, data: data.to_vec(), window, function_count, places }
    }
}

/// What stands in a place before the call: in each word something else, and nothing that a record holds.
pub fn before(index: usize) -> Record {
    let word = 0xc3a5_0000_0000_0000 | (index as u64) << 8;
    [word, word | 1, word | 2, word | 3]
}

#[derive(Clone, Default, PartialEq)]
pub struct Answer {
    /// The last is how many records were written.
    pub words: [u64; 8],
    /// Every place afterwards.
    pub places: Vec<Record>,
    /// Memory that must stay as it was and didn't: the data, or what stands around the list.
    pub damage: Option<&'static str>,
}
